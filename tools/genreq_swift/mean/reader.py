"""Reads Swift sources: from files and folders to protocols and signatures."""
import sys
from typing import List, Sequence, Tuple

from ..read.conditions import Configuration
from ..read.declarations import DeclarationSyntax, read_declarations
from ..read.model import Problem, Reading
from .seen import Seen
from .signatures import SignatureMaker, needed_protocols
from ..read.sources import read_files
from ..read.tokens import Source, SourceError

_DEEPEST = 3000  # nested calls; what is nested more deeply is told
ReadFile = Tuple[Source, Tuple[DeclarationSyntax, ...]]


def read(
    paths: Sequence[str],
    beside: Sequence[str] = (),
    configuration: Configuration = Configuration(),
    concrete: bool = False,
    module: str = "",
) -> Reading:
    """Reads sources, and others beside them whose signatures are not wanted, but to which names may refer.

    Where `concrete` is set, concrete types without generic arguments stand as further generic parameters of signatures. `module` is the module
    of the sources, where they should not be of those that their headers or folders say.
    """
    problems: List[Problem] = []
    named = read_syntax(paths, configuration, problems)
    for source, _ in named:
        source.module = module or source.module
    seen = {source.file for source, _ in named}
    others = [(source, declared) for source, declared in read_syntax(beside, configuration, problems) if source.file not in seen]
    return reading_of(named, others, problems, concrete)


def read_syntax(paths: Sequence[str], configuration: Configuration, problems: List[Problem]) -> List[ReadFile]:
    """The declarations of all sources that can be read. What is told of the others is added to the problems."""
    files = read_files(paths)
    problems += files.problems
    found: List[ReadFile] = []
    before = sys.getrecursionlimit()
    sys.setrecursionlimit(max(before, _DEEPEST))
    try:
        for source in files.sources:
            errors: List[SourceError] = []
            try:
                found.append((source, read_declarations(source, configuration, errors)))
            except SourceError as error:
                problems.append(Problem("%s; this file is left out" % error.message, error.place, source.file))
            else:
                problems += [Problem("%s; this declaration is left out" % error.message, error.place, source.file) for error in errors]
    finally:
        sys.setrecursionlimit(before)
    return found


def reading_of(
    named: Sequence[ReadFile], others: Sequence[ReadFile], problems: Sequence[Problem] = (), concrete: bool = False
) -> Reading:
    """The protocols and signatures of files that are read."""
    maker = SignatureMaker(list(named) + list(others), concrete)
    all_protocols = tuple(maker.protocols())
    signatures = tuple(signature for roots in maker.names.roots[: len(named)] for signature in maker.signatures(roots))
    own_files = {source.file for source, _ in named}
    own = frozenset(protocol.label for protocol in all_protocols if protocol.place.file in own_files)
    protocols = needed_protocols(all_protocols, own, signatures)
    told = tuple(problems) + tuple(maker.problems)
    seen = Seen(maker.names, maker.contexts, maker.made)
    return Reading(protocols, own, signatures, told, maker.counts(len(named)), all_protocols, seen.protocol)
