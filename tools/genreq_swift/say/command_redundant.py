"""`genreq-swift redundant`: the written requirements that follow from others."""
import argparse
import json
from dataclasses import replace
from typing import Dict, Iterator, List, Sequence, Tuple

from ..ask.derivations import shown
from ..read.model import Place, Reading, Requirement
from .output import print_line
from .progress import Progress
from ..ask.own_names import OwnNames, own_names
from ..ask.parts import protocol_part
from ..ask.program import Program
from ..ask.in_protocols import ProtocolRedundancy
from ..ask.asking import Questions
from ..ask.clock import Clock, TimeUp
from ..ask.closure import LeftOut
from .reading_options import add_asking_options, add_reading_options, program_of, reading_of
from ..ask.findings import Finding
from ..ask.in_signatures import Redundancy
from ..ask.settled import Settled
from .telling import left_out_lines, status_of, tell, time_up_lines, told

DESCRIPTION = """Prints a warning for each written requirement that follows from the others of its declaration, of the declarations around it
and of the protocols: FILE:LINE:COLUMN: warning: requirement .. is redundant: it follows from ... The status is 1 where there is one,
and 4 where something could not be read or asked too.

What is told can all be taken out together. Each requirement is asked of a function without it, and for each warning there is a derivation
that `genreq verify` accepts; --why prints it, with the place of each requirement that it uses. What is left out of an incomplete signature
could only make more requirements redundant. What the type of a parameter needs makes no requirement redundant."""


def add(subparsers: "argparse._SubParsersAction[argparse.ArgumentParser]") -> None:
    parser = subparsers.add_parser(
        "redundant",
        help="the written requirements that follow from others",
        description=DESCRIPTION,
        formatter_class=argparse.RawDescriptionHelpFormatter,
    )
    add_reading_options(parser)
    add_asking_options(parser)
    parser.add_argument("--why", action="store_true", help="prints under each warning a derivation by the rules of docs/DERIVATION.md")
    parser.add_argument("--json", action="store_true", help="prints an object for each warning, one a line")
    parser.set_defaults(run=run)


def run(arguments: argparse.Namespace) -> int:
    program, reading = program_of(arguments), reading_of(arguments)
    names, count = own_names(reading), 0
    lint = Lint(reading, program)
    with Progress(len(reading.signatures)) as progress:
        for finding in lint.findings(progress):
            count += 1
            for line in [as_object(finding, names)] if arguments.json else as_lines(finding, names, arguments.why):
                print_line(line)
    tell(told(reading) + left_out_lines(reading, lint.left_out) + lint.late)
    return status_of(reading, [*lint.left_out, *lint.late], count > 0)


# So many signatures are asked together.
_MANY = 512


class Lint:
    """What is redundant in the named sources. `left_out` are the declarations that could not be asked, `late` tells what was not asked in time."""

    def __init__(self, reading: Reading, program: Program):
        self.reading = reading
        self.program = program
        self.left_out: List[LeftOut] = []
        self.late: List[str] = []
        self._of_protocols: List[Finding] = []

    def findings(self, progress: Progress) -> Iterator[Finding]:
        """The findings by place, as soon as they are there."""
        reading, done = self.reading, 0
        questions = Questions(self.program, [protocol_part(protocol) for protocol in reading.protocols])
        signatures = Redundancy(questions, reading.protocols)
        try:
            questions.settle()
            self._ask_protocols(questions.settled)
            while done < len(reading.signatures):
                some = reading.signatures[done : done + _MANY]
                found = signatures.findings(some)
                done += len(some)
                progress.count = done
                progress.hide()
                yield from self._in_order(found, some[-1].place)
        except TimeUp:
            seconds = self.program.clock.seconds or 0
            self.late += time_up_lines(seconds, "signatures", len(reading.signatures), reading.signatures[done:])
        yield from self._of_protocols
        self.left_out += [*questions.protocols_left_out, *signatures.left_out]

    def _ask_protocols(self, settled: Settled) -> None:
        """Asks of the protocols over which is answered, which may take half of the time."""
        clock = self.program.clock
        settled.program = replace(self.program, clock=Clock(clock.seconds / 2) if clock.seconds is not None else clock)
        own = [protocol for protocol in self.reading.own_protocols if protocol.label in settled.labels]
        protocols = ProtocolRedundancy(settled, self.reading.protocols)
        try:
            self._of_protocols = sorted(protocols.findings(own), key=lambda finding: finding.unit.place)
        except TimeUp:
            self.late += time_up_lines((clock.seconds or 0) / 2, "protocols", len(own), own)
        self.left_out += protocols.left_out

    def _in_order(self, found: Sequence[Finding], last: Place) -> List[Finding]:
        """Findings of signatures, and those of protocols that stand before the last of these."""
        before = [finding for finding in self._of_protocols if finding.unit.place <= last]
        self._of_protocols = self._of_protocols[len(before) :]
        return sorted([*found, *before], key=lambda finding: finding.unit.place)


def findings_of(reading: Reading, program: Program) -> Tuple[List[Finding], Sequence[LeftOut]]:
    """What is redundant in the named sources, by place, and what could not be asked."""
    lint = Lint(reading, program)
    return list(lint.findings(Progress(0))), lint.left_out


def message(finding: Finding) -> str:
    """What a warning says."""
    requirements = finding.unit.requirements
    written = " and ".join("'%s'" % requirement for requirement in requirements)
    several = len(requirements) > 1
    said = "requirements %s are redundant" % written if several else "requirement %s is redundant" % written
    return "%s: %s %s" % (said, "they" if several else "it", cause(finding))


def cause(finding: Finding) -> str:
    """What a finding follows from, and the place where it is written already."""
    if not finding.follows_from:
        return "hold of themselves" if len(finding.unit.requirements) > 1 else "holds of itself"
    several = len(finding.unit.requirements) > 1
    first = finding.follows_from[0]
    if len(finding.follows_from) == 1 and str(first) == str(finding.unit.requirements[0]):
        return "%s written at %s" % ("are" if several else "is", first.place)
    return "%s from %s" % ("follow" if several else "follows", " and ".join("'%s'" % requirement for requirement in finding.follows_from))


def as_lines(finding: Finding, names: OwnNames, why: bool) -> List[str]:
    lines = ["%s: warning: %s" % (finding.unit.place, message(finding))]
    if why:
        lines += [line for derivation in derivations_of(finding, names) for line in derivation]
    return lines


def derivations_of(finding: Finding, names: OwnNames) -> List[List[str]]:
    """The derivations in own names, with places."""
    return [shown(derivation, finding.lists, names, finding.unit.declaration.parameters) for derivation in finding.derivations]


def as_object(finding: Finding, names: OwnNames) -> str:
    found: Dict[str, object] = {
        **placed(finding.unit.requirements[0]),
        "declaration": finding.unit.declaration.name,
        "requirements": [str(requirement) for requirement in finding.unit.requirements],
        "message": message(finding),
        "follows_from": [placed(requirement, True) for requirement in finding.follows_from],
        "derivations": [[line.strip() for line in derivation] for derivation in derivations_of(finding, names)],
    }
    return json.dumps(found, ensure_ascii=False)


def placed(requirement: Requirement, with_text: bool = False) -> Dict[str, object]:
    """The place of a requirement, and the requirement itself where that is wanted."""
    place = requirement.place
    found: Dict[str, object] = {"file": place.file, "line": place.line, "column": place.column}
    return dict(found, requirement=str(requirement)) if with_text else found
