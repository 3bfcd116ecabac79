"""The sentences of the contract of `run`: the fields of the record `IsRun`, and the clauses of `run` itself."""
import re
from dataclasses import dataclass
from typing import Dict, List, Pattern, Set

from definition_page.specs import Key, Specs

# The clause `run` of `run` says that what this module calls `IsRun` is true of each run.
CONTRACT = "Rattle.swreq_top.specs.Contract"
# The name under which the clauses of `run` stand as a module.
RUN = "run"
FIELD = re.compile(r"pub (\w+) : (.*)")
CLAUSE = re.compile(r"ensures (\w+) (\{.*)")


@dataclass
class Clause:
    """A sentence: its name, what the comment above it says, its text, and the module in which it stands."""

    name: str
    comment: str
    text: str
    module: str


def clauses_of(lines: List[str], begin: Pattern[str], mark: str, module: str) -> List[Clause]:
    """The clauses that begin so, each with the comment above it, of which each line begins with the mark."""
    clauses: List[Clause] = []
    comment = ""
    for line in map(str.strip, lines):
        found = begin.match(line)
        if found:
            clauses.append(Clause(found[1], comment, found[2], module))
            comment = ""
        elif line.startswith(mark):
            comment = (comment + " " + line[2:].strip()).strip()
        elif clauses:
            clauses[-1].text += "\n" + line
    return clauses


def fields_of_contract(text: str) -> List[Clause]:
    """The fields of the record in the file of the contract."""
    return clauses_of(text.partition("pub record IsRun")[2].split("\n")[1:], FIELD, "--", CONTRACT)


def clauses_of_run(source: str) -> List[Clause]:
    """The clauses of `run` in its source, but the one that says the record."""
    head = source.partition("pub fn run")[2].partition("\n{\n")[0]
    return [clause for clause in clauses_of(head.split("\n"), CLAUSE, "//", RUN) if clause.name != "run"]


def own_of(named: Dict[str, Set[Key]]) -> Dict[str, Set[Key]]:
    """What each name has that no other has."""
    others = {name: [named[other] for other in named if other != name] for name in named}
    return {name: named[name] - set().union(*others[name]) for name in named}


def sentence_of(clause: str, cited: Dict[str, Set[Key]], specs: Specs) -> Set[Key]:
    """What a clause cites and no other does. Where that joins its own sentence with most of what the clause rests on, as other clauses do
    with theirs, it is that sentence."""

    def size_of(keys: Set[Key]) -> int:
        return len(specs.closure(keys)[0])

    own = own_of(cited)
    found = own[clause] or cited[clause]
    while 2 * size_of(found) > size_of(cited[clause]):
        own = own_of({name: set().union(*(specs.below(key) for key in own[name])) for name in own})
        if not own[clause] or size_of(own[clause]) >= size_of(found):
            break
        found = own[clause]
    return found
