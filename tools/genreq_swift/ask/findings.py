"""Written requirements that follow from others, each with derivations that `verify` accepts."""
from dataclasses import dataclass
from typing import Dict, List, Sequence, Tuple

from ..read.model import Declaration, Origin, Place, Requirement
from .asking import Answers, Questions
from .closure import LeftOut
from .derivations import Lists
from .program import Answer, Command, Part, ProgramFailed


@dataclass(frozen=True)
class Unit:
    """What can be taken out of a declaration as one: a requirement, or a constraint with arguments.

    `numbers` are those of its requirements among all of the declaration, from 0.
    """

    declaration: Declaration
    numbers: Tuple[int, ...]

    @property
    def requirements(self) -> Tuple[Requirement, ...]:
        return tuple(self.declaration.requirements[number] for number in self.numbers)

    @property
    def place(self) -> Place:
        return self.requirements[0].place


@dataclass(frozen=True)
class Finding:
    """A redundant unit, what it follows from, and a derivation of each of its requirements, as genreq prints it of `lists`."""

    unit: Unit
    follows_from: Tuple[Requirement, ...]
    derivations: Tuple[Tuple[str, ...], ...]
    lists: Lists


def units_of(declaration: Declaration) -> List[Unit]:
    """The units that a declaration itself writes, in written order. What is omitted in part is none."""
    omitted = {omission.clause for omission in declaration.omissions}
    by_clause: Dict[object, List[int]] = {}
    for number, requirement in enumerate(declaration.requirements):
        if requirement.origin is Origin.OWN and requirement.clause not in omitted:
            by_clause.setdefault(requirement.clause, []).append(number)
    return [Unit(declaration, tuple(numbers)) for numbers in by_clause.values()]


def asked_label(number: int) -> str:
    """The label of the function of an attempt."""
    return "asked_%d" % number


def check(questions: Questions, parts: Sequence[Part], answers: Sequence[Tuple[Answer, ...]]) -> None:
    """ProgramFailed unless `verify` accepts a derivation of each query."""
    verdicts = questions.verify(parts, {part.label: given for part, given in zip(parts, answers)})
    for part in parts:
        for query, verdict in zip(part.queries, verdicts[part.label]):
            if verdict != "ok":
                raise ProgramFailed("`verify` says of the derivation of %s: %s" % (query, verdict))


def derived(questions: Questions, parts: Sequence[Part]) -> Tuple[Answers, List[LeftOut]]:
    """The answers of `explain` to functions, those with a yes to each query, which `verify` accepts; and the functions that are left out."""
    found: Answers = {}
    left_out: List[LeftOut] = []
    for together in questions.together(parts):
        answered = questions.ask(Command.EXPLAIN, together)
        left_out += answered.left_out
        given = answered.answers
        proved = [part for part in together if part.label in given and all(answer.line == "yes" for answer in given[part.label])]
        check(questions, proved, [given[part.label] for part in proved])
        found.update((part.label, given[part.label]) for part in proved)
    return found, left_out
