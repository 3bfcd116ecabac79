"""Which written requirements of signatures are redundant.

A requirement is redundant where it is derivable from the other requirements of its declaration and of those around it, and these are between
types without it too. So it is asked of a function without it, and what is told has a derivation that `verify` accepts.

The function is written in rounds. It begins with the requirements between generic parameters, and gets further ones when their sides are types
of it. So it is not refused, and a requirement without which another side is no type is not redundant.

Inferred requirements are there to make sides types, and for nothing else: it is no fault to write what the type of a parameter needs.
"""
from dataclasses import dataclass, replace
from typing import Dict, FrozenSet, List, Mapping, Optional, Sequence, Tuple

from ..read.model import Origin, Protocol, Requirement, Signature
from .parts import function_part, protocols_of, sides_of
from .program import Answer, Command, Part
from .asking import Questions
from .closure import LeftOut
from .derivations import Lists
from .findings import Finding, Unit, asked_label, derived, units_of


@dataclass(frozen=True)
class Attempt:
    """A unit, asked of a function with some requirements of its signature.

    `used` are the numbers of those that the function has, `waiting` of those whose sides are not known to be types, and `spare` of the inferred
    ones, which join when no other can.
    """

    unit: Unit
    used: Tuple[int, ...]
    waiting: Tuple[int, ...]
    spare: Tuple[int, ...]

    def part(self, label: str, with_sides: bool = True) -> Part:
        """The function, with the unit's requirements as its first queries, and after them the waiting sides."""
        signature = self.unit.declaration
        assert isinstance(signature, Signature)
        queries = [requirement.labelled for requirement in self.unit.requirements]
        if with_sides:
            queries += [side.labelled for number in self.waiting for side in sides_of(signature.requirements[number])]
        part = function_part(replace(signature, label=label), self.chosen, queries)
        return replace(part, needs=part.needs | protocols_of(self.unit.requirements))

    @property
    def chosen(self) -> Tuple[Requirement, ...]:
        """The requirements that the function has."""
        return tuple(self.unit.declaration.requirements[number] for number in self.used)

    def follows(self, answers: Sequence[Answer]) -> bool:
        return all(answer.line == "yes" for answer in answers[: len(self.unit.numbers)])

    def next(self, answers: Sequence[Answer]) -> Optional["Attempt"]:
        """The attempt with those that can join, or None where none can."""
        sides = iter(answers[len(self.unit.numbers) :])
        joining: List[int] = []
        waiting: List[int] = []
        for number in self.waiting:
            are_types = [next(sides).line != "invalid" for _ in sides_of(self.unit.declaration.requirements[number])]
            (joining if all(are_types) else waiting).append(number)
        if joining:
            return replace(self, used=tuple(sorted([*self.used, *joining])), waiting=tuple(waiting))
        if waiting and self.spare:
            return replace(self, waiting=tuple(sorted([*waiting, *self.spare])), spare=())
        return None


def first_attempt(unit: Unit, without: FrozenSet[int]) -> Attempt:
    """The attempt to derive a unit, without these requirements, its own among them."""
    requirements = unit.declaration.requirements
    own = {requirement.labelled for requirement in unit.requirements}
    used, waiting, spare = [], [], []
    for number, requirement in enumerate(requirements):
        if number in without:
            continue
        if requirement.origin is Origin.INFERRED:
            if requirement.labelled not in own:
                spare.append(number)
        elif any(side.members for side in sides_of(requirement)):
            waiting.append(number)
        else:
            used.append(number)
    return Attempt(unit, tuple(used), tuple(waiting), tuple(spare))


class Redundancy:
    """Looks for redundant requirements of signatures. `left_out` tells which signatures, or single requirements of them, could not be asked."""

    def __init__(self, questions: Questions, protocols: Sequence[Protocol]):
        self.questions = questions
        self.required = {protocol.label: protocol.requirements for protocol in protocols}
        self.left_out: List[LeftOut] = []

    def findings(self, signatures: Sequence[Signature]) -> List[Finding]:
        """The redundant units, which can all be taken out together. Of several that follow from each other the last ones are told."""
        answered = self.questions.ask(Command.ANSWER, [function_part(signature) for signature in signatures])
        self.left_out += answered.left_out
        units = [unit for signature in signatures if signature.label in answered.answers for unit in units_of(signature)]
        found = self._followed([first_attempt(unit, frozenset(unit.numbers)) for unit in units])
        return self._explained(self._together(found))

    def _followed(self, attempts: Sequence[Attempt]) -> List[Attempt]:
        """The attempts that succeed, with the requirements with which they do, in their order."""
        found: Dict[int, Attempt] = {}
        going = dict(enumerate(attempts))
        while going:
            answers = self._answers(Command.ANSWER, going, [attempt.part(asked_label(number)) for number, attempt in going.items()])
            ahead: Dict[int, Attempt] = {}
            for number, given in answers.items():
                further = going[number].next(given)
                if going[number].follows(given):
                    found[number] = going[number]
                elif further:
                    ahead[number] = further
            going = ahead
        return [found[number] for number in sorted(found)]

    def _answers(self, command: Command, attempts: Mapping[int, Attempt], parts: Sequence[Part]) -> Dict[int, Tuple[Answer, ...]]:
        """The answers by numbers of attempts. What is not answered is told of its signature."""
        answered = self.questions.ask(command, parts)
        self._tell(attempts, answered.left_out)
        return {number: answered.answers[asked_label(number)] for number in attempts if asked_label(number) in answered.answers}

    def _tell(self, attempts: Mapping[int, Attempt], left_out: Sequence[LeftOut]) -> None:
        """Tells of its signature what is left out."""
        reasons = {one.label: one.reason for one in left_out}
        for number, attempt in attempts.items():
            if asked_label(number) in reasons:
                reason = "'%s' is not asked: %s" % (attempt.unit.requirements[0], reasons[asked_label(number)])
                self.left_out.append(LeftOut(attempt.unit.declaration.label, False, reason))

    def _together(self, attempts: Sequence[Attempt]) -> List[Attempt]:
        """Those that can be taken out together, by place, each as it succeeds without all of them."""
        out = self._taken_out([attempt.unit for attempt in attempts])
        found, again = [], []
        for attempt in attempts:
            unit, gone = attempt.unit, out[attempt.unit.declaration.label]
            if gone == frozenset(unit.numbers):
                found.append(attempt)
            elif gone.issuperset(unit.numbers):
                again.append(first_attempt(unit, gone))
        return sorted(found + self._followed(again), key=lambda attempt: attempt.unit.place)

    def _taken_out(self, units: Sequence[Unit]) -> Dict[str, FrozenSet[int]]:
        """The numbers of requirements that go from each signature. Of units that each follow, one goes if it follows without those gone before it,
        from the last on."""
        left: Dict[str, List[Unit]] = {}
        for unit in units:
            left.setdefault(unit.declaration.label, []).append(unit)
        out = {label: frozenset(of_one.pop().numbers) for label, of_one in left.items()}
        while any(left.values()):
            lasts = [of_one.pop() for of_one in left.values() if of_one]
            for attempt in self._followed([first_attempt(unit, out[unit.declaration.label].union(unit.numbers)) for unit in lasts]):
                out[attempt.unit.declaration.label] |= frozenset(attempt.unit.numbers)
        return out

    def _explained(self, attempts: Sequence[Attempt]) -> List[Finding]:
        """The findings with their derivations, each asked over the protocols that it needs. What follows from an inferred requirement is none."""
        parts = [attempt.part(asked_label(number), with_sides=False) for number, attempt in enumerate(attempts)]
        answers, left_out = derived(self.questions, parts)
        self._tell(dict(enumerate(attempts)), left_out)
        found = []
        for number, attempt in enumerate(attempts):
            if asked_label(number) in answers:
                derivations = tuple(answer.under for answer in answers[asked_label(number)])
                lists = Lists(attempt.chosen, self.required)
                follows_from = lists.used_of(derivations)
                if all(requirement.origin is not Origin.INFERRED for requirement in follows_from):
                    found.append(Finding(attempt.unit, follows_from, derivations, lists))
        return found
