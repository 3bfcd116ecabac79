"""Which written requirements of protocols are redundant.

Those go that `requirements` does not keep. Each is then asked of a function that requires its protocol, over the protocols without all of them,
and what is told has a derivation that `verify` accepts. Where `requirements` passes a limit, each is asked by itself whether it may go too.

Swift wants a protocol to name what it inherits, also where an equation of `Self` implies it. So what is required of `Self` itself goes only where
it is inherited from a protocol that is named.
"""
from dataclasses import replace
from typing import Dict, FrozenSet, List, Mapping, Sequence, Set, Tuple

from .derivations import Lists
from ..read.model import Declaration, Protocol, Requirement
from .parts import conforming_part, in_function, protocol_part, protocols_of
from .program import LEVELS, Answer, Command, Part
from .asking import Questions, each_requirement_signature
from .closure import LeftOut
from .findings import Finding, Unit, asked_label, derived, units_of
from .reduced_requirements import kept_numbers
from .settled import Settled

Without = Mapping[str, FrozenSet[int]]


class ProtocolRedundancy:
    """Looks for redundant requirements of protocols over which genreq answers."""

    def __init__(self, settled: Settled, protocols: Sequence[Protocol]):
        self.program = settled.program
        self.settled = settled
        self.protocols = [protocol for protocol in protocols if protocol.label in settled.labels]
        self._required = {protocol.label: protocol.requirements for protocol in self.protocols}
        self.left_out: List[LeftOut] = []  # the protocols some of whose requirements could not be asked

    def findings(self, own: Sequence[Protocol]) -> List[Finding]:
        """The redundant units of some of the protocols, which can all be taken out together."""
        asked = [protocol for protocol in own if can_lack_one(protocol)]
        kept: Dict[str, Answer] = {}
        for signatures in each_requirement_signature(self.settled, {protocol.label for protocol in asked}):
            kept.update(signatures)
        units = [unit for protocol in asked for unit in units_of(protocol) if self._need_not_be_named(unit)]
        staying = {protocol.label: kept_numbers(protocol, kept[protocol.label]) for protocol in asked if protocol.label in kept}
        found = [unit for unit in units if unit.declaration.label in kept and staying[unit.declaration.label].isdisjoint(unit.numbers)]
        without: Dict[str, FrozenSet[int]] = {}
        for unit in found:
            add(without, unit)
        for unit in reversed([unit for unit in units if unit.declaration.label not in kept]):
            if self._has_time(unit) and self._follows(unit, without):
                add(without, unit)
                found.append(unit)
        return self._explained(found, without)

    def _has_time(self, unit: Unit) -> bool:
        """Whether there is time for a unit that is hard. Of each protocol of which there is not, that is told once."""
        if self.program.clock.has_time_for_hard:
            return True
        if all(one.label != unit.declaration.label for one in self.left_out):
            self.left_out.append(LeftOut(unit.declaration.label, True, "its requirements together take more than a second"))
        return False

    def _need_not_be_named(self, unit: Unit) -> bool:
        """Whether each requirement of a unit is one of a member, or is written also in what the protocol inherits, or again in itself."""
        named = [requirement for requirement in unit.requirements if not (requirement.other or requirement.subject.members)]
        inherited = self._inherited(unit)
        return all(requirement.labelled in inherited for requirement in named)

    def _inherited(self, unit: Unit) -> Set[str]:
        """What is written of `Self` in the protocol of a unit, but for the unit, and in the protocols that are inherited by that."""
        ahead = [kept_of(unit.declaration, frozenset(unit.numbers))]
        found: Set[str] = set()
        while ahead:
            for requirement in ahead.pop():
                if not (requirement.other or requirement.subject.members or requirement.labelled in found):
                    found.add(requirement.labelled)
                    ahead.append(self._required[requirement.protocol.label] if requirement.protocol else ())
        return found

    def _parts(self, without: Without) -> List[Part]:
        return [protocol_part(protocol, without.get(protocol.label, frozenset())) for protocol in self.protocols]

    def _follows(self, unit: Unit, without: Without) -> bool:
        """Whether a unit follows when it is taken out beside these."""
        more = dict(without)
        add(more, unit)
        questions = Questions(self.program, self._parts(more), LEVELS[:1])
        given = questions.ask(Command.ANSWER, [asking_part(0, unit)]).answers.get(asked_label(0))
        return given is not None and all(answer.line == "yes" for answer in given)

    def _explained(self, units: Sequence[Unit], without: Without) -> List[Finding]:
        """The findings with their derivations, over the protocols without these requirements."""
        questions = Questions(self.program, self._parts(without))
        lists = Lists((), {protocol.label: kept_of(protocol, without.get(protocol.label, frozenset())) for protocol in self.protocols})
        answers, _ = derived(questions, [asking_part(number, unit) for number, unit in enumerate(units)])
        found = []
        for number, unit in enumerate(units):
            given = answers.get(asked_label(number))
            if given:
                derivations = tuple(answer.under for answer in given)
                found.append(Finding(unit, lists.used_of(derivations, unit.declaration.label), derivations, lists))
        return found


def can_lack_one(protocol: Protocol) -> bool:
    """Whether a requirement of a protocol may be redundant. A conformance or a layout that stands alone follows from nothing."""
    return len(protocol.requirements) > 1 or any(requirement.other for requirement in protocol.requirements)


def add(without: Dict[str, FrozenSet[int]], unit: Unit) -> None:
    """Takes a unit out of its protocol too."""
    label = unit.declaration.label
    without[label] = without.get(label, frozenset()) | frozenset(unit.numbers)


def asking_part(number: int, unit: Unit) -> Part:
    """The function that requires the protocol of a unit, and is asked for the unit."""
    assert isinstance(unit.declaration, Protocol)
    part = conforming_part(asked_label(number), unit.declaration, [query_of(requirement) for requirement in unit.requirements])
    return replace(part, needs=part.needs | protocols_of(unit.requirements))


def kept_of(protocol: Declaration, without: FrozenSet[int]) -> Tuple[Requirement, ...]:
    """The requirements of a protocol but for those with these numbers."""
    return tuple(requirement for number, requirement in enumerate(protocol.requirements) if number not in without)


def query_of(requirement: Requirement) -> str:
    """A requirement of a protocol as a query of what conforms to it."""
    other = in_function(requirement.other) if requirement.other else None
    return replace(requirement, subject=in_function(requirement.subject), other=other).labelled
