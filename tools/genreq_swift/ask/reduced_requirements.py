"""Requirement signatures with the types that the Swift compiler prints in them.

genreq prints the requirements that it keeps of a protocol as they are written. The compiler prints reduced types with bound members: the reduced
subject of a conformance, and the sides of an equation as they are reduced without it. For that a copy of the protocol, which lacks the equation,
stands beside the protocols.
"""
from collections import Counter
from dataclasses import dataclass, replace
from typing import Dict, FrozenSet, List, Mapping, Optional, Sequence, Set

from ..read.model import Protocol, Requirement
from .parts import conforming_part, in_function, protocol_part, sides_of
from .printed import Conformance, Layout, PrintedMember, PrintedRequirement, PrintedSignature, PrintedType, SameType, read_signature, read_type
from .program import Answer, Command, Part, Program
from .asking import Questions

SELF = "Self"


def kept_numbers(protocol: Protocol, kept: Answer) -> FrozenSet[int]:
    """The numbers of the requirements that a requirement signature keeps, from 0: of equal ones the first."""
    left = Counter(str(requirement) for requirement in read_signature(kept.line).requirements)
    numbers = set()
    for number, requirement in enumerate(protocol.requirements):
        if left[requirement.labelled] > 0:
            left[requirement.labelled] -= 1
            numbers.add(number)
    return frozenset(numbers)


@dataclass(frozen=True)
class Asked:
    """One kept requirement of a protocol, the protocol of which its sides are asked, which may be a copy, and the function that conforms to it."""

    protocol: Protocol
    number: int
    conforms_to: Part
    function: Part

    @property
    def requirement(self) -> Requirement:
        return self.protocol.requirements[self.number]


def asked_of(protocol: Protocol, kept: FrozenSet[int], taken: Set[str]) -> List[Asked]:
    """What is asked of a protocol. Labels of copies are none of those that are taken."""
    found = []
    for number in sorted(kept):
        requirement = protocol.requirements[number]
        label, without = protocol.label, frozenset(range(len(protocol.requirements))) - kept
        if requirement.other:
            label, without = fresh("%s_%d" % (label, number), taken), without | {number}
        copy = replace(protocol, label=label)
        queries = [in_function(side).labelled for side in sides_of(requirement)]
        found.append(Asked(protocol, number, protocol_part(copy, without), conforming_part("%s_%d" % (label, number), copy, queries)))
    return found


def fresh(label: str, taken: Set[str]) -> str:
    """A label like this one that is not taken, and then is."""
    while label in taken:
        label += "_"
    taken.add(label)
    return label


def reduced_signatures(program: Program, protocols: Sequence[Protocol], kept: Mapping[str, Answer]) -> Dict[str, PrintedSignature]:
    """The requirement signatures of the protocols of which there is one, with reduced types."""
    there = [protocol for protocol in protocols if protocol.label in kept]
    taken = {protocol.label for protocol in protocols}
    asked = [one for protocol in there for one in asked_of(protocol, kept_numbers(protocol, kept[protocol.label]), taken)]
    parts = [protocol_part(protocol) for protocol in there]
    questions = Questions(program, parts + [one.conforms_to for one in asked if one.requirement.other])
    answers = questions.ask(Command.ANSWER, [one.function for one in asked]).answers
    requirements: Dict[str, List[PrintedRequirement]] = {protocol.label: [] for protocol in there}
    for one in asked:
        found = reduced(one, answers.get(one.function.label))
        if isinstance(found, SameType) and found.subject == found.other:
            found = reduced_alone(program, parts, one)
        requirements[one.protocol.label].append(found)
    return {label: PrintedSignature((SELF,), tuple(found)) for label, found in requirements.items()}


def reduced_alone(program: Program, parts: Sequence[Part], asked: Asked) -> PrintedRequirement:
    """An equation whose copy conforms to the protocol itself, by another equation: it is asked where the protocol itself lacks it."""
    label = asked.protocol.label
    lacking = replace(asked.conforms_to, label=label, text=asked.conforms_to.text.replace(asked.conforms_to.label, label, 1))
    function = conforming_part(asked.function.label, asked.protocol, asked.function.queries)
    questions = Questions(program, [lacking if part.label == label else part for part in parts])
    answers = questions.ask(Command.ANSWER, [function]).answers
    return reduced(replace(asked, conforms_to=lacking), answers.get(function.label))


def reduced(asked: Asked, given: Optional[Sequence[Answer]]) -> PrintedRequirement:
    """A requirement with reduced sides, or with its written ones where these are not answered."""
    requirement = asked.requirement
    lines = [answer.line for answer in given] if given else ["invalid"]
    if "invalid" in lines:
        types = [read_type(side.labelled) for side in sides_of(requirement)]
    else:
        types = [of_protocol(read_type(line), asked) for line in lines]
    if requirement.other:
        return SameType(types[0], types[1])
    return Conformance(types[0], requirement.protocol.label) if requirement.protocol else Layout(types[0])


def of_protocol(one: PrintedType, asked: Asked) -> PrintedType:
    """A type of the function as a type of the protocol, with its label in place of that of its copy."""
    copy, label = asked.conforms_to.label, asked.protocol.label
    members = tuple(PrintedMember(member.name, label if member.protocol == copy else member.protocol) for member in one.members)
    return PrintedType(SELF, members)
