"""Printed signatures taken apart, and how alike two of them are.

A printed signature is `<PARAMETER, .. where REQUIREMENT, ..>`, or `<PARAMETER, ..>` where nothing is required."""
from dataclasses import dataclass
from enum import Enum
from typing import Dict, FrozenSet, List, Tuple

EQUALS = " == "
SUPPRESSED = ": ~"


class Malformed(Exception):
    """A text that is no printed signature."""


class Likeness(Enum):
    """How alike two signatures are. The value is the heading of its column. Each but the last is a matter of form."""

    SAME = "same text"
    ORDER = "other order"
    SIDES = "other sides"
    CHAINS = "other chains"
    OTHER = "other"


@dataclass(frozen=True)
class Form:
    """A signature: its generic parameters and its requirements, each as printed and in printed order."""

    parameters: Tuple[str, ...]
    requirements: Tuple[str, ...]

    def without_suppressed(self) -> "Form":
        """The same without what names `~Copyable` or `~Escapable`."""
        kept = tuple(requirement for requirement in self.requirements if SUPPRESSED not in requirement)
        return Form(self.parameters, kept)

    def __str__(self) -> str:
        clause = " where " + ", ".join(self.requirements) if self.requirements else ""
        return "<%s%s>" % (", ".join(self.parameters), clause)


def divided(text: str, mark: str) -> List[str]:
    """The parts of a text between the marks that stand inside no bracket."""
    parts, depth, start, at = [], 0, 0, 0
    while at < len(text):
        if text.startswith("->", at):
            at += 2
            continue
        if depth == 0 and text.startswith(mark, at):
            parts.append(text[start:at])
            at += len(mark)
            start = at
            continue
        depth += (text[at] in "<([") - (text[at] in ">)]")
        at += 1
    return parts + [text[start:]]


def form_of(text: str) -> Form:
    """A printed signature taken apart. Raises Malformed where it is none."""
    text = text.strip()
    if not text.startswith("<") or not text.endswith(">"):
        raise Malformed("no printed signature: %s" % text)
    before, *after = divided(text[1:-1], " where ")
    if len(after) > 1:
        raise Malformed("a signature with several where clauses: %s" % text)
    parameters = tuple(divided(before, ", ")) if before else ()
    return Form(parameters, tuple(divided(after[0], ", ")) if after else ())


def turned(requirement: str) -> str:
    """An equation with its lesser side first, anything else unchanged."""
    return EQUALS.join(sorted(divided(requirement, EQUALS)))


def equal_types(requirements: Tuple[str, ...]) -> FrozenSet[FrozenSet[str]]:
    """The classes of types that the equations among these chain together."""
    class_of: Dict[str, FrozenSet[str]] = {}
    for requirement in requirements:
        sides = divided(requirement, EQUALS)
        if len(sides) == 2:
            joined = frozenset().union(*(class_of.get(side, frozenset([side])) for side in sides))
            class_of.update((side, joined) for side in joined)
    return frozenset(class_of.values())


def others(requirements: Tuple[str, ...]) -> List[str]:
    """Those that are no equations, in an order of their own."""
    return sorted(requirement for requirement in requirements if len(divided(requirement, EQUALS)) == 1)


def likeness(ours: Form, theirs: Form) -> Likeness:
    """How alike two signatures are: the first that fits."""
    mine, other = ours.requirements, theirs.requirements
    if ours.parameters != theirs.parameters:
        return Likeness.OTHER
    if mine == other:
        return Likeness.SAME
    if sorted(mine) == sorted(other):
        return Likeness.ORDER
    if sorted(map(turned, mine)) == sorted(map(turned, other)):
        return Likeness.SIDES
    if equal_types(mine) == equal_types(other) and others(mine) == others(other):
        return Likeness.CHAINS
    return Likeness.OTHER
