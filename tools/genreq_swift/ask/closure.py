"""Parts that are left out, and which protocols need which."""
from dataclasses import dataclass
import os
from typing import Dict, Iterable, List, Optional, Sequence, Set, Tuple

from .program import Part

# So many protocols are asked in one run even where they do not need each other.
SMALL_COVER = 16
# So many declarations are asked together at least after one of them was refused.
FEW = 16
# So many lists of declarations are asked side by side.
SIDE_BY_SIDE = min(4, os.cpu_count() or 1)


@dataclass(frozen=True)
class LeftOut:
    """A protocol or a function that was left out, and why. `offset` is the place of the reason in its text, in bytes, where there is one."""

    label: str
    is_protocol: bool
    reason: str
    offset: Optional[int] = None


class Closure:
    """Which protocols each protocol needs, itself among them."""

    def __init__(self, protocols: Sequence[Part]):
        self.protocols = protocols
        self._direct = {protocol.label: protocol.needs for protocol in protocols}
        self._needed: Dict[str, Set[str]] = {}

    def _of(self, label: str) -> Set[str]:
        found = self._needed.get(label)
        if found is None:
            found, ahead = {label}, [label]
            while ahead:
                more = self._direct.get(ahead.pop(), frozenset()) - found
                found |= more
                ahead += more
            self._needed[label] = found
        return found

    def needed(self, labels: Iterable[str]) -> Set[str]:
        """The labels of what these protocols need."""
        return set().union(*(self._of(label) for label in labels))

    def restricted(self, labels: Set[str]) -> List[Part]:
        """The protocols with these labels, in written order."""
        return [protocol for protocol in self.protocols if protocol.label in labels]

    def in_order(self, labels: Iterable[str]) -> List[str]:
        """These labels, those first that need less: what a protocol needs and does not need it comes before it."""
        return sorted(labels, key=lambda label: (len(self._of(label)), label))

    def covers(self, wanted: Set[str]) -> List[Set[str]]:
        """Sets of labels that need no others, which together have those that are wanted. Small ones are put together."""
        covered: Set[str] = set()
        found: List[Set[str]] = []
        for label in sorted(wanted, key=lambda label: (-len(self._of(label)), label)):
            if label not in covered:
                covered |= self._of(label)
                if found and len(found[-1] | self._of(label)) <= SMALL_COVER:
                    found[-1] |= self._of(label)
                else:
                    found.append(set(self._of(label)))
        return found

    def without(self, label: str) -> Tuple[List[Part], List[LeftOut]]:
        """The protocols that do not need this one, and the others, told."""
        needing = [protocol for protocol in self.protocols if label in self._of(protocol.label) and protocol.label != label]
        gone = {label} | {protocol.label for protocol in needing}
        return [protocol for protocol in self.protocols if protocol.label not in gone], [lacking(protocol, label, True) for protocol in needing]


def lacking(part: Part, label: str, is_protocol: bool) -> LeftOut:
    """A part that is left out since it needs a protocol that is."""
    return LeftOut(part.label, is_protocol, "it needs %s, which is left out" % label)


def fitting(parts: Sequence[Part], room: int) -> Tuple[List[Part], List[Part]]:
    """As many parts from the front as have room in this many bytes, and the rest."""
    for count, part in enumerate(parts):
        room -= len(part.written)
        if room < 0:
            return list(parts[:count]), list(parts[count:])
    return list(parts), []


def part_at(parts: Sequence[Part], offset: int) -> Tuple[int, int]:
    """The number of the part in whose text a place is, and the place in that part."""
    for number, part in enumerate(parts):
        if offset < len(part.written):
            return number, offset
        offset -= len(part.written)
    return len(parts) - 1, offset + len(parts[-1].written)
