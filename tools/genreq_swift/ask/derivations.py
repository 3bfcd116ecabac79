"""Derivations that genreq prints, in own names, with the place of each requirement that a step uses."""
from dataclasses import dataclass
import re
from typing import List, Mapping, Optional, Sequence, Tuple

from ..read.model import GenericParameter, Requirement
from .own_names import OwnNames

_STEP = re.compile(r" by (?:(?:CONF|SAME|LAYOUT)|ASSOC(?:CONF|SAME|LAYOUT) (?P<protocol>\S+)) (?P<number>\d+)(?: from [\d, ]+)?$")


@dataclass(frozen=True)
class Lists:
    """The requirements of a function, and those of protocols by their labels, each in the order of the text that was asked."""

    function: Sequence[Requirement]
    protocols: Mapping[str, Sequence[Requirement]]

    def used(self, line: str) -> Optional[Requirement]:
        """The requirement that a line of a derivation uses."""
        step = _STEP.search(line)
        if not step:
            return None
        found = self.protocols.get(step["protocol"], ()) if step["protocol"] else self.function
        number = int(step["number"])
        return found[number - 1] if number <= len(found) else None

    def used_of(self, derivations: Sequence[Sequence[str]], protocol: Optional[str] = None) -> Tuple[Requirement, ...]:
        """Which requirements of the function, or of this protocol, derivations use, in order."""
        chosen = self.protocols[protocol] if protocol else self.function
        numbers = set()
        for step in (_STEP.search(line) for derivation in derivations for line in derivation):
            if step and step["protocol"] == protocol:
                numbers.add(int(step["number"]))
        return tuple(chosen[number - 1] for number in sorted(numbers))


def shown(derivation: Sequence[str], lists: Lists, names: OwnNames, parameters: Sequence[GenericParameter]) -> List[str]:
    """The lines of a derivation in own names, and after each in parentheses the place of the requirement that it uses."""
    lines = []
    for line in derivation:
        used = lists.used(line)
        lines.append(names.of(line, parameters) + (" (%s)" % used.place if used else ""))
    return lines
