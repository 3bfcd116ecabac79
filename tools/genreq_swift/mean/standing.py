"""On what a declaration rests: itself and the protocols that it reaches, and the first thing that was left out of these."""
from collections import Counter
from dataclasses import dataclass
from typing import Dict, List, Optional, Sequence

from ..read.model import Cause, Declaration, Omission, Protocol, Requirement, Status


@dataclass(frozen=True)
class Lack:
    """Something that was left out, and the protocol that says it, where it is not the declaration itself."""

    omission: Omission
    protocol: Optional[Protocol] = None

    def __str__(self) -> str:
        if self.protocol is not None:
            return "%s says %s" % (self.protocol.name, self.omission.text)
        return "%s at %s" % (self.omission.cause.value, self.omission.place)


class Standing:
    """What declarations over some protocols rest on. A `yes` follows from a part; all else that is answered needs that nothing lacks."""

    def __init__(self, protocols: Sequence[Protocol]):
        self._by_label = {protocol.label: protocol for protocol in protocols}
        self._lacks: Dict[str, Optional[Lack]] = {}

    def lack(self, declaration: Declaration) -> Optional[Lack]:
        """The first thing that lacks: of the declaration itself, or else of the nearest protocol that it reaches."""
        own = first_lacking(declaration)
        return Lack(own) if own is not None else self._first(_named(declaration.requirements))

    def status(self, declaration: Declaration) -> Status:
        """How much is there of all that a declaration rests on."""
        status = declaration.own_status
        if status is not Status.INCOMPLETE and self.lack(declaration) is not None:
            return Status.OVER_INCOMPLETE
        return status

    def line(self, declaration: Declaration) -> str:
        """The same in a line, with what lacks first."""
        status, lack = self.status(declaration), self.lack(declaration)
        return "%s: %s" % (status.value, lack) if lack is not None else status.value

    def is_whole(self, declaration: Declaration) -> bool:
        """Whether nothing was left out."""
        return self.status(declaration) is Status.WHOLE

    def needed(self, declarations: Sequence[Declaration]) -> List[str]:
        """The names of the incomplete protocols that are nearest to some declarations, those first that are so for most."""
        lacks = (self.lack(declaration) for declaration in declarations)
        return [name for name, _ in Counter(lack.protocol.name for lack in lacks if lack is not None and lack.protocol is not None).most_common()]

    def _first(self, labels: Sequence[str]) -> Optional[Lack]:
        """What lacks of the first of these protocols of which something does."""
        return next((lack for lack in map(self._lack_of, labels) if lack is not None), None)

    def _lack_of(self, label: str) -> Optional[Lack]:
        """What lacks of a protocol, or of the nearest one that it reaches."""
        if label not in self._lacks:
            self._lacks[label] = self._nearest(label)
        return self._lacks[label]

    def _nearest(self, label: str) -> Optional[Lack]:
        seen, ahead = {label}, [label]
        for one in ahead:
            protocol = self._by_label.get(one)
            if protocol is None:
                continue
            omission = first_lacking(protocol)
            if omission is not None:
                return Lack(omission, protocol)
            more = [name for name in _named(protocol.requirements) if name not in seen]
            seen.update(more)
            ahead += more
        return None


def first_lacking(declaration: Declaration) -> Optional[Omission]:
    """The first thing that makes a declaration incomplete."""
    return next((omission for omission in declaration.omissions if omission.cause is not Cause.SUPPRESSED), None)


def _named(requirements: Sequence[Requirement]) -> List[str]:
    """The labels of the protocols that requirements name, in order."""
    return list(dict.fromkeys(requirement.protocol.label for requirement in requirements if requirement.protocol is not None))
