"""The signatures of a module, ours beside the compiler's, each by its place."""
from dataclasses import dataclass
from pathlib import Path
from typing import List, Optional, Sequence, Tuple

from swift_compiler.forms import Form, Likeness, Malformed, form_of, likeness
from swift_compiler.ours import Own
from swift_compiler.printed import Printed

EXTENSION = "extension"
PROTOCOL = "protocol"
INCOMPLETE = "incomplete"
WHOLE = "whole"
# The compiler itself takes `Copyable` and `Escapable` from these, whatever their source says.
MARKERS = ("Copyable", "Escapable", "Sendable")


@dataclass(frozen=True)
class Pair:
    """A signature of ours, and the compiler's at its place. There is none where the compiler prints none that can be told for sure."""

    own: Own
    theirs: Optional[str]

    @property
    def is_compared(self) -> bool:
        return self.theirs is not None and not self.own.status.startswith(INCOMPLETE)

    @property
    def differs(self) -> bool:
        """Whether the two differ by more than their form."""
        return self.is_compared and self.likeness() is Likeness.OTHER

    def forms(self) -> Tuple[Form, Form]:
        """Both taken apart. Where ours is without `~Copyable`, so is the compiler's. Raises Malformed."""
        ours, theirs = form_of(self.own.text), form_of(self.theirs or "")
        is_marker = self.own.kind == PROTOCOL and self.own.name in MARKERS
        if self.own.status == WHOLE and not is_marker:
            return ours, theirs
        return ours.without_suppressed(), theirs.without_suppressed()

    def likeness(self) -> Likeness:
        try:
            return likeness(*self.forms())
        except Malformed:
            return Likeness.OTHER


def theirs(own: Own, printed: Printed) -> Optional[str]:
    """What the compiler prints at the place of one of ours."""
    if own.kind == EXTENSION:
        line = (own.file, own.line)
        return None if line in printed.doubtful else printed.extensions.get(line)
    at = (own.file, own.line, own.column)
    return (printed.protocols if own.kind == PROTOCOL else printed.signatures).get(at)


def pairs(owns: Sequence[Own], printed: Printed) -> List[Pair]:
    return [Pair(own, theirs(own, printed)) for own in owns]


def files_named(owns: Sequence[Own], files: Sequence[Path]) -> List[Own]:
    """Those that stand in these files."""
    names = {str(file) for file in files}
    return [own for own in owns if own.file in names]
