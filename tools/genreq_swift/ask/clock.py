"""How long a run may go on, and how much of that it may give to what is hard."""
from dataclasses import dataclass, field
import time
from typing import Optional

# What is hard may have this part of the whole.
_FOR_HARD = 12
_SECONDS_FOR_HARD = 5.0  # where the whole has no end


class TimeUp(Exception):
    """The time of the whole run is over."""


@dataclass
class Clock:
    """The seconds of a run, or none where it may go on for ever."""

    seconds: Optional[float] = None
    began: float = field(default_factory=time.monotonic)
    spent_on_hard: float = 0.0

    def left(self) -> Optional[float]:
        """The seconds that are left. TimeUp where none are."""
        if self.seconds is None:
            return None
        left = self.began + self.seconds - time.monotonic()
        if left <= 0:
            raise TimeUp()
        return left

    @property
    def has_time_for_hard(self) -> bool:
        """Whether what takes long, or passes a limit, may still be tried again with greater limits."""
        return self.spent_on_hard < (self.seconds / _FOR_HARD if self.seconds is not None else _SECONDS_FOR_HARD)
