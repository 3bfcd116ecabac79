"""A line on a terminal that says how far a run has come: `123 of 456`."""
import sys
import threading
from typing import Iterable, Iterator, TypeVar

T = TypeVar("T")

_AFTER = 1.0  # seconds, before which nothing is said
_EACH = 0.25


class Progress:
    """While this is open, the line stands on the standard error, if that is a terminal. It is gone when this is left, and while something is
    printed."""

    def __init__(self, total: int):
        self.total = total
        self.count = 0
        self._is_shown = False
        self._stop = threading.Event()
        self._lock = threading.Lock()
        self._thread = threading.Thread(target=self._show, daemon=True)

    def __enter__(self) -> "Progress":
        if sys.stderr.isatty():
            self._thread.start()
        return self

    def __exit__(self, *_: object) -> None:
        self._stop.set()
        self.hide()

    def over(self, items: Iterable[T]) -> Iterator[T]:
        """The same items, counted."""
        for item in items:
            self.count += 1
            self.hide()
            yield item

    def hide(self) -> None:
        """Takes the line away until it is shown again."""
        with self._lock:
            if self._is_shown:
                self._is_shown = False
                sys.stderr.write("\r\x1b[K")
                sys.stderr.flush()

    def _show(self) -> None:
        wait = _AFTER
        while not self._stop.wait(wait):
            wait = _EACH
            with self._lock:
                if not self._stop.is_set():
                    self._is_shown = True
                    sys.stderr.write("\r%d of %d" % (self.count, self.total))
                    sys.stderr.flush()
