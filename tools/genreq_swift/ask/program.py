"""Runs genreq on parts of a text. `asking.py` goes on from here where a text is refused."""
import os
import re
import resource
import signal
import subprocess
import time
from dataclasses import dataclass, field, replace
from enum import Enum
from functools import cached_property
from pathlib import Path
from typing import FrozenSet, List, Optional, Sequence, Tuple

from .clock import Clock, TimeUp

TEXT_LIMIT = 1048576


class ProgramFailed(Exception):
    """genreq could not be run, or ended as it should not."""


class Command(Enum):
    """The commands that print an answer for each query, each function, or each protocol."""

    ANSWER = "answer"
    EXPLAIN = "explain"
    SIGNATURES = "signatures"
    REQUIREMENTS = "requirements"


class Status(Enum):
    """How a run ends. Where it takes too long, a limit counts as passed, and so where memory runs out."""

    ANSWERED = 0
    REFUSED = 1
    LIMIT = 3


MEMORY_RAN_OUT = 6
# How many seconds of the processor a run may take that asks of one declaration, and of several. What takes longer counts as past a limit.
SECONDS_ALONE = 1
SECONDS_TOGETHER = 2
# A shell that limits the seconds of the processor for what it then becomes.
_LIMITED = ("/bin/sh", "-c", 'ulimit -S -t "$0" && exec "$@"')


@dataclass(frozen=True)
class Limits:
    """How many rules a completion may have, how long a rule may be, and how many seconds of the processor a run may take."""

    rules: int
    length: int
    seconds: Optional[int] = None

    @property
    def words(self) -> Tuple[str, ...]:
        return ("--max-rules", str(self.rules), "--max-length", str(self.length))

    def for_parts(self, count: int) -> "Limits":
        """The limits with the time that this many declarations may take."""
        return replace(self, seconds=SECONDS_ALONE if count == 1 else SECONDS_TOGETHER)


# The limits by level: those of genreq, and the greatest.
LEVELS = (Limits(4000, 64), Limits(100000, 255))


# What stands in place of the output of a run that took too long.
TOO_LONG = "error: it takes more than a second\n"


@dataclass(frozen=True)
class Ended:
    """How a run ended, and what it printed."""

    status: Status
    output: str

    @property
    def offset(self) -> Optional[int]:
        """The place that a refusal names, in bytes."""
        found = re.match(r"error: .* at (\d+)\n", self.output)
        return int(found[1]) if found else None

    @property
    def took_too_long(self) -> bool:
        """Whether it was ended for its time."""
        return self.output == TOO_LONG

    @property
    def reason(self) -> str:
        """The line of a refusal without its place."""
        return re.sub(r"^error: | at \d+$", "", self.output.split("\n", 1)[0])


@dataclass(frozen=True)
class Answer:
    """A line that answers, and the lines under it."""

    line: str
    under: Tuple[str, ...] = ()

    @property
    def lines(self) -> Tuple[str, ...]:
        return (self.line,) + self.under


@dataclass(frozen=True)
class Part:
    """A protocol or a function in a text. A label is unique among those of protocols, or of functions.

    `needs` are the labels of the protocols that it names, also in its queries; `queries` are what is asked of a function, as it stands in the
    parentheses of a query.
    """

    label: str
    text: str
    needs: FrozenSet[str] = frozenset()
    queries: Tuple[str, ...] = ()

    @cached_property
    def written(self) -> bytes:
        """Its text and its queries, each with a line feed."""
        lines = [self.text] + ["query %s(%s)" % (self.label, query) for query in self.queries]
        return "".join(line + "\n" for line in lines).encode("utf-8")


def written(parts: Sequence[Part]) -> bytes:
    """The text of some parts."""
    return b"".join(part.written for part in parts)


def answers_of(output: str) -> List[Answer]:
    """Each line that does not begin with two spaces, with those under it that do."""
    found: List[Tuple[str, List[str]]] = []
    for line in output.splitlines():
        if line.startswith("  ") and found:
            found[-1][1].append(line)
        else:
            found.append((line, []))
    return [Answer(line, tuple(under)) for line, under in found]


def default_program() -> Path:
    """The program that the variable GENREQ names, or that of this repository."""
    named = os.environ.get("GENREQ")
    return Path(named) if named else Path(__file__).resolve().parents[3] / "genreq"


# By this variable ./genreq is told that it need not say once more that the program is not proved.
SAID = "GENREQ_SAID"


@dataclass
class Program:
    """A program that answers as genreq does, and the time that all runs of it may take."""

    path: Path
    clock: Clock = field(default_factory=Clock)
    _is_ready: bool = False

    def run(self, command: Command, text: bytes, limits: Limits = LEVELS[0]) -> Ended:
        """Asks a command of a text. ProgramFailed where the program is not there, or ends in another way; TimeUp where the time of all is over."""
        ended = self._run((command.value,) + limits.words, text, limits.seconds)
        if ended.took_too_long and limits.seconds == SECONDS_ALONE:
            self.clock.spent_on_hard += SECONDS_ALONE
        return ended

    def run_hard(self, command: Command, text: bytes, limits: Limits, before: Ended) -> Ended:
        """Asks once more what passed a limit, with greater ones, while there is time for what is hard. What took too long would do so again."""
        if before.took_too_long or not self.clock.has_time_for_hard:
            return before
        started = _spent()
        ended = self._run((command.value,) + limits.words, text, SECONDS_ALONE)
        self.clock.spent_on_hard += _spent() - started
        return ended

    def verify(self, text: bytes, answers: Sequence[Answer]) -> List[str]:
        """What `verify` prints of the answers of `explain` to a text. ProgramFailed where they do not fit it."""
        second = "".join(line + "\n" for answer in answers for line in answer.lines)
        ended = self._run(("verify",), text + b"%%\n" + second.encode("utf-8"), None)
        if ended.status is not Status.ANSWERED:
            raise ProgramFailed("%s: %s" % (self.path, ended.reason))
        return ended.output.splitlines()

    def _get_ready(self) -> None:
        """Runs the program once on nothing: it may be a script that builds it first, which is not of the time of all."""
        started = time.monotonic()
        self._is_ready = True
        self._ended((str(self.path), Command.SIGNATURES.value), b"", None)
        os.environ[SAID] = "yes"
        self.clock.began += time.monotonic() - started

    def _run(self, words: Sequence[str], text: bytes, seconds: Optional[int]) -> Ended:
        if not self._is_ready:
            self._get_ready()
        limited = (*_LIMITED, str(seconds)) if seconds is not None else ()
        try:
            return self._ended((*limited, str(self.path), *words), text, self.clock.left())
        except subprocess.TimeoutExpired:
            raise TimeUp() from None

    def _ended(self, words: Sequence[str], text: bytes, seconds: Optional[float]) -> Ended:
        try:
            done = subprocess.run(words, input=text, stdout=subprocess.PIPE, timeout=seconds, check=False)
        except OSError as error:
            raise ProgramFailed("%s: %s" % (self.path, error.strerror)) from error
        if done.returncode == -signal.SIGXCPU:
            return Ended(Status.LIMIT, TOO_LONG)
        output = done.stdout.decode("utf-8", "replace")
        if done.returncode == MEMORY_RAN_OUT:
            return Ended(Status.LIMIT, output)
        if done.returncode not in [status.value for status in Status] or done.returncode != 0 and not output.startswith("error: "):
            raise ProgramFailed("%s ended with status %d: %s" % (self.path, done.returncode, output.split("\n", 1)[0]))
        return Ended(Status(done.returncode), output)


def _spent() -> float:
    """The seconds of the processor that all runs took."""
    usage = resource.getrusage(resource.RUSAGE_CHILDREN)
    return usage.ru_utime + usage.ru_stime
