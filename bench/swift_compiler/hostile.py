"""Sources that are hostile to a reader: real ones, the same cut off, and the same with random edits."""
from dataclasses import dataclass
from pathlib import Path
import random
import signal
import time
import traceback
from typing import Callable, Iterator, List, Optional, Sequence, Tuple

# What an edit puts in: marks that open or close, words that declare, and characters of several bytes.
PIECES = (
    "( ) { } [ ] < > \" ' ` \\ \\( # #\" \"# \"\"\" #\"\"\" / #/ /# // /* */ @ & . : , ; == -> ~ ? ! ... #if #else #elseif #endif #available "
    "protocol extension struct class func init subscript typealias associatedtype where some any each repeat Self \u03c4 \u00e9 \U0001f600 \ufeff \x00 \n"
).split(" ")
GREATEST_SECONDS = 20

# Reads the files of these paths.
Read = Callable[[Sequence[str]], object]


@dataclass(frozen=True)
class Fault:
    """A source that the reader did not end well with: its name, the edit, and what happened."""

    file: str
    edit: str
    happened: str


class TooLong(Exception):
    """The reader takes longer than it should."""


def edits(text: str, count: int, seed: str) -> Iterator[Tuple[str, str]]:
    """The text itself and so many others that are made of it, each with the name of what was done."""
    chance = random.Random(seed)
    yield "whole", text
    for _ in range(count):
        at = chance.randrange(len(text) + 1)
        kind = chance.choice(["cut", "put in", "taken out", "put for"])
        length = 0 if kind == "put in" else chance.choice([1, 1, 3, 20, 400])
        piece = "" if kind in ("cut", "taken out") else chance.choice(PIECES)
        after = "" if kind == "cut" else text[at + length :]
        yield "%s %r at %d" % (kind, piece, at), text[:at] + piece + after


def ends(read: Read, path: Path) -> Optional[str]:
    """Reads a file, and says what happened where that is no proper end: the last lines of a traceback, or the seconds."""

    def stop(number: int, frame: object) -> None:
        raise TooLong("more than %d s" % GREATEST_SECONDS)

    signal.signal(signal.SIGALRM, stop)
    signal.alarm(GREATEST_SECONDS)
    try:
        read([str(path)])
    except Exception as error:  # Whatever comes out of the reader is what is looked for.
        frames = traceback.extract_tb(error.__traceback__)[-2:]
        return "%s: %s (%s)" % (type(error).__name__, error, ", ".join("%s:%s" % (Path(frame.filename).name, frame.lineno) for frame in frames))
    finally:
        signal.alarm(0)
    return None


def faults_of(read: Read, file: Path, count: int, folder: Path) -> Tuple[int, float, List[Fault]]:
    """Reads a file and so many edits of it, which are written into a folder. Gives how many were read, the seconds and the faults."""
    text = file.read_bytes().decode("utf-8", "surrogateescape")
    start, found, done = time.process_time(), [], 0
    for edit, edited in edits(text, count, str(file)):
        path = folder / "edited.swift"
        path.write_bytes(edited.encode("utf-8", "surrogateescape"))
        happened = ends(read, path)
        done += 1
        if happened:
            found.append(Fault(str(file), edit, happened))
    return done, time.process_time() - start, found
