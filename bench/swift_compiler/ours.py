"""What `tools/genreq-swift` prints of a module's signatures and protocols."""
from dataclasses import dataclass
import json
import os
from pathlib import Path
from typing import List, Sequence, Tuple

from swift_compiler.compiler import Run, timed

PROGRAM = Path(__file__).resolve().parent.parent.parent / "tools" / "genreq-swift"
# All done, or something was left out, of which its standard error tells.
ANSWERED = (0, 3)


class Unreadable(Exception):
    """`genreq-swift` ended by an error, or printed something else than expected."""


@dataclass(frozen=True)
class Own:
    """A signature as ours prints it: its place, the word that declares it, its name, how much of it was read, and its text with τ."""

    file: str
    line: int
    column: int
    kind: str
    name: str
    status: str
    text: str

    @property
    def place(self) -> str:
        return "%s:%d:%d" % (self.file, self.line, self.column)


def own_of(line: str) -> Own:
    """A line of `--json`. Raises Unreadable where it is none."""
    try:
        found = json.loads(line)
        return Own(found["file"], found["line"], found["column"], found["kind"], found["name"], found["status"], found["canonical"])
    except (ValueError, KeyError, TypeError) as error:
        raise Unreadable("genreq-swift prints no object with all it should have: %s" % line.strip()) from error


def program() -> str:
    """The command, or another one that GENREQ_SWIFT names."""
    return os.environ.get("GENREQ_SWIFT", str(PROGRAM))


def asked(command: str, words: Sequence[str], files: Sequence[Path], beside: Sequence[str]) -> Tuple[Run, List[Own]]:
    """What a command prints of these files, with others read beside them, and how it ended. Raises Unreadable where it fails."""
    options = [word for name in beside for word in ("--with", name)]
    line = [program(), command, "--json", *words, *options, *(str(file) for file in files)]
    with timed(line, quiet=True) as (run, printed):
        lines = printed.read().decode("utf-8", "replace").splitlines()
    if run.status not in ANSWERED:
        raise Unreadable("genreq-swift %s ends with status %d" % (command, run.status))
    return run, [own_of(line) for line in lines]
