"""Lines that are too wide: those of definitions and proofs, but for what they import, and those of the clauses of code."""
import pathlib
import re
from typing import Iterator, List, Tuple

# How many characters a line may have.
GREATEST = {".antt": 140, ".rt": 100}
FILES = ("*/specs/**/*.antt", "*/proofs/**/*.antt", "*/src/**/*.rt")
IMPORT = re.compile(r"\s*(?:pub )?use ")
# A clause begins on a line of its own, with its brace.
CLAUSE = re.compile(r"\s*(?:requires|ensures)\b.*\{")
QUOTED = re.compile(r"\"(?:[^\"\\]|\\.)*\"")
# A line with its number, which counts from 1.
Line = Tuple[int, str]


def lines_of_antt(text: str) -> Iterator[Line]:
    """The lines of definitions and proofs, but for what they import."""
    return ((number, line) for number, line in enumerate(text.split("\n"), 1) if not IMPORT.match(line))


def lines_of_clauses(text: str) -> Iterator[Line]:
    """The lines of the clauses of code, each up to the brace that ends it."""
    braces = 0
    for number, line in enumerate(text.split("\n"), 1):
        if braces or CLAUSE.match(line):
            yield number, line
            bare = QUOTED.sub("", line)
            braces += bare.count("{") - bare.count("}")


def wide_lines(path: pathlib.Path) -> List[Line]:
    """The lines of a file that are too wide."""
    text = path.read_text(encoding="utf-8")
    lines = lines_of_antt(text) if path.suffix == ".antt" else lines_of_clauses(text)
    return [(number, line) for number, line in lines if len(line) > GREATEST[path.suffix]]


def faults_of_widths(top: pathlib.Path) -> List[str]:
    """The lines that are too wide."""
    faults = []
    for path in (path for pattern in FILES for path in sorted((top / "crates").glob(pattern))):
        most = GREATEST[path.suffix]
        faults += ["%s:%d: %d characters, where %d is the most" % (path.relative_to(top), number, len(line), most) for number, line in wide_lines(path)]
    return faults
