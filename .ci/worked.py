"""Runs the program on the worked texts of tests/, and fails at the first run that prints another text, or ends with another status, than is wanted.

A file tests/NAME.rows has rows. A row begins with a line `==== NAME`, then stands its text, and after it, for each run, a line `---- WORDS: STATUS` and
what is to be printed. No other row of the file has its name. The newline before such a line is no part of a text, so a text ends where its last line does;
of what is printed it is one. A text that is a line `< FILE` alone is that of examples/FILE.
The words are split as a shell does, so `''` is the empty word. In a text `\\xHH` is the byte with this number in small hexadecimal digits.

A text that `answer` is to answer with status 0 is explained too, and its derivations are verified.

A file tests/NAME.lines has a row in each line, `WANTED | TEXT`, which is its own name: `answer` refuses the text with the line `error: WANTED` and
status 1, or, where `ok` is wanted, refuses nothing."""
import pathlib
import re
import shlex
import subprocess
import sys
from collections import Counter
from dataclasses import dataclass
from typing import Iterator, List, Optional, Set, Tuple

HERE = pathlib.Path(__file__).resolve().parent.parent
PROGRAM = HERE / "genreq"
SECONDS = 120


@dataclass(frozen=True)
class Run:
    """A run of the program: where it stands, its words and standard input, and the status and output that are wanted (None: any output)."""

    place: str
    words: List[str]
    text: str
    status: int
    wanted: Optional[str]


class Malformed(Exception):
    """A file of rows is not in the form that is said above."""


class TooLong(Exception):
    """A run takes more than SECONDS."""


def text_of(place: str, written: str) -> str:
    """The text of a row as it is written there, or that of an example."""
    example = re.fullmatch(r"< (\S+)", written)
    if not example:
        return written
    file = HERE / "examples" / example[1]
    if not file.is_file():
        raise Malformed("%s: there is no examples/%s" % (place, example[1]))
    return file.read_text(encoding="utf-8")


def runs_of_rows(name: str, content: str) -> Iterator[Run]:
    """The runs of a file of rows."""
    first, *rows = re.split(r"^==== (.*)\n", content, flags=re.M)
    if first.strip() or not rows:
        raise Malformed("%s: it begins with no line ==== NAME" % name)
    for title, count in Counter(rows[::2]).items():
        if count > 1:
            raise Malformed("%s: %d rows have the name %s" % (name, count, title))
    for title, body in zip(rows[::2], rows[1::2]):
        place = "%s: %s" % (name, title)
        text, *parts = re.split(r"^---- (.*): (\d+)\n", body, flags=re.M)
        if not parts:
            raise Malformed("%s: no line ---- WORDS: STATUS" % place)
        for words, status, wanted in zip(parts[::3], parts[1::3], parts[2::3]):
            yield Run(place, shlex.split(words), text_of(place, text[:-1]), int(status), wanted)


def runs_of_lines(name: str, content: str) -> Iterator[Run]:
    """The runs of a file with a row in each line."""
    seen: Set[str] = set()
    for number, line in enumerate(content.splitlines(), 1):
        wanted, bar, text = line.partition(" | ")
        place = "%s:%d: %s" % (name, number, line)
        if line in seen:
            raise Malformed("%s: another row is the same" % place)
        seen.add(line)
        if not bar:
            raise Malformed("%s: no bar between what is wanted and the text" % place)
        if wanted == "ok":
            yield Run(place, ["answer"], text, 0, None)
        else:
            yield Run(place, ["answer"], text, 1, "error: %s\n" % wanted)


def bytes_of(text: str) -> bytes:
    """The bytes of a text that is written with `\\xHH`."""
    return re.sub(rb"\\x([0-9a-f]{2})", lambda found: bytes([int(found[1], 16)]), text.encode())


def printed_by(words: List[str], text: bytes) -> Tuple[int, str]:
    """The status of the program, and what it prints. TooLong where it does not end in time."""
    try:
        done = subprocess.run([str(PROGRAM), *words], input=text, stdout=subprocess.PIPE, timeout=SECONDS, check=False)
    except subprocess.TimeoutExpired as late:
        raise TooLong("genreq %s takes more than %d seconds" % (shlex.join(words), SECONDS)) from late
    return done.returncode, done.stdout.decode("utf-8", "replace")


def fault_of(run: Run) -> Optional[str]:
    """What is wrong with what the program does, if anything is."""
    status, printed = printed_by(run.words, bytes_of(run.text))
    said = "%s: genreq %s" % (run.place, shlex.join(run.words))
    if status != run.status:
        return "%s: the status is %d, and not %d; it prints\n%s" % (said, status, run.status, printed)
    if run.wanted is not None and printed != run.wanted:
        return "%s: it prints\n%sand not\n%s" % (said, printed, run.wanted)
    if run.words[:1] == ["answer"] and status == 0:
        return fault_of_explained(run, printed)
    return None


def fault_of_explained(run: Run, answers: str) -> Optional[str]:
    """What is wrong with the derivations of a text that has these answers, if anything is: without them `explain` prints the answers, and
    `verify` says ok of each yes."""
    text = bytes_of(run.text)
    status, explained = printed_by(["explain", *run.words[1:]], text)
    lines = explained.splitlines()
    if status != 0 or [line for line in lines if not line.startswith(" ")] != answers.splitlines():
        return "%s: genreq explain: the status is %d; it prints\n%s" % (run.place, status, explained)
    judged = printed_by(["verify"], text + b"\n%%\n" + explained.encode())
    wanted = "".join("ok\n" if answer == "yes" else "skipped\n" for answer in answers.splitlines())
    return None if judged == (0, wanted) else "%s: genreq verify: the status is %d; it prints\n%s" % (run.place, *judged)


def main(folder: pathlib.Path) -> int:
    readers = {".rows": runs_of_rows, ".lines": runs_of_lines}
    files = sorted(path for path in folder.iterdir() if path.suffix in readers)
    try:
        runs = [run for path in files for run in readers[path.suffix](path.name, path.read_text(encoding="utf-8"))]
        faults = [fault for fault in map(fault_of, runs) if fault]
    except (Malformed, TooLong) as error:
        print("worked: %s" % error, file=sys.stderr)
        return 1
    for fault in faults:
        print("worked: %s" % fault, file=sys.stderr)
    print("%d passed, %d failed" % (len(runs) - len(faults), len(faults)))
    return 1 if faults else 0


if __name__ == "__main__":
    sys.exit(main(HERE / "tests"))
