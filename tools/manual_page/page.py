"""The manual page: its parts, and where each stands.

usage: tools/manual [--unproved]    prints the page of the proved program, or of one that is not proved"""
import pathlib
import re
import sys
from dataclasses import dataclass
from typing import List, Tuple

from manual_page.markdown import blocks_of, section_of
from manual_page.roff import inline, lines_of

TOP = pathlib.Path(__file__).resolve().parent.parent.parent
NAME = "genreq \\- what the protocols and generic signatures of a text imply"
USAGE = "crates/swreq_print/src/refusal.rt"
SEE_ALSO = (
    "\\fBgenreq\\-at \\-\\-help\\fR says how answers are printed with their queries, in your own names, as JSON or in the form of the Swift compiler, "
    "and \\fBgenreq\\-swift \\-\\-help\\fR how Swift sources are read. The pages that are named here stand with the sources, and in "
    "share/doc/genreq of an installation."
)
RELEASE = re.compile(r"^## (\S+), (\d{4}-\d\d-\d\d)$", re.M)


@dataclass(frozen=True)
class Part:
    """A part of the manual page: its heading, and the section of a page that it is."""

    heading: str
    page: str
    section: str


PARTS = (
    Part("DESCRIPTION", "docs/COMMAND_LINE.md", ""),
    Part("OPTIONS", "docs/COMMAND_LINE.md", "The form of the words"),
    Part("THE TEXT", "docs/LANGUAGE.md", "Grammar"),
    Part("ANSWERS", "docs/LANGUAGE.md", "What is answered"),
    Part("CALLS", "docs/LANGUAGE.md", "Calls"),
    Part("LIMITS", "README.md", "Limits"),
    Part("REFUSALS", "docs/LANGUAGE.md", "The order of refusals"),
    Part("THE PLACE OF A REFUSAL", "docs/COMMAND_LINE.md", "The place of a refusal"),
    Part("EXIT STATUS", "docs/COMMAND_LINE.md", "Exit statuses"),
    Part("GENERATED TEXT", "docs/COMMAND_LINE.md", "The generated text"),
)


def text_of(top: pathlib.Path, page: str) -> str:
    return (top / page).read_text(encoding="utf-8")


def release_of(top: pathlib.Path) -> Tuple[str, str]:
    """The newest release in CHANGES.md, and its date."""
    found = RELEASE.search(text_of(top, "CHANGES.md"))
    return (found[1], found[2]) if found else ("", "")


def usages(top: pathlib.Path) -> List[str]:
    """The usage lines of the program, as it prints it, and of the tool that runs it on a file."""
    literal = re.search(r'pub const USAGE: &\[u8\] =\s*b"usage: (.*?)\\n";', text_of(top, USAGE), re.S)
    program = re.sub(r"\\\n\s*", "", literal[1]) if literal else "genreq"
    tool = re.search(r"^usage: (.*)$", text_of(top, "tools/genreq-at"), re.M)
    return [program + " < FILE"] + ([tool[1]] if tool else [])


def synopsis(top: pathlib.Path) -> List[str]:
    """Each usage, with its first word strong."""
    lines: List[str] = []
    for usage in usages(top):
        name, _, rest = usage.partition(" ")
        lines += [".PP", "\\fB%s\\fR %s" % (inline(name), inline(rest))]
    return lines


def part_lines(top: pathlib.Path, part: Part) -> List[str]:
    blocks = list(blocks_of(text_of(top, part.page)))
    return [".SH " + part.heading, *lines_of(section_of(blocks, part.section))]


def manual(top: pathlib.Path, is_proved: bool) -> str:
    """The manual page."""
    version, date = release_of(top)
    source = "genreq %s%s" % (version, "" if is_proved else ", not proved")
    lines = ['.TH GENREQ 1 "%s" "%s" "genreq"' % (date, source), ".SH NAME", NAME, ".SH SYNOPSIS", *synopsis(top)]
    for part in PARTS:
        lines += part_lines(top, part)
    lines += [".SH SEE ALSO", SEE_ALSO]
    return "\n".join(lines) + "\n"


def main(words: List[str]) -> int:
    if words not in ([], ["--unproved"]):
        print(__doc__.split("\n\n")[1], file=sys.stderr)
        return 2
    sys.stdout.buffer.write(manual(TOP, not words).encode("utf-8"))
    return 0
