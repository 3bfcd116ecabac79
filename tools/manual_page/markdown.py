"""Reads the Markdown of the pages: headings, paragraphs, lists, tables and blocks of code."""
import re
from dataclasses import dataclass
from typing import Iterator, List, Tuple, Union


@dataclass(frozen=True)
class Heading:
    """A heading, with its level from 1."""

    level: int
    text: str


@dataclass(frozen=True)
class Paragraph:
    text: str


@dataclass(frozen=True)
class Items:
    """A list: the mark of each item, `-` or its number with a dot, and its text."""

    items: Tuple[Tuple[str, str], ...]


@dataclass(frozen=True)
class Table:
    """The cells of the first row, and of each row after it."""

    head: Tuple[str, ...]
    rows: Tuple[Tuple[str, ...], ...]


@dataclass(frozen=True)
class Code:
    """The lines between two fences."""

    lines: Tuple[str, ...]


Block = Union[Heading, Paragraph, Items, Table, Code]

ITEM = re.compile(r"(-|\d+\.) (.*)")
# A bar that divides two cells has no backslash before it.
BAR = re.compile(r"(?<!\\)\|")


class NoSection(Exception):
    """A page has no section with this heading."""


def cells_of(line: str) -> Tuple[str, ...]:
    """The cells of a row of a table."""
    return tuple(cell.strip().replace("\\|", "|") for cell in BAR.split(line.strip())[1:-1])


def table_of(lines: List[str]) -> Table:
    """The table of these lines, of which the second one divides the head from the rest."""
    rows = [cells_of(line) for line in lines]
    return Table(rows[0], tuple(rows[2:]))


def block_of(lines: List[str]) -> Block:
    """The block of these lines, between which no line is empty."""
    if lines[0].startswith("#"):
        marks, _, text = lines[0].partition(" ")
        return Heading(len(marks), text)
    if lines[0].startswith("|"):
        return table_of(lines)
    items = [ITEM.match(line) for line in lines]
    if all(items):
        return Items(tuple((item[1], item[2]) for item in items if item))
    return Paragraph(" ".join(lines))


def blocks_of(text: str) -> Iterator[Block]:
    """The blocks of a page, in order."""
    lines: List[str] = []
    is_code = False
    for line in [*text.splitlines(), ""]:
        if line.startswith("```"):
            if is_code:
                yield Code(tuple(lines))
                lines = []
            is_code = not is_code
        elif is_code or line.strip():
            lines.append(line)
        elif lines:
            yield block_of(lines)
            lines = []


def section_of(blocks: List[Block], heading: str) -> List[Block]:
    """What stands under the heading of level 2, or, for the empty heading, what stands before the first of these. NoSection where it is not there."""
    found: List[Block] = []
    is_here, is_found = not heading, not heading
    for block in blocks:
        if isinstance(block, Heading) and block.level <= 2:
            is_here = block.level == 1 and not heading or block.text == heading
            is_found = is_found or is_here
        elif is_here:
            found.append(block)
    if not is_found:
        raise NoSection("there is no section %s" % heading)
    return found
