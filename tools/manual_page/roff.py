"""Writes blocks as the macros of `man`."""
import re
from typing import Callable, Dict, List, Type

from manual_page.markdown import Block, Code, Heading, Items, Paragraph, Table

# What has a meaning of its own in a text: a backtick as code, other code, strong words, emphasised words, and links.
INLINE = re.compile(r"`` (.+?) ``|`([^`]+)`|\*\*(.+?)\*\*|(?<![\w*])\*([^*\s][^*]*)\*|\[([^\]]+)\]\([^)]*\)")


def plain(text: str) -> str:
    """A text without any meaning to roff."""
    return re.sub(r"(?m)^([.'])", r"\\&\1", text.replace("\\", "\\e")).replace("-", "\\-")


def inline(text: str) -> str:
    """A text of Markdown, in one line."""
    parts: List[str] = []
    at = 0
    for found in INLINE.finditer(text):
        backtick, code, strong, emphasised, link = found.groups()
        parts.append(unescaped(text[at : found.start()]))
        if backtick or code:
            parts.append("\\fB%s\\fR" % plain(backtick or code))
        elif strong:
            parts.append("\\fB%s\\fR" % inline(strong))
        else:
            parts.append("\\fI%s\\fR" % inline(emphasised) if emphasised else inline(link))
        at = found.end()
    parts.append(unescaped(text[at:]))
    line = "".join(parts)
    return "\\&" + line if line[:1] in (".", "'") else line


def unescaped(text: str) -> str:
    """What stands outside code: a backslash before a mark goes."""
    return plain(re.sub(r"\\([^\w\s])", r"\1", text)) if text else ""


def heading(block: Heading) -> List[str]:
    return [".SH %s" % inline(block.text).upper() if block.level <= 2 else ".SS %s" % inline(block.text)]


def paragraph(block: Paragraph) -> List[str]:
    return [".PP", inline(block.text)]


def items(block: Items) -> List[str]:
    lines: List[str] = []
    for mark, text in block.items:
        lines += [".IP %s 4" % ("\\(bu" if mark == "-" else mark), inline(text)]
    return lines


def table(block: Table) -> List[str]:
    """Each row under its first cell. Where a row has more than two cells, the others stand with their heads."""
    lines: List[str] = []
    for first, *others in block.rows:
        lines += [".TP", inline(first)]
        if len(others) == 1:
            lines.append(inline(others[0]))
            continue
        told = ["%s: %s" % (inline(head), inline(cell)) for head, cell in zip(block.head[1:], others)]
        lines += [part for text in told for part in (text, ".br")][:-1]
    return lines


def code(block: Code) -> List[str]:
    return [".PP", ".RS 4", ".nf", *(plain(line) for line in block.lines), ".fi", ".RE"]


WRITERS: Dict[Type[Block], Callable[..., List[str]]] = {Heading: heading, Paragraph: paragraph, Items: items, Table: table, Code: code}


def lines_of(blocks: List[Block]) -> List[str]:
    """The lines of some blocks."""
    return [line for block in blocks for line in WRITERS[type(block)](block)]
