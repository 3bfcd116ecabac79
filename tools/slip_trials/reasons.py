"""The first line of an edit, which says what refuses it: a clause, a law or a worked text."""
import re
from pathlib import Path
from typing import List, Optional, Tuple

REASON = "# Refused by "
PATH = re.compile(r"\b\w+(?:::\w+)+")
# Where an item is declared, or a type has functions.
ITEM = r"\b(?:fn|struct|enum|trait|impl(?:<[^>]*>)?) %s\b"
LABEL = re.compile(r"clause `(\w+)`")


def source_of(top: Path, modules: List[str]) -> Tuple[str, List[str]]:
    """The source of the innermost module that a path names, and the names behind it."""
    folder = top / "crates" / modules[0] / "src"
    file, rest = folder / "lib.rt", modules[1:]
    while rest and ((folder / (rest[0] + ".rt")).is_file() or (folder / rest[0]).is_dir()):
        file, folder, rest = folder / (rest[0] + ".rt"), folder / rest[0], rest[1:]
    return (file.read_text(encoding="utf-8") if file.is_file() else ""), rest


def fault_of(top: Path, line: str) -> Optional[str]:
    """What is wrong with the first line of an edit, if anything is: it gives no reason, or names what is not there."""
    if not line.startswith(REASON):
        return "its first line does not begin with `%s`" % REASON.strip()
    sources = []
    for path in PATH.findall(line):
        source, names = source_of(top, path.split("::"))
        if not names or not all(re.search(ITEM % name, source) for name in names):
            return "there is no %s" % path
        sources.append(source)
    for label in LABEL.findall(line):
        if not any("ensures %s " % label in source for source in sources):
            return "there is no clause `%s`" % label
    return None
