"""Whether a slip can be applied: its lines `old:` name texts that stand in its crate. Nothing is proved here."""
import re
from pathlib import Path
from typing import Dict

from .house import EDIT, SLIPS, HouseFault, Slip

LINE = re.compile(r"(file|old|new):(?: (.*))?")


def apply(slip: Slip, top: Path) -> Dict[str, str]:
    """The files that a slip changes, by their paths in its crate, as it makes them. Raises HouseFault where it cannot be applied."""
    crate = top / "crates" / slip.crate
    texts: Dict[str, str] = {}
    path = old = ""
    for line in (crate / SLIPS / (slip.name + EDIT)).read_text(encoding="utf-8").split("\n"):
        match = LINE.fullmatch(line)
        if not match:
            continue
        kind, text = match[1], match[2] or ""
        if kind == "file":
            path = text.strip()
            if path not in texts and not (crate / path).is_file():
                raise HouseFault("slip %s: its crate has no file %s" % (slip, path))
            texts.setdefault(path, (crate / path).read_text(encoding="utf-8"))
        elif kind == "old":
            old = text
            count = texts.get(path, "").count(old)
            if count != 1:
                raise HouseFault("slip %s: `%s` stands %d times in %s, and not once" % (slip, old.strip(), count, path or "no file"))
        elif old:
            texts[path], old = texts[path].replace(old, text), ""
        else:
            raise HouseFault("slip %s: a line `new:` stands after no line `old:`" % slip)
    if not texts:
        raise HouseFault("slip %s: it changes nothing" % slip)
    return texts
