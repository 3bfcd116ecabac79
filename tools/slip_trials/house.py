"""Which slips the repository has: the files crates/CRATE/slips/NAME.edit, in the form of the edits of must-fail/."""
from dataclasses import dataclass
from pathlib import Path
from typing import Dict, Iterator, List, Sequence, Tuple

from .reasons import fault_of

GATE, SLIPS = "must-fail", "slips"
EDIT = ".edit"


class HouseFault(Exception):
    """A folder of edits is not as it should be, or a crate that was named has no slips."""


@dataclass(frozen=True, order=True)
class Slip:
    """A slip: its crate, and its name, which no other slip or edit of the repository has."""

    crate: str
    name: str

    def __str__(self) -> str:
        return "%s/%s" % (self.crate, self.name)


SlipsByCrate = Dict[str, Tuple[Slip, ...]]


def edits_in(folder: Path) -> Iterator[str]:
    """The names of the edits in a folder, in order. Raises HouseFault at a file that is no edit."""
    for path in sorted(folder.iterdir()) if folder.is_dir() else ():
        if path.suffix != EDIT or not path.is_file():
            raise HouseFault("%s is no edit: its name has to end in %s" % (path, EDIT))
        yield path.name[: -len(EDIT)]


def slips_of(top: Path) -> SlipsByCrate:
    """The slips of each crate that has some. Raises HouseFault where two edits, slips or not, have the same name, or one does not say what refuses it."""
    found: SlipsByCrate = {}
    owners: Dict[str, str] = {}
    for crate in sorted(path for path in (top / "crates").iterdir() if path.is_dir()):
        slips = tuple(Slip(crate.name, name) for name in edits_in(crate / SLIPS))
        if slips:
            found[crate.name] = slips
        for folder, name in [(folder, name) for folder in (GATE, SLIPS) for name in edits_in(crate / folder)]:
            if name in owners:
                raise HouseFault("two edits have the name %s, of %s and of %s" % (name, owners[name], crate.name))
            owners[name] = crate.name
            fault = fault_of(top, (crate / folder / (name + EDIT)).read_text(encoding="utf-8").partition("\n")[0])
            if fault:
                raise HouseFault("edit %s/%s: %s" % (crate.name, name, fault))
    return found


def chosen(slips: SlipsByCrate, crates: Sequence[str]) -> List[Tuple[Slip, ...]]:
    """The slips of the named crates, or of all where none is named. Raises HouseFault where there are none."""
    for crate in crates:
        if crate not in slips:
            raise HouseFault("%s has no slips" % crate)
    if not slips:
        raise HouseFault("no crate has slips")
    return [slips[crate] for crate in dict.fromkeys(crates or slips)]
