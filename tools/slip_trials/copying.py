"""A copy of the repository in which slips stand where the prover looks for wrong bodies: in must-fail/."""
import contextlib
import os
import shutil
import tempfile
from pathlib import Path
from typing import Iterator

from .house import GATE, SLIPS

LISTS = ("crates.txt", "HANDLES")
OUT = "out"


def linked(source: str, target: str) -> str:
    """Gives a file a second name, or copies it where that cannot be, as between two disks."""
    try:
        os.link(source, target)
    except OSError:
        shutil.copy2(source, target)
    return target


def copy_crate(crate: Path, target: Path) -> None:
    """Copies a crate with its slips in place of its edits. What is kept of its proof is shared, so that it need not be proved anew."""
    shutil.copytree(crate, target, symlinks=True, ignore=lambda folder, names: {OUT, GATE, SLIPS} & set(names) if Path(folder) == crate else ())
    if (crate / SLIPS).is_dir():
        shutil.copytree(crate / SLIPS, target / GATE)
    if (crate / OUT).is_dir():
        try:
            shutil.copytree(crate / OUT, target / OUT, symlinks=True, copy_function=linked)
        except (OSError, shutil.Error):
            # Another command is at work on it, so it is not whole.
            shutil.rmtree(target / OUT, ignore_errors=True)


@contextlib.contextmanager
def copy_with_slips(top: Path) -> Iterator[Path]:
    """A copy of the crates at the repository's top, with the slips of each in place of its edits. It is removed at the end."""
    with tempfile.TemporaryDirectory(prefix="slips-") as room:
        copy = Path(room)
        for name in LISTS:
            if (top / name).is_file():
                shutil.copy2(top / name, copy / name)
        for crate in (top / "crates").iterdir():
            if crate.is_dir():
                copy_crate(crate, copy / "crates" / crate.name)
        yield copy
