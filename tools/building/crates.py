"""The crates of the repository, as crates.txt lists them: what each stands on, and which files it is made of."""
import pathlib
import re
from dataclasses import dataclass
from typing import Dict, Iterator, List, Tuple

# A line of crates.txt: the name of a crate, `staticlib` where it is a library for C, and what it stands on.
LINE = re.compile(r"([a-z]\w*)( staticlib)?:(.*)")
TEST = re.compile(r"#\[test\]")
# The folders that a proof reads. A program is lowered of the first alone.
PARTS = ("src", "specs", "proofs")


@dataclass(frozen=True)
class Crate:
    """A crate: its folder, the crates of the repository that it names, and those of the toolchain."""

    name: str
    folder: pathlib.Path
    is_static: bool
    crates: Tuple[str, ...]
    of_kit: Tuple[str, ...]

    @property
    def is_program(self) -> bool:
        return (self.folder / "src/main.rt").is_file()

    @property
    def root(self) -> str:
        """The file that the compiler is given, seen from the folder."""
        return "src/main.rt" if self.is_program else "src/lib.rt"

    @property
    def out(self) -> pathlib.Path:
        return self.folder / "out"

    @property
    def library(self) -> pathlib.Path:
        """What a proved library is built as, a folder. Its file `format` is written last."""
        return self.out / "rlib" / (self.name + ".rlib")

    def sources(self, *parts: str) -> Iterator[pathlib.Path]:
        """The named parts of the crate, or all, with each file and folder in them. A folder is newer once a file of it is gone."""
        for part in parts or PARTS:
            if (self.folder / part).is_dir():
                yield self.folder / part
                yield from sorted((self.folder / part).rglob("*"))

    def has_tests(self) -> bool:
        return any(TEST.search(path.read_text(encoding="utf-8")) for path in self.sources("src") if path.suffix == ".rt")


class Crates:
    """The crates of a repository, by name."""

    def __init__(self, top: pathlib.Path) -> None:
        self.top = top
        self.list = top / "crates.txt"
        found = [match.groups() for match in map(LINE.match, self.list.read_text(encoding="utf-8").splitlines()) if match]
        names = {name for name, _, _ in found}
        self.by_name: Dict[str, Crate] = {}
        for name, static, words in found:
            below = words.split()
            ours = tuple(it for it in below if it in names)
            theirs = tuple(it for it in below if it not in names)
            self.by_name[name] = Crate(name, top / "crates" / name, bool(static), ours, theirs)

    def below(self, name: str) -> List[Crate]:
        """The crates of the repository that a crate stands on, also through others, each after those that it stands on."""
        found: Dict[str, Crate] = {}

        def visit(crate: Crate) -> None:
            for below in crate.crates:
                if below not in found:
                    visit(self.by_name[below])
                    found[below] = self.by_name[below]

        visit(self.by_name[name])
        return list(found.values())

    def whole(self, name: str) -> List[Crate]:
        """A crate, after those that it stands on."""
        return [*self.below(name), self.by_name[name]]

    def is_made(self, made: pathlib.Path, name: str, *parts: str) -> bool:
        """Whether a file is there and nothing of what the crate is made of, by the named parts or by all, is newer."""
        if not made.is_file():
            return False
        then = made.stat().st_mtime_ns
        files = (path for crate in self.whole(name) for path in crate.sources(*parts))
        return self.list.stat().st_mtime_ns <= then and all(path.stat().st_mtime_ns <= then for path in files)
