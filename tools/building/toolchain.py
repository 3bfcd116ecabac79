"""The Rattle toolchain: where its parts are, and the words by which its commands are told of crates."""
import pathlib
import re
import shutil
import subprocess
from typing import Iterable, List

from building.crates import Crate, Crates

TARGET = "x86_64-unknown-linux-gnu"


class Missing(Exception):
    """The toolchain, or a part of it that is needed, is not there."""


class Toolchain:
    """A toolchain, found by its command `rt`."""

    def __init__(self) -> None:
        if not shutil.which("rt"):
            raise Missing("rt, the Rattle toolchain, is not there")
        page = subprocess.run(["rt", "doc"], stdout=subprocess.PIPE, check=False).stdout.decode().strip()
        self.kit = pathlib.Path(page).parent
        self.tools = self.kit / "toolchain"

    def program(self, name: str) -> str:
        """The path of one of its programs."""
        path = self.kit / "bin" / name
        if not path.is_file():
            raise Missing("this Rattle toolchain has no %s" % name)
        return str(path)

    @property
    def of_c(self) -> List[str]:
        """The parts in C that each program is linked with."""
        return [str(self.kit / "c" / name) for name in ("libos_c.a", "liblibc_c.a")]

    def linked(self, objects: List[str], program: pathlib.Path) -> List[str]:
        """The command that links a program."""
        return [self.program("rattle-link"), "--target", TARGET, "--toolchain", str(self.tools), "-o", str(program), *objects, *self.of_c]

    def libraries_as_source(self, names: Iterable[str]) -> List[str]:
        """The words that give the toolchain's libraries of these names, and those that they use, as source."""
        words: List[str] = []
        names = list(dict.fromkeys(names))
        for name in names:
            form = (self.kit / "rlibs" / (name + ".rlib") / "format").read_text(encoding="utf-8")
            uses = re.findall(r"^dep (\w+)$", form, re.M)
            names += [it for it in uses if it not in names]
            words += ["--lib", "%s:%s=%s" % (name, ",".join(uses), self.kit / "rattle" / name / "src/lib.rt")]
        return words

    def crate_as_source(self, crates: Crates, name: str) -> List[str]:
        """The words that give a crate, and all that it stands on, as source."""
        words, of_kit = [crates.by_name[name].root], ["std"]
        for crate in crates.below(name):
            uses = ["core", "std", *crate.of_kit, *crate.crates]
            words += ["--lib", "%s:%s=%s" % (crate.name, ",".join(uses), crate.folder / "src/lib.rt")]
        for crate in crates.whole(name):
            of_kit += crate.of_kit
        return words + self.libraries_as_source(of_kit)

    def program_as_source(self, crates: Crates, root: pathlib.Path, name: str) -> List[str]:
        """The words that give a program at this path over a crate, and all that the crate stands on, as source."""
        crate = crates.by_name[name]
        uses = ["core", "std", *crate.of_kit, *crate.crates]
        _, *below = self.crate_as_source(crates, name)
        return [str(root), "--lib", "%s:%s=%s" % (name, ",".join(uses), crate.folder / "src/lib.rt"), *below]

    def crate_over_libraries(self, crates: Crates, crate: Crate) -> List[str]:
        """The words that give a crate over the libraries that were built of those below it."""
        words = ["--crate-name", crate.name, crate.root]
        for name in ("std", *crate.of_kit):
            words += ["--extern", "%s=%s" % (name, self.kit / "rlibs" / (name + ".rlib"))]
        words += ["-L", "dependency=%s" % (self.kit / "rlibs")]
        for name in crate.crates:
            words += ["--extern", "%s=%s" % (name, crates.by_name[name].library)]
        for below in crates.below(crate.name):
            words += ["-L", "dependency=%s" % below.library.parent]
        logic = self.kit / "rattle/logic/antt-project.json"
        return words + ["--antt-project", str(logic), "--logic-built", str(self.kit / "logic_built"), "--links", "%s=" % crate.name]
