"""Builds the library for C from its source without a proof: `crates/swreq_c/out/unproved/libgenreq.a` and `libgenreq.so`.

The toolchain tries unproved programs alone. So a program of a few lines that makes the call is lowered to a module, as `unproved.py` has it, and in
the module the call gets the name by which C calls it. The call is lowered as C passes its arguments, so nothing else is put between."""
import pathlib
import re
import subprocess
from typing import List

from building import unproved
from building.crates import Crates
from building.toolchain import Missing, Toolchain
from building.unproved import Building, Failed, Say, run_watched, say_on_errors

LIBRARY, CALL = "swreq_c", "genreq_run"
ARCHIVE, SHARED = "libgenreq.a", "libgenreq.so"
PROGRAM = """//! Makes the call of the library.
#![tactic(auto)]

use std::process::ExitCode;
use swreq_c::genreq_run;

fn main(rt: HostRuntime) -> ExitCode {
    let mut out = [0u8; 16];
    let answer = genreq_run(rt.alloc(), b"answer", b"", &mut out);
    ExitCode::from(answer.status)
}
"""
# Where the call is defined in a module, and where its program begins.
DEFINED = re.compile(r'^define internal (?:noundef )?(.*?) (@"[^"]*::%s")\((.*)\) ' % CALL, re.M)
MAIN = re.compile(r"^(define .*)@main\(", re.M)


def exported(module: str) -> str:
    """The text of a module in which the call has its name in C, and the program none that C has. Failed where the call is not there."""
    found = DEFINED.search(module)
    if not found:
        raise Failed("the module does not define %s" % CALL)
    types = ", ".join(argument.split()[0] for argument in found[3].split(","))
    alias = "\n@%s = alias %s (%s), ptr %s\n" % (CALL, found[1], types, found[2])
    return MAIN.sub(r'\1@"unproved::entry"(', module, count=1) + alias


class Library(Building):
    """The building of the library."""

    steps = 4

    def __init__(self, crates: Crates, toolchain: Toolchain, say: Say = say_on_errors) -> None:
        super().__init__(crates, toolchain, LIBRARY, False, say)
        self.program = archive_of(crates)
        self.log = self.program.with_suffix(".log")

    def source_words(self, work: pathlib.Path) -> List[str]:
        """The program that makes the call, over all that the library is made of."""
        main = work / "main.rt"
        main.write_text(PROGRAM, encoding="utf-8")
        return ["--crate-name", "unproved", *self.toolchain.program_as_source(self.crates, main, LIBRARY)]

    def compiled(self, module: pathlib.Path, work: pathlib.Path) -> pathlib.Path:
        """The module compiled, with the call under its name."""
        clang = str(self.toolchain.tools / "bin/clang")
        text, made = work / "module.ll", work / "library.o"
        reading = [clang, "-x", "ir", str(module), "-S", "-emit-llvm", "-O0", "-Xclang", "-disable-llvm-passes", "-o", str(text)]
        self.ran(reading, "2 of 4: exporting the call")
        text.write_text(exported(text.read_text(encoding="utf-8")), encoding="utf-8")
        self.ran([clang, "-x", "ir", str(text), "-c", "-O2", "-fPIC", "-o", str(made)], "3 of 4: compiling")
        return made

    def ran(self, words: List[str], step: str) -> None:
        if run_watched(words, step, self.say, self.log, self.crate.folder):
            raise Failed("the library was not built: see %s" % self.log)

    def link(self, module: pathlib.Path, work: pathlib.Path) -> pathlib.Path:
        """Puts both forms of the library together. The shared one goes to its place here."""
        archive, shared = work / ARCHIVE, work / SHARED
        parts = ["addmod %s" % self.compiled(module, work), *("addlib %s" % path for path in self.toolchain.of_c)]
        script = "\n".join(["create %s" % archive, *parts, "save", "end", ""])
        if subprocess.run(["ar", "-M"], input=script.encode(), check=False).returncode:
            raise Failed("the library was not put together")
        self.ran(["cc", "-shared", "-o", str(shared), "-Wl,-u,%s" % CALL, str(archive)], "4 of 4: linking")
        shared.rename(self.folder / SHARED)
        return archive


def archive_of(crates: Crates) -> pathlib.Path:
    """Where the archive is built."""
    return crates.by_name[LIBRARY].out / "unproved" / ARCHIVE


def ensure(crates: Crates, say: Say = say_on_errors) -> List[pathlib.Path]:
    """Both forms of the library, built if they are not there or a source is newer."""
    archive = archive_of(crates)
    if not crates.is_made(archive, LIBRARY, "src"):
        archive.parent.mkdir(parents=True, exist_ok=True)
        with unproved.alone(archive.with_suffix(".lock"), say):
            if not crates.is_made(archive, LIBRARY, "src"):
                Library(crates, Toolchain(), say).build()
    return [archive, archive.parent / SHARED]


def main() -> int:
    try:
        ensure(Crates(pathlib.Path(__file__).resolve().parent.parent.parent))
    except (Failed, Missing, OSError) as failure:
        say_on_errors(str(failure))
        return 1
    except KeyboardInterrupt:
        return 130
    print("built, and NOT proved: crates/swreq_c/out/unproved/%s and %s" % (ARCHIVE, SHARED))
    return 0
