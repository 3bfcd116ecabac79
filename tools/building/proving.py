"""Proves crates and builds what stands on them, side by side: `make` goes by a rule for each crate, so what is proved and no older than its sources is
not proved again, and an interrupted run goes on where it stopped.

usage: ./prove [CRATE..]    proves and builds these crates, and first those that they stand on; the program genreq where none is named"""
import os
import pathlib
import shutil
import subprocess
import sys
import tempfile
import time
from typing import List, Optional

from building.crates import Crate, Crates
from building.toolchain import Missing, Toolchain

TOP = pathlib.Path(__file__).resolve().parent.parent.parent
# By this word `make` asks for one crate.
ONE = "--one"
# What a check may take of memory, in bytes, and of processors.
MEMORY, MOST_JOBS = 3_000_000_000, 4


class NotProved(Exception):
    """A crate is not proved, or was not built."""


def made_of(crate: Crate) -> pathlib.Path:
    """The file that is there once the crate is proved and built."""
    if crate.is_program:
        return crate.out / crate.name
    return crate.out / ("lib%s.a" % crate.name) if crate.is_static else crate.library / "format"


def rules(crates: Crates, names: List[str]) -> str:
    """The rules of `make` for these crates and those that they stand on."""
    wanted = list(dict.fromkeys(crate for name in names for crate in crates.whole(name)))
    goals = " ".join(str(made_of(crates.by_name[name]).relative_to(TOP)) for name in names)
    lines = ["all: %s" % goals, ".PHONY: all", ".SUFFIXES:", "MAKEFLAGS += --no-builtin-rules"]
    for crate in wanted:
        below = [made_of(crates.by_name[name]) for name in crate.crates]
        files = " ".join(str(path.relative_to(TOP)) for path in [*crate.sources(), *below])
        lines += ["%s: %s" % (made_of(crate).relative_to(TOP), files), "\t@./prove %s %s %s" % (ONE, crate.name, " ".join(names))]
    return "\n".join(lines) + "\n"


def is_proved(crates: Crates, crate: Crate) -> bool:
    """Whether it is proved and built, and nothing that it is made of, nor what it stands on, is newer."""
    made = made_of(crate)
    if not made.is_file():
        return False
    then = made.stat().st_mtime_ns
    below = [made_of(crates.by_name[name]) for name in crate.crates]
    return all(path.exists() and path.stat().st_mtime_ns <= then for path in [*crate.sources(), *below])


def left_of(crates: Crates, names: List[str]) -> List[Crate]:
    """Those of these crates, and of what they stand on, that are not proved yet, lowest first."""
    wanted = list(dict.fromkeys(crate for name in names for crate in crates.whole(name)))
    left: List[Crate] = []
    for crate in wanted:
        if not is_proved(crates, crate) or any(below in left for below in crates.below(crate.name)):
            left.append(crate)
    return left


def jobs_for(crates: Crates, crate: Crate, left: List[Crate]) -> int:
    """How many processors a crate gets: all where no other can be proved beside it, and else its share."""
    below = crates.below(crate.name)
    beside = [it for it in left if it != crate and it not in below and crate not in crates.below(it.name)]
    return max(1, min(MOST_JOBS, (os.cpu_count() or 1) // (1 + len(beside))))


class Proving:
    """The proving of one crate over the libraries below it, which are proved."""

    def __init__(self, crates: Crates, crate: Crate, jobs: int) -> None:
        self.toolchain, self.crate = Toolchain(), crate
        self.words = [self.toolchain.program("rattle"), "build", *self.toolchain.crate_over_libraries(crates, crate), "--jobs", str(jobs)]
        self.log = crate.out / "prove.log"

    def run(self, words: List[str]) -> None:
        with self.log.open("ab") as out:
            done = subprocess.run(words, cwd=self.crate.folder, stdin=subprocess.DEVNULL, stdout=out, stderr=out, check=False)
        if done.returncode:
            raise NotProved("%s is not proved: see %s" % (self.crate.name, self.log.relative_to(TOP)))

    def library(self, work: pathlib.Path) -> None:
        made = work / self.crate.library.name
        self.run([*self.words, "--statements", "-o", str(made)])
        # The toolchain's own record of what was there goes first.
        shutil.rmtree(self.crate.library.parent, ignore_errors=True)
        self.crate.library.parent.mkdir(parents=True)
        made.rename(self.crate.library)

    def linked(self, work: pathlib.Path) -> None:
        """Builds a program or a library for C."""
        compiled = ["--toolchain", str(self.toolchain.tools), "--backend", "llvm"]
        made, wanted = work / "made", made_of(self.crate)
        if self.crate.is_static:
            self.run([*self.words, *compiled, "--crate-type", "staticlib", "-o", str(made)])
        else:
            self.run([*self.words, *compiled, "-o", str(work / "program.o")])
            self.run(self.toolchain.linked([str(work / "program.o")], made))
        made.rename(wanted)

    def prove(self) -> None:
        """Proves the crate and builds it. What was there stays until that is done."""
        self.crate.out.mkdir(exist_ok=True)
        self.log.write_bytes(b"")
        with tempfile.TemporaryDirectory(prefix="proving-", dir=self.crate.out) as work:
            make = self.linked if self.crate.is_program or self.crate.is_static else self.library
            make(pathlib.Path(work))


def prove_one(crates: Crates, name: str, names: List[str]) -> None:
    """Proves one crate on the way to the named ones, and says how many are left."""
    crate, began = crates.by_name[name], time.time_ns()
    Proving(crates, crate, jobs_for(crates, crate, left_of(crates, names))).prove()
    # A source that has changed meanwhile is newer.
    os.utime(made_of(crate), ns=(began, began))
    print("proved %s, %d left" % (name, len(left_of(crates, names))), flush=True)


def free_memory() -> Optional[int]:
    """The memory that can be had, in bytes, where the system tells it."""
    try:
        for line in pathlib.Path("/proc/meminfo").read_text(encoding="utf-8").splitlines():
            if line.startswith("MemAvailable:"):
                return 1024 * int(line.split()[1])
    except OSError:
        pass
    return None


def lanes() -> int:
    """How many crates are proved side by side: one a processor, as many as memory holds."""
    memory = free_memory()
    return max(1, min(os.cpu_count() or 1, memory // MEMORY if memory else 2))


def prove_all(crates: Crates, names: List[str]) -> int:
    """Has `make` prove the named crates, and returns its status."""
    Toolchain()
    if not shutil.which("make"):
        raise Missing("make, which orders the proofs, is not there")
    left = left_of(crates, names)
    if left:
        print("proving %d crates, %d side by side" % (len(left), lanes()), flush=True)
    words = ["make", "--silent", "--jobs", str(lanes()), "--file", "-"]
    return subprocess.run(words, cwd=TOP, input=rules(crates, names).encode(), check=False).returncode


def main(words: List[str]) -> int:
    crates = Crates(TOP)
    is_one = words[:1] == [ONE]
    names = words[1:] if is_one else words or ["genreq"]
    unknown = [name for name in names if name not in crates.by_name]
    if unknown:
        print("prove: crates.txt names no crate %s\n%s" % (unknown[0], __doc__.split("\n\n")[1]), file=sys.stderr)
        return 2
    try:
        if is_one:
            prove_one(crates, names[0], names[1:] or names[:1])
            return 0
        status = prove_all(crates, names)
    except (NotProved, Missing, OSError) as failure:
        print("prove: %s" % failure, file=sys.stderr)
        return 1
    except KeyboardInterrupt:
        return 130
    if not status:
        print("proved and built: %s" % " ".join(names))
    return 1 if status else 0
