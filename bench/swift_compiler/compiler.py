"""The Swift compiler in a folder of its own, as `set_up.sh` unpacks it there. It needs no rights and no place on the path."""
from contextlib import contextmanager
from dataclasses import dataclass
from pathlib import Path
import resource
import subprocess
import tempfile
from typing import IO, Iterator, List, Optional, Sequence, Tuple

SET_UP = Path(__file__).resolve().parent / "set_up.sh"
FLAGS = "// swift-module-flags: "


class NoCompiler(Exception):
    """The compiler is not there, or does not run."""


@dataclass(frozen=True)
class Run:
    """A run of a program: its status, and the seconds of the processor that it took."""

    status: int
    seconds: float


def spent() -> float:
    usage = resource.getrusage(resource.RUSAGE_CHILDREN)
    return usage.ru_utime + usage.ru_stime


@contextmanager
def timed(command: Sequence[str], quiet: bool = False) -> Iterator[Tuple[Run, IO[bytes]]]:
    """Runs a command to its end, and gives what it printed as a file that goes when it is left. Where it is quiet that is its standard output
    alone, and else both streams."""
    with tempfile.TemporaryFile() as printed:
        before = spent()
        done = subprocess.run(list(command), stdout=printed, stderr=None if quiet else subprocess.STDOUT, check=False)
        seconds = spent() - before
        printed.seek(0)
        yield Run(done.returncode, seconds), printed


@dataclass(frozen=True)
class Compiler:
    """The compiler whose files stand below this folder."""

    root: Path

    @property
    def swift(self) -> Path:
        return self.root / "usr/libexec/swift"

    @property
    def library(self) -> Path:
        """The compiler's modules."""
        return self.swift / "lib/swift"

    def command(self, arguments: Sequence[str]) -> List[str]:
        """The compiler's front with these arguments. Its own loader runs it, so that it finds its libraries."""
        folders = [self.root / "usr/lib/x86_64-linux-gnu", self.library / "linux", self.library / "host"]
        return [
            str(self.root / "usr/lib64/ld-linux-x86-64.so.2"),
            "--library-path",
            ":".join(str(folder) for folder in folders),
            str(self.swift / "bin/swift-frontend"),
            *arguments,
            "-resource-dir",
            str(self.library),
            "-sdk",
            str(self.root),
        ]

    def interface(self, module: str) -> Optional[Path]:
        """The interface of one of the compiler's own modules, or None where it has none."""
        path = self.library / "linux" / (module + ".swiftmodule") / "x86_64-pc-linux-gnu.swiftinterface"
        return path if path.is_file() else None

    def flags(self, module: str) -> Tuple[str, ...]:
        """The flags by which one of the compiler's own modules is compiled, as its interface says them."""
        interface = self.interface(module)
        if interface is None:
            return ()
        with interface.open(encoding="utf-8") as lines:
            for line in lines:
                if line.startswith(FLAGS):
                    return tuple(line[len(FLAGS) :].split())
        return ()

    def check(self) -> str:
        """The compiler's version. Raises NoCompiler where it does not run."""
        try:
            done = subprocess.run(self.command(["--version"]), stdout=subprocess.PIPE, stderr=subprocess.STDOUT, check=False)
        except OSError as error:
            raise NoCompiler("there is no compiler below %s: --set-up sets it up" % self.root.parent) from error
        if done.returncode != 0:
            raise NoCompiler("the compiler below %s does not run" % self.root)
        return next((line for line in done.stdout.decode("utf-8", "replace").split("\n") if "version" in line), "")


def set_up(folder: Path) -> None:
    """Fetches the compiler and unpacks it into a folder, where it is not there already. Raises NoCompiler where that fails."""
    if not (folder / "root").exists() and subprocess.run(["sh", str(SET_UP), str(folder)], check=False).returncode != 0:
        raise NoCompiler("the compiler could not be set up in %s" % folder)
