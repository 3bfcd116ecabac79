"""The words of the command line that say what to read, the same for all subcommands."""
import argparse
import re
from pathlib import Path
from typing import Iterable, List, Tuple

from ..read.conditions import DARWIN, DARWIN_MODULES, LINUX_MODULES, Configuration
from ..read.model import Reading, Signature
from ..ask.clock import Clock
from ..ask.program import Program, default_program
from ..mean.reader import read
from ..mean.standing import Standing

STANDARD = Path(__file__).resolve().parent.parent / "standard"


def add_reading_options(parser: argparse.ArgumentParser) -> None:
    """Adds the files to read, and how to read them."""
    parser.add_argument("files", nargs="+", metavar="FILE|FOLDER", help="Swift files, or folders in which all Swift files but tests are read")
    parser.add_argument(
        "--with",
        dest="beside",
        action="append",
        default=[],
        metavar="FILE|FOLDER|standard",
        help="reads these beside, for the names that the files mean; `standard` is the outline of Swift's standard library that comes with this tool",
    )
    parser.add_argument(
        "--module", default="", metavar="NAME", help="the module of the files, where it is not the folder below Sources, or the one that they are in"
    )
    parser.add_argument("--os", default="Linux", metavar="NAME", help="the system for which #if is read (Linux)")
    parser.add_argument("--arch", default="x86_64", metavar="NAME", help="the processor for which #if is read (x86_64)")
    parser.add_argument("--compiler", type=_version, default="6.0.3", metavar="VERSION", help="the compiler for which #if is read (6.0.3)")
    parser.add_argument("--language", type=_version, default="6", metavar="VERSION", help="the language mode for which #if is read (6)")
    parser.add_argument(
        "--concrete",
        action="store_true",
        help="lets concrete types without generic arguments stand as further generic parameters of a signature, with the conformances that the "
        "sources declare for them: what follows then follows in Swift too, but not all that does",
    )
    parser.add_argument("-D", dest="defined", action="append", default=[], metavar="NAME", help="a name that is set for #if")


def add_asking_options(parser: argparse.ArgumentParser) -> None:
    """Adds how long to ask."""
    parser.add_argument(
        "--seconds", type=_seconds, default=60.0, metavar="N", help="ends after so many seconds, and tells what is not answered by then (60)"
    )


def _seconds(text: str) -> float:
    seconds = float(text)
    if not 0 < seconds < 1e9:
        raise ValueError(text)
    return seconds


def program_of(arguments: argparse.Namespace) -> Program:
    """The program, which has the time that the command line gives to the whole run from now on."""
    return Program(default_program(), Clock(arguments.seconds))


def reading_of(arguments: argparse.Namespace) -> Reading:
    """Reads what the command line names."""
    beside = [str(STANDARD) if name == "standard" else name for name in arguments.beside]
    return read(arguments.files, beside, configuration_of(arguments), arguments.concrete, arguments.module)


def configuration_of(arguments: argparse.Namespace) -> Configuration:
    """The configuration that the command line names."""
    modules = DARWIN_MODULES if arguments.os in DARWIN else LINUX_MODULES
    return Configuration(
        arguments.os,
        arguments.arch,
        arguments.compiler,
        arguments.language,
        frozenset(arguments.defined),
        modules,
    )


def _version(text: str) -> Tuple[int, ...]:
    """The numbers of a version. ValueError where it is none."""
    if not re.fullmatch(r"[0-9]{1,9}(\.[0-9]{1,9})*", text):
        raise ValueError(text)
    return tuple(int(part) for part in text.split("."))


_version.__name__ = "version"  # as argparse tells it
_seconds.__name__ = "number of seconds"


def kept(declarations: Iterable[Signature], strict: bool, standing: Standing) -> List[Signature]:
    """All signatures, or the whole ones alone."""
    return [declaration for declaration in declarations if not strict or standing.is_whole(declaration)]
