"""The modules that are compared: which files each has, by which flags it is compiled, and what is read beside it."""
from dataclasses import dataclass
from pathlib import Path
from typing import List, Sequence, Tuple

from swift_compiler.compiler import Compiler

STANDARD = "standard"
# The modules that `--with standard` has.
OUTLINED = ("Swift", "_Concurrency")


class NoModule(Exception):
    """A word that names no module."""


@dataclass(frozen=True)
class Module:
    """A module: its name, its files in order, the flags by which it is compiled, and whether its only file is an interface."""

    name: str
    files: Tuple[Path, ...]
    flags: Tuple[str, ...]
    is_interface: bool


def own_module(name: str, compiler: Compiler) -> Module:
    """One of the compiler's own modules, by its interface."""
    interface = compiler.interface(name)
    if interface is None:
        raise NoModule("%s is no folder, and no module of the compiler that has an interface" % name)
    return Module(name, (interface,), compiler.flags(name), True)


def files_of(path: Path) -> Tuple[Path, ...]:
    """The sources of a folder in the order of their names, a source by itself, or those that a text lists, a path in each line."""
    if path.is_dir():
        files = sorted(path.rglob("*.swift"))
    elif path.suffix in (".swift", ".swiftinterface"):
        files = [path]
    else:
        files = [path.parent / line for line in path.read_text(encoding="utf-8").split("\n") if line]
    if not files:
        raise NoModule("%s has no Swift source" % path)
    return tuple(file.resolve() for file in files)


def module_of(word: str, flags: Sequence[str], compiler: Compiler) -> Module:
    """The module that a word names: `standard`, one of the compiler's own, PATH, or NAME=PATH. Without a name the module is named as its path.
    Where the compiler has a module of that name, its flags are those of these files too."""
    name, _, folder = word.rpartition("=")
    path = Path(folder)
    if word == STANDARD:
        return own_module("Swift", compiler)
    if not path.exists():
        return own_module(word, compiler)
    name = name or path.resolve().stem.replace("-", "_")
    usual = compiler.flags(name) or ("-module-name", name)
    return Module(name, files_of(path), usual + tuple(flags), path.suffix == ".swiftinterface")


def beside(module: Module, before: Sequence[Module]) -> List[str]:
    """What `--with` names for a module: the standard library, as it comes with the tool, and the files of the modules that are named before it."""
    if module.name == "Swift":
        return []
    named = [str(file) for other in before for file in other.files if other.name not in (module.name, *OUTLINED)]
    return [STANDARD, *named]
