"""The files that are read: Swift files, and the folders in which they are looked for."""
from dataclasses import dataclass
import os
from pathlib import Path
import re
import stat
from typing import List, Sequence, Tuple

from .model import Problem
from .tokens import Source

_SUFFIXES = (".swift", ".swiftinterface")
# What a folder holds beside the sources of its package.
_BESIDE = frozenset(("Tests", "Benchmarks", "Examples", "Plugins", "test", ".build", ".git"))
_MANIFEST = re.compile(r"Package(@.*)?\.swift")
_MODULE_NAME = re.compile(r"^// swift-module-flags:.* -module-name (\S+)", re.MULTILINE)


@dataclass(frozen=True)
class Files:
    """The sources that could be read, and what is told of the others."""

    sources: Tuple[Source, ...]
    problems: Tuple[Problem, ...]


def read_files(paths: Sequence[str]) -> Files:
    """Reads files, and all Swift files in folders, by name; tests, plugins and manifests in a folder are left out."""
    sources: List[Source] = []
    problems: List[Problem] = []
    seen = set()
    for path in paths:
        unread: List[OSError] = []
        files = _files_in(Path(path), unread)
        problems += [Problem(error.strerror or str(error), file=str(error.filename or path)) for error in unread]
        if not files and not unread:
            problems.append(Problem("no Swift file is there", file=path))
        for file in files:
            if file not in seen:
                seen.add(file)
                _read(file, Path(path), sources, problems)
    return Files(tuple(sources), tuple(problems))


def _read(file: Path, under: Path, sources: List[Source], problems: List[Problem]) -> None:
    try:
        text = file.read_bytes().decode("utf-8")
    except OSError as error:
        problems.append(Problem(error.strerror or str(error), file=str(file)))
    except UnicodeDecodeError as error:
        problems.append(Problem("not UTF-8 at byte %d" % error.start, file=str(file)))
    else:
        sources.append(Source(str(file), text, _module(file, under, text)))


def _files_in(path: Path, unread: List[OSError]) -> List[Path]:
    """The file itself, or the Swift files in a folder. The errors of folders below it that cannot be read are added to the last."""
    try:
        if not path.is_dir():
            return [path]
    except OSError as error:
        unread.append(error)
        return []
    found = []
    for folder, folders, files in os.walk(path, onerror=unread.append):
        folders[:] = [name for name in folders if name not in _BESIDE]
        swift = [Path(folder, name) for name in files if name.endswith(_SUFFIXES) and not _MANIFEST.fullmatch(name)]
        found += [file for file in swift if not _is_special(file)]
    return sorted(found)


def _is_special(file: Path) -> bool:
    """Whether a file is a pipe, a socket or a device, which may never end."""
    try:
        mode = file.stat().st_mode
    except OSError:
        return False
    return not (stat.S_ISREG(mode) or stat.S_ISDIR(mode))


def _module(file: Path, under: Path, text: str) -> str:
    """The module of a file: as its header says, or the folder below `Sources`, or the folder that was named."""
    if file.suffix == ".swiftinterface":
        header = _MODULE_NAME.search(text, 0, 4000)
        if header:
            return header[1]
    folders = file.parts[:-1]
    for at in range(len(folders) - 2, -1, -1):
        if folders[at] == "Sources":
            return folders[at + 1]
    return under.name if under.is_dir() else (folders[-1] if folders else "")
