"""Installs what is built into a folder: the program, the library for C with its header and its genreq.pc, the manual page, the tools and their pages.

usage: ./install [--unproved] PREFIX

    PREFIX/bin            genreq, genreq-at, genreq-swift, derivation-picture
    PREFIX/lib            libgenreq.a, libgenreq.so, pkgconfig/genreq.pc
    PREFIX/include        genreq.h
    PREFIX/share/man      man1/genreq.1
    PREFIX/share/genreq   what the tools are made of
    PREFIX/share/doc      the pages for users and the examples, in genreq

It installs what ./prove and ./library have proved and built, and where that is not there, or a source is newer, it says so and installs nothing. With
--unproved it installs a program that is built without a proof, and such a library where `./library --unproved` has built it, and says so; the manual
page says it too.

All files are written beside their places first, and renamed once all are written: none is ever there in half, and where one cannot be written all
places have what they had."""
import os
import pathlib
import sys
import tempfile
from dataclasses import dataclass
from typing import Iterator, List, Optional, Tuple

from building import unproved, unproved_library
from building.crates import Crates
from building.toolchain import Missing
from manual_page.page import manual, release_of

TOP = pathlib.Path(__file__).resolve().parent.parent.parent
UNPROVED = "--unproved"
LIBRARIES = (unproved_library.ARCHIVE, unproved_library.SHARED)
TOOLS = ("genreq-at", "genreq-swift", "derivation-picture")
PAGES = ("CALLING", "COMMAND_LINE", "DERIVATION", "LANGUAGE", "QUESTIONS", "REWRITING", "SWIFT")
# It says where it stands itself, so the folder may be moved as a whole.
PKG_CONFIG = """prefix=${pcfiledir}/../..
libdir=${prefix}/lib
includedir=${prefix}/include

Name: genreq
Description: what the protocols and generic signatures of a text imply
Version: %s
Cflags: -I${includedir}
Libs: -L${libdir} -lgenreq
"""


class NotBuilt(Exception):
    """What is to be installed is not built."""


class CannotWrite(Exception):
    """A file could not be written, and so none was."""


@dataclass(frozen=True)
class Built:
    """Files that are built of a crate, none where they are not there, and whether they are proved."""

    paths: Tuple[pathlib.Path, ...]
    is_proved: bool


@dataclass(frozen=True)
class Entry:
    """A file or a link to install: its place below the prefix, and the bytes of the file or where the link leads."""

    place: str
    content: bytes = b""
    leads_to: str = ""
    is_program: bool = False


def program_to_install(crates: Crates, may_be_unproved: bool) -> Built:
    """The program. NotBuilt where it is not proved and has to be; an unproved one is built here."""
    proved = crates.by_name["genreq"].out / "genreq"
    if crates.is_made(proved, "genreq"):
        return Built((proved,), True)
    if not may_be_unproved:
        raise NotBuilt("the proved program is not built: run ./prove and ./library first, or ./install %s PREFIX" % UNPROVED)
    return Built((unproved.ensure(crates, "genreq", False),), False)


def library_to_install(crates: Crates, may_be_unproved: bool) -> Built:
    """The two forms of the library. NotBuilt where they are not proved and have to be; an unproved one is taken where it is there."""
    out = crates.by_name["swreq_c"].out
    proved = tuple(out / name for name in LIBRARIES)
    if all(crates.is_made(path, "swreq_c") for path in proved):
        return Built(proved, True)
    if not may_be_unproved:
        raise NotBuilt("the proved library for C is not built: run ./library first, or ./install %s PREFIX" % UNPROVED)
    is_there = crates.is_made(unproved_library.archive_of(crates), "swreq_c", "src")
    return Built(tuple(out / "unproved" / name for name in LIBRARIES) if is_there else (), False)


def file_entry(place: str, path: pathlib.Path, is_program: bool = False) -> Entry:
    return Entry(place, path.read_bytes(), is_program=is_program)


def library_entries(top: pathlib.Path, library: Built) -> Iterator[Entry]:
    """The library, its header, and what pkg-config tells of it."""
    if library.paths:
        for path in library.paths:
            yield file_entry("lib/" + path.name, path)
        yield file_entry("include/genreq.h", top / "include/genreq.h")
        yield Entry("lib/pkgconfig/genreq.pc", (PKG_CONFIG % release_of(top)[0]).encode())


def tool_entries(top: pathlib.Path) -> Iterator[Entry]:
    """The tools. They find the program beside the folder in which they stand, where a link leads to it."""
    yield Entry("share/genreq/genreq", leads_to="../../bin/genreq")
    for path in sorted((top / "tools/genreq_swift").rglob("*")):
        below = path.relative_to(top / "tools/genreq_swift")
        if path.is_file() and not {"tests", "__pycache__"}.intersection(below.parts):
            yield file_entry("share/genreq/tools/genreq_swift/%s" % below, path)
    for name in TOOLS:
        yield file_entry("share/genreq/tools/" + name, top / "tools" / name, True)
        yield Entry("bin/" + name, leads_to="../share/genreq/tools/" + name)


def page_entries(top: pathlib.Path, is_proved: bool) -> Iterator[Entry]:
    """The manual page, the pages for users, and the examples, which stand to each other as they do here."""
    yield Entry("share/man/man1/genreq.1", manual(top, is_proved).encode("utf-8"))
    pages = [top / "docs" / (name + ".md") for name in PAGES]
    pictures = sorted((top / "docs").glob("*.svg"))
    examples = sorted(path for path in (top / "examples").rglob("*") if path.is_file() and "__pycache__" not in path.parts)
    for path in [top / "README.md", top / "CHANGES.md", top / "VERSION", *pages, *pictures, *examples]:
        yield file_entry("share/doc/genreq/%s" % path.relative_to(top), path)


def entries_of(top: pathlib.Path, program: Built, library: Built) -> List[Entry]:
    """All that is installed, the program last."""
    is_proved = program.is_proved and library.is_proved
    entries = [*library_entries(top, library), *page_entries(top, is_proved), *tool_entries(top)]
    return [*entries, *(file_entry("bin/genreq", path, True) for path in program.paths)]


def written_beside(entry: Entry, place: pathlib.Path) -> pathlib.Path:
    """Writes the entry beside its place, and returns where."""
    place.parent.mkdir(parents=True, exist_ok=True)
    if entry.leads_to:
        beside = place.parent / (".genreq-%d-%s" % (os.getpid(), place.name))
        beside.symlink_to(entry.leads_to)
        return beside
    handle, name = tempfile.mkstemp(prefix=".genreq-", dir=place.parent)
    beside = pathlib.Path(name)
    try:
        with os.fdopen(handle, "wb") as out:
            out.write(entry.content)
        beside.chmod(0o755 if entry.is_program else 0o644)
    except OSError:
        beside.unlink()
        raise
    return beside


def put(entries: List[Entry], prefix: pathlib.Path) -> None:
    """Puts all entries at their places below the prefix. CannotWrite where one cannot be written: then each place has what it had."""
    beside: List[Tuple[pathlib.Path, pathlib.Path]] = []
    try:
        for entry in entries:
            place = prefix / entry.place
            if place.is_dir() and not place.is_symlink():
                raise CannotWrite("%s is a folder" % place)
            beside.append((written_beside(entry, place), place))
        while beside:
            os.replace(*beside[0])
            del beside[0]
    except OSError as failure:
        raise CannotWrite("%s: %s" % (failure.filename or prefix, failure.strerror)) from failure
    finally:
        for path, _ in beside:
            path.unlink()


def said_of(crates: Crates, prefix: pathlib.Path, program: Built, library: Built) -> List[str]:
    """What is told of an installation that is done."""
    lines = ["installed genreq %s in %s" % (release_of(crates.top)[0], prefix)]
    if not program.is_proved:
        lines.append("the program is NOT proved: ./prove proves and builds it")
    if not library.paths:
        lines.append("without the library for C: ./library proves and builds it, and ./library %s builds it without a proof" % UNPROVED)
    elif not library.is_proved:
        lines.append("the library for C is NOT proved: ./library proves and builds it")
    return lines


def install(crates: Crates, prefix: pathlib.Path, may_be_unproved: bool) -> List[str]:
    """Installs what is built, and returns what is told of it."""
    program = program_to_install(crates, may_be_unproved)
    library = library_to_install(crates, may_be_unproved)
    put(entries_of(crates.top, program, library), prefix)
    return said_of(crates, prefix, program, library)


def prefix_in(words: List[str]) -> Optional[pathlib.Path]:
    """The prefix that the words name, or None where they are wrong."""
    names = [word for word in words if word != UNPROVED]
    return pathlib.Path(names[0]).resolve() if len(names) == 1 and names[0] and not names[0].startswith("-") else None


def main(words: List[str]) -> int:
    if words == ["--help"]:
        print(__doc__)
        return 0
    prefix = prefix_in(words)
    if not prefix:
        print("install: %s" % __doc__.split("\n\n")[1], file=sys.stderr)
        return 2
    try:
        lines = install(Crates(TOP), prefix, UNPROVED in words)
    except (NotBuilt, CannotWrite, unproved.Failed, Missing, OSError) as failure:
        print("install: %s" % failure, file=sys.stderr)
        return 1
    except KeyboardInterrupt:
        return 130
    print("\n".join(lines))
    return 0
