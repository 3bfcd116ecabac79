"""Output that is whole or not there."""
import os
from pathlib import Path
import sys
import tempfile
from typing import TextIO


class OutputError(Exception):
    """Something could not be written."""


def print_text(text: str) -> None:
    """Writes a text to the standard output, as UTF-8. Raises OutputError."""
    try:
        sys.stdout.buffer.write(text.encode("utf-8", "replace"))
        sys.stdout.buffer.flush()
    except OSError as error:
        discard(sys.stdout)
        raise OutputError("the standard output: %s" % error.strerror) from error


def print_error(text: str) -> None:
    """Writes a text to the standard error, as UTF-8. Raises OutputError."""
    try:
        sys.stderr.buffer.write(text.encode("utf-8", "replace"))
        sys.stderr.buffer.flush()
    except OSError as error:
        discard(sys.stderr)
        raise OutputError("the standard error: %s" % error.strerror) from error


def discard(stream: TextIO) -> None:
    """Lets go what was written to a stream and has no room, so that it is not tried again at the end."""
    os.dup2(os.open(os.devnull, os.O_WRONLY), stream.fileno())


def print_line(line: str) -> None:
    """Writes a line to the standard output, at once."""
    print_text(line + "\n")


def write_file(path: str, text: str) -> None:
    """Writes a file at once: beside it first, then in its place. Raises OutputError."""
    target = Path(path)
    try:
        handle, beside = tempfile.mkstemp(dir=str(target.parent), prefix=target.name + ".")
        try:
            with os.fdopen(handle, "wb") as file:
                file.write(text.encode("utf-8", "replace"))
            os.chmod(beside, 0o644)
            os.replace(beside, path)
        except OSError:
            os.unlink(beside)
            raise
    except OSError as error:
        raise OutputError("%s: %s" % (path, error.strerror)) from error
