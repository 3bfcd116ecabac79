"""The command line of `genreq-swift`."""
import argparse
import importlib
import sys
from typing import List, Optional

from .output import OutputError, print_error
from .telling import SOMETHING_LEFT_OUT
from ..ask.clock import TimeUp
from ..ask.printed import Unreadable
from ..ask.program import ProgramFailed
from ..ask.query import QueryError

WRONG_WORDS = 2
NOT_WRITTEN = 5
FAILED = 70
_SUBCOMMANDS = ("text", "signatures", "requirements", "redundant", "ask", "outline")

DESCRIPTION = """Reads Swift sources, and answers by genreq what their protocols and generic declarations imply."""

EPILOG = """Of what is written genreq's language lacks concrete types, superclasses, parameter packs and ~Copyable. That is left out and told: each
signature is `whole`, `without ~Copyable`, `incomplete` with the first cause and its place, or `over incomplete protocols`, where a protocol that
it reaches is incomplete, with the nearest and what it says. Less may follow of these two than in Swift.

Statuses: 0 done; 1 something redundant was found, or a query is not answered with yes; 2 wrong words; 3 something could not be read or answered: it
is told on the standard error, and the rest is printed; 4 both 1 and 3; 5 something could not be written; 70 genreq could not be run.
The variable GENREQ names another program to run in place of ./genreq."""


def parser_of_words() -> argparse.ArgumentParser:
    """The parser of the words, with all subcommands."""
    parser = argparse.ArgumentParser(
        prog="genreq-swift", description=DESCRIPTION, epilog=EPILOG, formatter_class=argparse.RawDescriptionHelpFormatter
    )
    subparsers = parser.add_subparsers(dest="subcommand", metavar="COMMAND", required=True)
    for name in _SUBCOMMANDS:
        importlib.import_module("%s.command_%s" % (__package__, name)).add(subparsers)
    return parser


def main(words: Optional[List[str]] = None) -> int:
    """Runs the command line, and answers its status."""
    arguments = parser_of_words().parse_args(words)
    try:
        status: int = arguments.run(arguments)
        return status
    except QueryError as error:
        print("genreq-swift: %s" % error, file=sys.stderr)
        return WRONG_WORDS
    except (ProgramFailed, Unreadable) as error:
        print("genreq-swift: %s" % error, file=sys.stderr)
        return FAILED
    except OutputError as error:
        try:
            print_error("genreq-swift: %s\n" % error)
        except OutputError:
            pass
        return NOT_WRITTEN
    except TimeUp:
        print("genreq-swift: %g seconds are over" % arguments.seconds, file=sys.stderr)
        return SOMETHING_LEFT_OUT
    except KeyboardInterrupt:
        return 130
