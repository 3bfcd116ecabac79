"""`genreq-swift text`: the text for genreq."""
import argparse

from ..mean.standing import Standing
from .output import print_text, write_file
from .reading_options import add_reading_options, kept, reading_of
from .telling import status_of, tell, told
from ..ask.whole_text import map_of, text_of, too_long


def add(subparsers: "argparse._SubParsersAction[argparse.ArgumentParser]") -> None:
    """Adds the subcommand."""
    parser = subparsers.add_parser(
        "text",
        help="the text for genreq",
        description="Prints the protocols and signatures of Swift sources as a text for genreq, which answers what they imply.",
    )
    add_reading_options(parser)
    parser.add_argument("--strict", action="store_true", help="leaves out each signature that is not whole")
    parser.add_argument("--map", metavar="MAP", help="writes a file in JSON with the place of each declaration of the text in its source")
    parser.set_defaults(run=run)


def run(arguments: argparse.Namespace) -> int:
    """Runs it, and answers its status."""
    reading = reading_of(arguments)
    standing = Standing(reading.protocols)
    text = text_of(reading.protocols, kept(reading.signatures, arguments.strict, standing))
    if arguments.map:
        write_file(arguments.map, map_of(text, standing))
    print_text(text.content)
    tell(told(reading) + too_long(text))
    return status_of(reading)
