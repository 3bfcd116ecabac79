"""`genreq-swift outline`: sources without what a reader of names need not see."""
import argparse
from typing import List

from ..read.model import Problem
from .outline import outline
from .output import print_text
from ..mean.reader import read_syntax
from .reading_options import add_reading_options, configuration_of
from .telling import SOMETHING_LEFT_OUT, tell


def add(subparsers: "argparse._SubParsersAction[argparse.ArgumentParser]") -> None:
    """Adds the subcommand."""
    parser = subparsers.add_parser(
        "outline",
        help="sources without functions and bodies, to be read with --with",
        description="Prints the protocols, types, aliases and conformances of Swift sources as Swift, to be read beside others with --with.",
    )
    add_reading_options(parser)
    parser.set_defaults(run=run)


def run(arguments: argparse.Namespace) -> int:
    """Runs it, and answers its status."""
    problems: List[Problem] = []
    files = read_syntax(arguments.files, configuration_of(arguments), problems)
    lines = [line for _, declarations in files for line in outline(declarations)]
    print_text("".join(line + "\n" for line in lines))
    tell(map(str, problems))
    return SOMETHING_LEFT_OUT if problems else 0
