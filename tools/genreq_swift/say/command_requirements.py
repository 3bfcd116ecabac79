"""`genreq-swift requirements`: what each protocol has to require itself."""
import argparse
import json
from typing import Dict, Iterator, List, Set

from ..mean.standing import Standing
from ..read.model import Protocol, Reading
from .output import print_line
from .progress import Progress
from ..ask.own_names import own_names
from ..ask.parts import protocol_part
from ..ask.program import LEVELS, Answer, Program
from ..ask.protocol_order import ProtocolOrder
from ..ask.asking import each_requirement_signature
from ..ask.clock import TimeUp
from .reading_options import add_asking_options, add_reading_options, program_of, reading_of
from ..ask.reduced_requirements import reduced_signatures
from ..ask.settled import Settled
from ..ask.swift_form import compiler_form
from .telling import left_out_lines, standing_object, status_of, tell, time_up_lines, told


def add(subparsers: "argparse._SubParsersAction[argparse.ArgumentParser]") -> None:
    """Adds the subcommand."""
    parser = subparsers.add_parser(
        "requirements",
        help="the requirement signature of each protocol",
        description="Prints FILE:LINE:COLUMN: NAME: SIGNATURE of each protocol, with what it has to require itself.",
    )
    add_reading_options(parser)
    add_asking_options(parser)
    parser.add_argument("--strict", action="store_true", help="leaves out each protocol that is not whole")
    parser.add_argument("--as", dest="form", choices=("genreq", "swift"), default="genreq", help="whose form is printed (genreq)")
    parser.add_argument("--json", action="store_true", help="prints an object for each protocol, one a line")
    parser.set_defaults(run=run)


def run(arguments: argparse.Namespace) -> int:
    """Runs it, and answers its status."""
    program, reading = program_of(arguments), reading_of(arguments)
    settled = Settled(program, [protocol_part(protocol) for protocol in reading.protocols], LEVELS)
    lines = _Lines(arguments, program, reading)
    late: List[str] = []
    with Progress(len(reading.own_protocols)) as progress:
        try:
            for found in each_requirement_signature(settled, set(reading.own_labels)):
                lines.found.update(lines.as_printed(found))
                for line in lines.next({one.label for one in settled.left_out}):
                    progress.hide()
                    print_line(line)
                progress.count = lines.count
        except TimeUp:
            late = time_up_lines(arguments.seconds, "protocols", len(reading.own_protocols), reading.own_protocols[lines.count :])
    for line in lines.next(set(reading.own_labels)):
        print_line(line)
    tell(told(reading) + left_out_lines(reading, settled.left_out) + late)
    return status_of(reading, [*settled.left_out, *late])


class _Lines:
    """The lines of the protocols, by place."""

    def __init__(self, arguments: argparse.Namespace, program: Program, reading: Reading):
        self.arguments = arguments
        self.program = program
        self.reading = reading
        self.standing, self.names, self.key = Standing(reading.protocols), own_names(reading), ProtocolOrder(reading)
        self.found: Dict[str, str] = {}
        self.count = 0

    def as_printed(self, found: Dict[str, Answer]) -> Dict[str, str]:
        """Requirement signatures in the form that is wanted."""
        if self.arguments.form == "genreq":
            return {label: answer.line for label, answer in found.items()}
        reduced = reduced_signatures(self.program, self.reading.protocols, found)
        return {label: str(compiler_form(one, self.key)) for label, one in reduced.items()}

    def next(self, gone: Set[str]) -> Iterator[str]:
        """The lines of the protocols that come next, up to one that is neither found nor gone."""
        own, made = self.reading.own_protocols, _object if self.arguments.json else _line
        while self.count < len(own) and (own[self.count].label in self.found or own[self.count].label in gone):
            protocol = own[self.count]
            self.count += 1
            if protocol.label in self.found and (self.standing.is_whole(protocol) or not self.arguments.strict):
                yield made(protocol, self.names.of(self.found[protocol.label], protocol.parameters), self.standing)


def _line(protocol: Protocol, printed: str, standing: Standing) -> str:
    status = "" if standing.is_whole(protocol) else "  // " + standing.line(protocol)
    return "%s: %s: %s%s" % (protocol.place, protocol.name, printed, status)


def _object(protocol: Protocol, printed: str, standing: Standing) -> str:
    found: Dict[str, object] = {
        "file": protocol.place.file,
        "line": protocol.place.line,
        "column": protocol.place.column,
        "kind": "protocol",
        "name": protocol.name,
        **standing_object(protocol, standing),
        "signature": printed,
        "canonical": printed,
    }
    return json.dumps(found, ensure_ascii=False)
