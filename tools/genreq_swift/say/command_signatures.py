"""`genreq-swift signatures`: the minimised signatures of declarations."""
import argparse
from dataclasses import replace
import json
import re
from typing import Dict, List, Sequence

from ..mean.standing import Standing
from ..read.model import GenericParameter, Signature
from .output import print_line
from .progress import Progress
from ..ask.own_names import OwnNames, own_names
from ..ask.parts import function_part, protocol_part
from ..ask.printed import read_signature
from ..ask.program import Command
from ..ask.protocol_order import ProtocolOrder
from ..ask.asking import Given, Questions
from ..ask.clock import TimeUp
from ..ask.closure import LeftOut
from .reading_options import add_asking_options, add_reading_options, kept, program_of, reading_of
from ..ask.swift_form import compiler_form
from .telling import left_out_lines, standing_object, status_of, tell, time_up_lines, told

_PARAMETER = re.compile(r"τ_0_(\d+)")


def add(subparsers: "argparse._SubParsersAction[argparse.ArgumentParser]") -> None:
    """Adds the subcommand."""
    parser = subparsers.add_parser(
        "signatures",
        help="the minimised signature of each declaration",
        description="Prints FILE:LINE:COLUMN: NAME: SIGNATURE of each declaration that has generic parameters or a where clause of its own.",
    )
    add_reading_options(parser)
    add_asking_options(parser)
    parser.add_argument("--strict", action="store_true", help="leaves out each signature that is not whole")
    parser.add_argument("--as", dest="form", choices=("genreq", "swift"), default="genreq", help="whose form is printed (genreq)")
    parser.add_argument("--json", action="store_true", help="prints an object for each declaration, one a line")
    parser.set_defaults(run=run)


def run(arguments: argparse.Namespace) -> int:
    """Runs it, and answers its status."""
    program, reading = program_of(arguments), reading_of(arguments)
    standing, names, key = Standing(reading.protocols), own_names(reading), ProtocolOrder(reading)
    signatures = kept(reading.signatures, arguments.strict, standing)
    questions = Questions(program, [protocol_part(protocol) for protocol in reading.protocols])
    asked = questions.each(Command.SIGNATURES, [function_part(signature) for signature in signatures])
    left_out: List[LeftOut] = []
    late: List[str] = []
    made = _object if arguments.json else _line
    with Progress(len(signatures)) as progress:
        try:
            for signature, one in zip(signatures, progress.over(asked)):
                if isinstance(one, Given):
                    printed = one.answers[0].line
                    if arguments.form == "swift":
                        printed = str(compiler_form(read_signature(printed), key))
                    print_line(made(signature, printed, names, standing))
                else:
                    left_out.append(one)
        except TimeUp:
            late = time_up_lines(arguments.seconds, "signatures", len(signatures), signatures[progress.count :])
    left_out[:0] = questions.protocols_left_out
    tell(told(reading) + left_out_lines(reading, left_out) + late)
    return status_of(reading, [*left_out, *late])


def _line(signature: Signature, printed: str, names: OwnNames, standing: Standing) -> str:
    status = "" if standing.is_whole(signature) else "  // " + standing.line(signature)
    return "%s: %s: %s%s" % (signature.place, signature.name, names.of(printed, _distinct(signature.parameters)), status)


def _distinct(parameters: Sequence[GenericParameter]) -> List[GenericParameter]:
    """The generic parameters, with its label as the name of one that hides another."""
    found: List[GenericParameter] = []
    for parameter in parameters:
        hides = any(parameter.name == before.name for before in found)
        found.append(replace(parameter, name=parameter.label) if hides else parameter)
    return found


def _object(signature: Signature, printed: str, names: OwnNames, standing: Standing) -> str:
    found: Dict[str, object] = {
        "file": signature.place.file,
        "line": signature.place.line,
        "column": signature.place.column,
        "kind": signature.kind.value,
        "name": signature.name,
        **standing_object(signature, standing),
        "signature": names.of(printed, _distinct(signature.parameters)),
        "canonical": canonical(printed, signature.parameters),
    }
    return json.dumps(found, ensure_ascii=False)


def canonical(printed: str, parameters: Sequence[GenericParameter]) -> str:
    """A printed signature with the depths and indices that the compiler gives the generic parameters."""

    def named(found: "re.Match[str]") -> str:
        parameter = parameters[int(found[1])]
        return "τ_%d_%d" % (parameter.depth, parameter.index)

    return _PARAMETER.sub(named, printed)
