"""One text for both: what genreq answers of it, and what the compiler prints of it as Swift.

Here the compiler sees no more than genreq does. So incomplete signatures are compared too, and sources that the compiler cannot compile."""
from dataclasses import dataclass
from typing import Dict, List, Sequence

from genreq_swift.read.conditions import Configuration
from genreq_swift.ask.parts import function_part, protocol_part
from genreq_swift.ask.program import Command, LEVELS, Limits, Part, Program, Status, default_program, written
from genreq_swift.ask.asking import Questions, requirement_signatures
from genreq_swift.mean.reader import read
from genreq_swift.say.reading_options import STANDARD as STANDARD_OUTLINE
from genreq_swift.ask.reduced_requirements import reduced_signatures
from genreq_swift.ask.swift_form import as_swift as in_compilers_form, compiler_form

from swift_compiler.as_swift import as_swift
from swift_compiler.comparing import PROTOCOL, WHOLE, Pair, pairs
from swift_compiler.compiler import spent
from swift_compiler.compiling import Workshop
from swift_compiler.modules import STANDARD, Module
from swift_compiler.ours import Own

COLUMN_OF_FUNCTION = len("func ") + 1
COLUMN_OF_PROTOCOL = len("protocol ") + 1


@dataclass(frozen=True)
class Times:
    """The bytes of a text, and the seconds of the processor that genreq takes for its signatures and for the requirement signatures of its
    protocols, and the compiler for both."""

    size: int
    signatures: float
    requirements: float
    compiler: float


@dataclass(frozen=True)
class SameText:
    """A text of which both answered."""

    times: Times
    signatures: List[Pair]
    requirements: List[Pair]


def seconds_of(program: Program, command: Command, parts: Sequence[Part]) -> float:
    """How long a command takes of a text, under the least limits under which it is answered."""
    for limits in LEVELS:
        before = spent()
        if program.run(command, written(parts), Limits(limits.rules, limits.length)).status is Status.ANSWERED:
            return spent() - before
    return float("nan")


@dataclass(frozen=True)
class Ours:
    """The functions of a module that are answered and the protocols over which they are, with their signatures by labels in the form of the
    compiler. Protocols of which no requirement signature is answered have none."""

    functions: List[Part]
    signatures: Dict[str, str]
    protocols: Sequence[Part]
    requirements: Dict[str, str]


def answered(program: Program, module: Module, beside: Sequence[str], language: str) -> Ours:
    """What genreq answers of the text of a module."""
    version = Configuration(language=tuple(int(part) for part in language.split(".")))
    paths = [str(STANDARD_OUTLINE) if name == STANDARD else name for name in beside]
    reading = read([str(file) for file in module.files], paths, version, module=module.name)
    questions = Questions(program, [protocol_part(protocol) for protocol in reading.protocols])
    functions = [function_part(signature) for signature in reading.signatures]
    found = questions.ask(Command.SIGNATURES, functions).answers
    signatures = {label: in_compilers_form(answers[0].line) for label, answers in found.items()}
    kept = [function for function in functions if function.label in found]
    required = requirement_signatures(program, questions.protocols).signatures
    reduced = reduced_signatures(program, reading.protocols, required)
    return Ours(kept, signatures, questions.protocols, {label: str(compiler_form(one)) for label, one in reduced.items()})


def same_text(workshop: Workshop, module: Module, beside: Sequence[str], language: str) -> SameText:
    """Makes the text of a module, and lays what both print of it side by side."""
    program = Program(default_program())
    ours = answered(program, module, beside, language)
    settled = [part for part in ours.protocols if part.label in ours.requirements]
    text = as_swift([part.text for part in ours.protocols], [part.text for part in ours.functions])
    run, printed = workshop.check_text(text.content)
    file, lines = str(workshop.text), {label: line for line, label in text.label_at.items()}
    functions = [
        Own(file, lines[part.label], COLUMN_OF_FUNCTION, "func", part.text, WHOLE, ours.signatures[part.label]) for part in ours.functions
    ]
    protocols = [
        Own(file, lines[part.label], COLUMN_OF_PROTOCOL, PROTOCOL, part.label, WHOLE, ours.requirements[part.label])
        for part in settled
        if part.label in lines
    ]
    times = Times(
        len(written([*ours.protocols, *ours.functions])),
        seconds_of(program, Command.SIGNATURES, [*ours.protocols, *ours.functions]),
        seconds_of(program, Command.REQUIREMENTS, settled),
        run.seconds,
    )
    return SameText(times, pairs(functions, printed), pairs(protocols, printed))
