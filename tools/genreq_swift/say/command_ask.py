"""`genreq-swift ask`: one query in the context of a declaration."""
import argparse
import json
from dataclasses import dataclass, replace
from typing import Dict, List, Mapping, Sequence, Tuple

from ..ask.derivations import Lists, shown
from ..mean.signatures import needed_protocols
from ..mean.standing import Standing
from ..read.model import Declaration, Problem, Protocol, Reading, Requirement, Status
from .output import print_text
from ..ask.own_names import OwnNames, own_names
from ..ask.parts import SELF_OF_FUNCTION, conforming_part, function_part, protocol_part
from ..ask.program import Answer, Command, Part, Program, default_program
from ..ask.query import Asked, Query, asked_of, read_query
from ..ask.asking import Questions
from .reading_options import add_reading_options, reading_of
from .telling import left_out_lines, standing_object, status_of, tell

DESCRIPTION = """Answers one query in the context of a declaration: whether a requirement follows (yes, no, or invalid where a side is no
type), what a type reduces to, or the minimised signature. QUERY is NAME(T.Element : Equatable), NAME(T == U.Index), NAME(T.SubSequence) or
NAME(), where NAME is that of a declaration, as map or Sequence.map, or LINE or FILE:LINE for the innermost declaration around a line. Where
several have the name, all answer. Where something was left out of what a declaration rests on, an answer other than yes says so: `no, as far as
was read: ..`, with the first thing. The status is 1 where an answer is no or invalid, and 4 where something could
not be read or asked too."""


def add(subparsers: "argparse._SubParsersAction[argparse.ArgumentParser]") -> None:
    parser = subparsers.add_parser("ask", help="one query in the context of a declaration", description=DESCRIPTION)
    add_reading_options(parser)
    parser.add_argument("query", metavar="QUERY", help="what is asked")
    parser.add_argument("--strict", action="store_true", help="leaves out each answer that more could turn")
    parser.add_argument("--why", action="store_true", help="prints under each yes a derivation by the rules of docs/DERIVATION.md")
    parser.add_argument("--json", action="store_true", help="prints an object for each declaration, one a line")
    parser.set_defaults(run=run)


# What the compiler says of each type where nothing else is written, and no source.
_UNWRITTEN = ("Copyable", "Escapable")


@dataclass(frozen=True)
class DeclarationAnswer:
    """The answer of a query in one declaration, in own names, and what the declaration rests on."""

    declaration: Declaration
    query: Query
    answer: Answer
    standing: Standing

    @property
    def lack(self) -> str:
        """What lacks first, where more could turn the answer: what follows from a part follows from the whole."""
        if self.answer.line == "yes":
            return ""
        lack = self.standing.lack(self.declaration)
        if lack is not None:
            return str(lack)
        if self.declaration.own_status is Status.WITH_CONCRETE:
            return "of concrete types their declared conformances alone are known"
        if not self.query.asked:
            return "~Copyable is left out" if self.declaration.own_status is Status.WITHOUT_SUPPRESSED else ""
        entity = self.query.asked.rpartition(":")[2].strip()
        return "which types are %s is not written" % entity if entity in _UNWRITTEN else ""


def run(arguments: argparse.Namespace) -> int:
    query = read_query(arguments.query)
    reading = reading_of(arguments)
    answered, left_out = answers_to(query, reading, Command.EXPLAIN if arguments.why else Command.ANSWER, Program(default_program()))
    lines: List[str] = []
    for one in answered:
        if one.lack and arguments.strict:
            left_out.append(str(Problem("%s is left out: %s" % (one.declaration.name, one.lack), one.declaration.place)))
            continue
        lines += [as_object(one)] if arguments.json else as_lines(one)
    print_text("".join(line + "\n" for line in lines))
    tell([str(problem) for problem in reading.problems] + left_out)
    return status_of(reading, left_out, any(one.answer.line in ("no", "invalid") for one in answered))


def answers_to(query: Query, reading: Reading, command: Command, program: Program) -> Tuple[List[DeclarationAnswer], List[str]]:
    """The answers of a query in the declarations that it means, and what is told of those that could not be asked."""
    found_in, names = asked_of(query, reading, SELF_OF_FUNCTION), own_names(reading)
    parts = {"asked_%d" % number: asked_part("asked_%d" % number, one) for number, one in enumerate(found_in)}
    needed = needed_protocols(reading.all_protocols, set(reading.own_labels).union(*(part.needs for part in parts.values())), reading.signatures)
    questions = Questions(program, [protocol_part(protocol) for protocol in needed])
    asked = questions.ask(command, list(parts.values()))
    of_label = {label: one.declaration for label, one in zip(parts, found_in)}
    required = {protocol.label: protocol.requirements for protocol in needed}
    standing = Standing(needed)
    found = []
    for label, (answer,) in asked.answers.items():
        found.append(DeclarationAnswer(of_label[label], query, in_own_names(answer, of_label[label], names, required), standing))
    told = left_out_lines(reading, questions.protocols_left_out)
    told += [str(Problem("%s is left out: %s" % (of_label[one.label].name, one.reason), of_label[one.label].place)) for one in asked.left_out]
    return sorted(found, key=lambda one: one.declaration.place), told


def asked_part(label: str, asked: Asked) -> Part:
    """A function of which a query is asked: what a signature says, or what conforms to a protocol."""
    declaration, queries = asked.declaration, [asked.labelled.text]
    if isinstance(declaration, Protocol):
        part = conforming_part(label, declaration, queries)
    else:
        part = function_part(replace(declaration, label=label), None, queries)
    return replace(part, needs=part.needs | asked.labelled.protocols)


def in_own_names(answer: Answer, declaration: Declaration, names: OwnNames, required: Mapping[str, Sequence[Requirement]]) -> Answer:
    """An answer in own names, with the places of the requirements that a derivation uses."""
    lists = Lists(() if isinstance(declaration, Protocol) else declaration.requirements, required)
    return Answer(names.of(answer.line, declaration.parameters), tuple(shown(answer.under, lists, names, declaration.parameters)))


def as_lines(one: DeclarationAnswer) -> List[str]:
    lack = ", as far as was read: " + one.lack if one.lack else ""
    return ["%s: %s(%s): %s%s" % (one.declaration.place, one.declaration.name, one.query.asked, one.answer.line, lack), *one.answer.under]


def as_object(one: DeclarationAnswer) -> str:
    place = one.declaration.place
    found: Dict[str, object] = {
        "file": place.file,
        "line": place.line,
        "column": place.column,
        "declaration": one.declaration.name,
        "query": one.query.asked,
        "answer": one.answer.line,
        **standing_object(one.declaration, one.standing),
    }
    if one.lack:
        found["lacks"] = one.lack
    if one.answer.under:
        found["derivation"] = [line.strip() for line in one.answer.under]
    return json.dumps(found, ensure_ascii=False)
