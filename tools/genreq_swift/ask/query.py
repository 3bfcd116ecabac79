"""Queries of declarations in own names: `map(T.Element : Equatable)`, `Sequence.map(T == Self)`, `120(T.Element)`, `List.swift:120()`."""
from dataclasses import dataclass, replace
import re
from typing import Callable, Dict, FrozenSet, List, Optional, Sequence, Tuple

from ..read.model import Declaration, DeclarationKind, GenericParameter, NotSeen, Protocol, Reading, Signature, label_of

_QUERY = re.compile(r"\s*(?P<context>[^()]+?)\s*\((?P<asked>[^()]*)\)\s*")
_LINE = re.compile(r"(?:(?P<file>.+):)?(?P<line>\d+)")
_NAME = r"(`?)(?P<name>[^\s.:=()\[\]<>,&`]+)\1"
_FIRST = re.compile(_NAME)
_STEP = re.compile(r"\s*\.\s*(?:\[\s*(?P<protocol>[^\[\]]+?)\s*\]\s*)?" + _NAME.replace(r"\1", r"\2"))

FORM = "a query is NAME(..) or LINE(..), and in its parentheses stand T : P, T == U, T, or nothing"


class QueryError(Exception):
    """A query has another form, or names what is not there."""


@dataclass(frozen=True)
class Query:
    """What is asked, and where: in the declarations of a name, or in the innermost ones around a line."""

    context: str
    asked: str


def read_query(text: str) -> Query:
    """The query that a text is. QueryError where it is none."""
    found = _QUERY.fullmatch(text)
    if not found:
        raise QueryError("%s: %s" % (FORM, text))
    return Query(found["context"], found["asked"].strip())


@dataclass(frozen=True)
class Labelled:
    """What is asked, in the labels of a text, and the labels of the protocols that it names."""

    text: str
    protocols: FrozenSet[str] = frozenset()


def declarations_of(query: Query, reading: Reading) -> List[Declaration]:
    """The declarations in which a query is asked, by place. QueryError where there is none."""
    declarations: List[Declaration] = sorted([*reading.signatures, *reading.own_protocols], key=lambda one: one.place)
    line = _LINE.fullmatch(query.context)
    if line:
        found = around(declarations, int(line["line"]), line["file"])
    else:
        found = [one for one in declarations if one.name == query.context] or [one for one in declarations if one.name.endswith("." + query.context)]
    if not found:
        where = "around line" if line else "named"
        raise QueryError("no declaration with generic parameters or a where clause of its own is %s %s" % (where, query.context))
    return found


def behind_aliases(found: Sequence[Declaration], reading: Reading) -> List[Declaration]:
    """The types to which aliases among some declarations refer."""
    names = {one.refers_to for one in found if isinstance(one, Signature) and one.refers_to}
    return [one for one in reading.signatures if one.name in names and one.kind is not DeclarationKind.EXTENSION and one not in found]


@dataclass(frozen=True)
class Asked:
    """A query in one declaration, in the labels of a text."""

    declaration: Declaration
    labelled: Labelled


def asked_of(query: Query, reading: Reading, me: Optional[str] = None) -> List[Asked]:
    """The query in each declaration that it means and in which its names mean something; where they do in none, in the types to which aliases of
    that name refer. `me` is the label of the `Self` of protocols. QueryError where there is none."""
    named = declarations_of(query, reading)
    first: Optional[QueryError] = None
    for declarations in (named, behind_aliases(named, reading)):
        found: List[Asked] = []
        for one in declarations:
            try:
                found.append(Asked(one, labelled(query.asked, one, reading, me)))
            except QueryError as error:
                first = first or error
        if found:
            return found
    assert first is not None
    raise first


def labelled(asked: str, declaration: Declaration, reading: Reading, me: Optional[str] = None) -> Labelled:
    """What is asked of a declaration, in labels. QueryError where it has another form, or a name is not there."""
    parameters = declaration.parameters
    if isinstance(declaration, Protocol) and me is not None:
        parameters = (replace(declaration.self_parameter, label=me),)
    return Labels(lambda name: reading.seen(name, declaration).label).of_query(asked, parameters)


def around(declarations: Sequence[Declaration], line: int, file: Optional[str]) -> List[Declaration]:
    """Of each file the innermost declaration around a line, which is the last that begins, of declarations by place."""
    innermost: Dict[str, Declaration] = {}
    for one in declarations:
        is_wanted = file is None or one.place.file == file or one.place.file.endswith("/" + file)
        if is_wanted and one.place.line <= line <= one.last_line:
            innermost[one.place.file] = one
    return list(innermost.values())


class Labels:
    """Queries in labels. `label_of_protocol` answers the label of the protocol that a name means, and raises NotSeen where it means none."""

    def __init__(self, label_of_protocol: Callable[[str], str]):
        self._label_of_protocol = label_of_protocol

    def of_query(self, asked: str, parameters: Sequence[GenericParameter]) -> Labelled:
        """What is asked of a declaration with these parameters. QueryError where it has another form, or a name is not there."""
        if not asked:
            return Labelled("")
        if "==" in asked:
            left, _, right = asked.partition("==")
            sides = [self._type(left.strip(), parameters), self._type(right.strip(), parameters)]
            return Labelled("%s == %s" % (sides[0].text, sides[1].text), sides[0].protocols | sides[1].protocols)
        side, colon, entity = asked.partition(":")
        subject = self._type(side.strip(), parameters)
        if not colon:
            return subject
        if entity.strip() == "AnyObject":
            return Labelled(subject.text + " : AnyObject", subject.protocols)
        protocol = self._protocol(entity.strip())
        return Labelled("%s : %s" % (subject.text, protocol), subject.protocols | {protocol})

    def _protocol(self, name: str) -> str:
        try:
            return self._label_of_protocol(name.replace("`", ""))
        except NotSeen as error:
            raise QueryError(str(error)) from error

    def _type(self, text: str, parameters: Sequence[GenericParameter]) -> Labelled:
        first = _FIRST.match(text)
        if not first:
            raise QueryError("%s: %s" % (FORM, text))
        words, protocols, at = list(_root(first["name"], parameters)), set(), first.end()
        while at < len(text):
            step = _STEP.match(text, at)
            if not step:
                raise QueryError("%s: %s" % (FORM, text))
            bound = ""
            if step["protocol"]:
                protocols.add(self._protocol(step["protocol"]))
                bound = "[%s]" % self._protocol(step["protocol"])
            words.append(bound + label_of(step["name"]))
            at = step.end()
        return Labelled(".".join(words), frozenset(protocols))


def _root(name: str, parameters: Sequence[GenericParameter]) -> Tuple[str, ...]:
    """The words with which a type begins: a parameter, of those of one name the innermost, or a member of `Self`."""
    named = [parameter.label for parameter in parameters if parameter.name == name]
    if named:
        return (named[-1],)
    me = [parameter.label for parameter in parameters if parameter.name == "Self"]
    if not me:
        raise QueryError("%s is no generic parameter: these are %s" % (name, ", ".join(parameter.name for parameter in parameters)))
    return (me[-1], label_of(name))
