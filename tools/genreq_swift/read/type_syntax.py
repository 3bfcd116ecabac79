"""Types as they are written."""
from dataclasses import dataclass
from enum import Enum
from typing import List, Optional, Tuple, Union

from .cursor import Cursor
from .tokens import TokenKind


@dataclass(frozen=True)
class Step:
    """A name in a type, with its generic arguments."""

    name: str
    arguments: "Tuple[Type, ...]"
    start: int


@dataclass(frozen=True)
class NamedType:
    """Names with dots between them, as `Swift.Set<T>.Index`."""

    steps: Tuple[Step, ...]
    start: int


class Shape(Enum):
    """What stands around the parts of a compound type: around each, or around the parts with commas or `&` between them."""

    TUPLE = "(%s)"  # also a type in parentheses
    ARRAY = "[%s]"
    DICTIONARY = "[%s: %s]"
    OPTIONAL = "%s?"
    METATYPE = "%s.Type"
    COMPOSITION = "%s"
    SUPPRESSED = "~%s"
    OPAQUE = "some %s"
    EXISTENTIAL = "any %s"
    PACK = "each %s"  # also `repeat`
    NUMBER = "number"  # no part


@dataclass(frozen=True)
class CompoundType:
    """A type that is made of parts."""

    shape: Shape
    parts: "Tuple[Type, ...]"
    start: int


@dataclass(frozen=True)
class MemberType:
    """A member of a type that is no chain of names, as `[T].Index`."""

    base: "Type"
    step: Step
    start: int


@dataclass(frozen=True)
class FunctionType:
    """The type of a function. Its parameters are one tuple."""

    parameters: CompoundType
    thrown: "Optional[Type]"
    result: "Type"
    start: int


Type = Union[NamedType, CompoundType, MemberType, FunctionType]


def spelled(written: Type) -> str:
    """A type as Swift writes it, without attributes and labels."""
    if isinstance(written, NamedType):
        return ".".join(_spelled_step(step) for step in written.steps)
    if isinstance(written, MemberType):
        return "%s.%s" % (spelled(written.base), _spelled_step(written.step))
    if isinstance(written, FunctionType):
        throws = " throws(%s)" % spelled(written.thrown) if written.thrown is not None else ""
        return "%s%s -> %s" % (spelled(written.parameters), throws, spelled(written.result))
    parts = tuple(spelled(part) for part in written.parts)
    between = {Shape.TUPLE: ", ", Shape.COMPOSITION: " & "}.get(written.shape)
    return written.shape.value % (parts if between is None else between.join(parts))


def _spelled_step(step: Step) -> str:
    return step.name + ("<%s>" % ", ".join(spelled(argument) for argument in step.arguments) if step.arguments else "")


_SPECIFIERS = frozenset(
    "inout __owned __shared borrowing consuming sending isolated _const nonisolated _resultDependsOn _borrow _consume _mutate dependsOn".split()
)
_EFFECTS = frozenset(("async", "throws", "rethrows", "reasync"))
_NAMES = (TokenKind.NAME, TokenKind.QUOTED)
_METATYPES = frozenset(("Type", "Protocol"))
# Words that are no names, but in backticks.
KEYWORDS = frozenset(
    """func init subscript deinit var let typealias associatedtype case struct class enum protocol extension import operator where static inout
    public private internal fileprivate return if else for in while repeat do switch default break continue fallthrough guard defer throw
    throws rethrows try catch is as true false nil super""".split()
)


class TypeReader:
    """Reads types at a cursor."""

    def __init__(self, cursor: Cursor):
        self.cursor = cursor

    def attribute(self) -> None:
        """Goes past an attribute."""
        cursor = self.cursor
        cursor.want("@")
        if not cursor.at_name:
            raise cursor.wanted("the name of an attribute")
        cursor.advance()
        while cursor.at(".") and cursor.next().kind in _NAMES:
            cursor.advance()
            cursor.advance()
        if cursor.at("<") and not cursor.token.after_space:
            self.arguments()
        if cursor.at("(") and not cursor.token.after_space:
            cursor.skip_brackets()

    def arguments(self) -> Tuple[Type, ...]:
        """The generic arguments between `<` and `>`."""
        self.cursor.want("<")
        found: List[Type] = []
        while not self.cursor.take(">"):
            found.append(self.type())
            if not self.cursor.take(",") and not self.cursor.at(">"):
                raise self.cursor.wanted("',' or '>'")
        return tuple(found)

    def type(self) -> Type:
        """Reads a type."""
        cursor = self.cursor
        self._specifiers()
        start = cursor.token.start
        shape = self._prefix()
        if shape is not None:
            cursor.advance()
            return CompoundType(shape, (self.type(),), start)
        found = self._composition()
        if isinstance(found, CompoundType) and found.shape is Shape.TUPLE and (cursor.at("->") or cursor.token.text in _EFFECTS):
            return self._function(found)
        return found

    def _specifiers(self) -> None:
        cursor = self.cursor
        while True:
            if cursor.at("@"):
                self.attribute()
            elif cursor.token.text in _SPECIFIERS and (cursor.next().kind in _NAMES or cursor.next().text in ("(", "[", "@")):
                word = cursor.advance().text
                if word in ("isolated", "nonisolated", "_resultDependsOn", "dependsOn") and cursor.at("(") and not cursor.token.after_space:
                    cursor.skip_brackets()
            else:
                return

    def _prefix(self) -> Optional[Shape]:
        """The word that stands in front of a type here."""
        text = self.cursor.token.text
        if text in ("some", "any", "each", "repeat"):
            after = self.cursor.next()
            if (after.kind in _NAMES and not after.after_line) or after.text in ("(", "[", "~", "@"):
                return {"some": Shape.OPAQUE, "any": Shape.EXISTENTIAL}.get(text, Shape.PACK)
        return None

    def _function(self, parameters: CompoundType) -> Type:
        cursor, thrown = self.cursor, None
        while cursor.token.text in _EFFECTS:
            if cursor.advance().text == "throws" and cursor.take("("):
                thrown = self.type()
                cursor.want(")")
        cursor.want("->")
        return FunctionType(parameters, thrown, self.type(), parameters.start)

    def _composition(self) -> Type:
        first = self._postfix()
        if not self.cursor.at("&"):
            return first
        parts = [first]
        while self.cursor.take("&"):
            parts.append(self._postfix())
        return CompoundType(Shape.COMPOSITION, tuple(parts), first.start)

    def _postfix(self) -> Type:
        cursor = self.cursor
        while cursor.at("@"):
            self.attribute()
        found = self._simple()
        while True:
            token = cursor.token
            if token.text == "." and cursor.next().kind in _NAMES:
                cursor.advance()
                if cursor.token.text in _METATYPES and cursor.token.kind is TokenKind.NAME:
                    cursor.advance()
                    found = CompoundType(Shape.METATYPE, (found,), found.start)
                else:
                    found = MemberType(found, self._step(), found.start)
            elif token.text in ("?", "!") and not token.after_space:
                cursor.advance()
                found = CompoundType(Shape.OPTIONAL, (found,), found.start)
            else:
                return found

    def _simple(self) -> Type:
        cursor = self.cursor
        token = cursor.token
        if token.kind is TokenKind.QUOTED or (token.kind is TokenKind.NAME and token.text not in KEYWORDS):
            return self._named()
        if token.text == "(":
            return self._tuple()
        if token.text == "[":
            return self._bracketed()
        if token.text in ("~", "-"):
            cursor.advance()
            return CompoundType(Shape.SUPPRESSED, (self._postfix(),), token.start)
        if token.kind is TokenKind.NUMBER:
            cursor.advance()
            return CompoundType(Shape.NUMBER, (), token.start)
        raise cursor.wanted("a type")

    def _named(self) -> Type:
        cursor = self.cursor
        start = cursor.token.start
        steps = [self._step()]
        while cursor.at(".") and cursor.next().kind in _NAMES:
            if cursor.next().text in _METATYPES and cursor.next().kind is TokenKind.NAME:
                break
            cursor.advance()
            steps.append(self._step())
        return NamedType(tuple(steps), start)

    def _step(self) -> Step:
        name = self.cursor.advance()
        return Step(name.text, self.arguments() if self.cursor.at("<") else (), name.start)

    def _tuple(self) -> CompoundType:
        cursor = self.cursor
        start = cursor.advance().start
        found: List[Type] = []
        while not cursor.take(")"):
            self._labels()
            found.append(self.type())
            cursor.take("...")
            if cursor.at("="):
                self._skip_default()
            if not cursor.take(",") and not cursor.at(")"):
                raise cursor.wanted("',' or ')'")
        return CompoundType(Shape.TUPLE, tuple(found), start)

    def _labels(self) -> None:
        """Goes past the names in front of an element of a tuple."""
        cursor = self.cursor
        if cursor.at_name and cursor.next().text == ":":
            cursor.advance()
            cursor.advance()
        elif cursor.at_name and cursor.next().kind in _NAMES and cursor.next(2).text == ":":
            for _ in range(3):
                cursor.advance()

    def _skip_default(self) -> None:
        cursor = self.cursor
        while not cursor.at(",") and not cursor.at(")"):
            if cursor.token.kind is TokenKind.END:
                raise cursor.wanted("')'")
            if cursor.token.text in ("(", "[", "{") and cursor.token.kind is TokenKind.MARK:
                cursor.skip_brackets()
            else:
                cursor.advance()

    def _bracketed(self) -> Type:
        cursor = self.cursor
        start = cursor.advance().start
        first = self.type()
        if cursor.take(":"):
            second = self.type()
            cursor.want("]")
            return CompoundType(Shape.DICTIONARY, (first, second), start)
        if cursor.at_name and cursor.token.text == "of":  # an inline array, `[3 of T]`
            cursor.advance()
            first = self.type()
        cursor.want("]")
        return CompoundType(Shape.ARRAY, (first,), start)
