"""Declarations as they are written. Bodies of functions and values of variables are not looked at."""
from dataclasses import dataclass, replace
from enum import Enum
import re
from typing import FrozenSet, List, Optional, Set, Tuple

from .conditions import Configuration
from .cursor import Cursor
from .model import DeclarationKind
from .tokens import Source, SourceError, Token, TokenKind
from .type_syntax import KEYWORDS, CompoundType, FunctionType, MemberType, NamedType, Shape, Step, Type, TypeReader


@dataclass(frozen=True)
class ParameterSyntax:
    """A generic parameter. `is_pack` and `is_value` say that it is `each T` or `let N`."""

    name: str
    start: int
    bound: Optional[Type]
    is_pack: bool = False
    is_value: bool = False


@dataclass(frozen=True)
class ConditionSyntax:
    """A requirement of a where clause, `left : right` or `left == right`."""

    left: Type
    right: Type
    is_equation: bool
    start: int
    end: int


@dataclass(frozen=True)
class InheritedSyntax:
    """An entry of an inheritance clause."""

    bound: Type
    start: int
    end: int


@dataclass(frozen=True)
class DeclarationSyntax:
    """A declaration, without its body.

    `start` is the place of its name, of the word `init` or `subscript`, or of the extended type. `types` are those of the parameters and of
    the result, `thrown` what it says to throw. `target` is the type that an extension extends, or to which an alias refers.
    """

    kind: DeclarationKind
    name: str
    start: int
    end: int = 0
    parameters: Tuple[ParameterSyntax, ...] = ()
    primaries: Tuple[str, ...] = ()
    inherited: Tuple[InheritedSyntax, ...] = ()
    conditions: Tuple[ConditionSyntax, ...] = ()
    types: Tuple[Type, ...] = ()
    thrown: Optional[Type] = None
    target: Optional[Type] = None
    members: "Tuple[DeclarationSyntax, ...]" = ()
    is_private: bool = False  # seen in its file alone


_MODIFIERS: FrozenSet[str] = frozenset(
    """public internal private fileprivate open package static final override mutating nonmutating lazy weak unowned optional required convenience
    dynamic indirect prefix postfix infix __consuming __owned consuming borrowing nonisolated isolated distributed async reasync _const""".split()
)
_DECLARING: FrozenSet[str] = frozenset(
    """func init subscript deinit var let typealias associatedtype case struct class enum actor protocol extension import operator precedencegroup
    macro""".split()
)
_STARTS = _MODIFIERS | _DECLARING
_TYPES = {
    kind.value: kind
    for kind in (DeclarationKind.STRUCT, DeclarationKind.CLASS, DeclarationKind.ENUM, DeclarationKind.ACTOR, DeclarationKind.PROTOCOL)
}
_NAMES = (TokenKind.NAME, TokenKind.QUOTED)
_UNAVAILABLE = re.compile(r"@available\s*\(\s*\*\s*,\s*unavailable\b")


class _Modifier(Enum):
    """What modifiers and attributes say, as far as it is looked at."""

    PRIVATE = "private"
    UNAVAILABLE = "unavailable"


class DeclarationReader(TypeReader):
    """Reads declarations at a cursor. One that cannot be read is left out, with the error in a list; a protocol is read as a whole or not."""

    def __init__(self, cursor: Cursor, errors: List[SourceError]):
        super().__init__(cursor)
        self.errors = errors
        self._whole = 0  # in how many protocols it stands

    def source_file(self) -> Tuple[DeclarationSyntax, ...]:
        """All declarations of a source."""
        found = self._declarations()
        if self.cursor.token.kind is not TokenKind.END:
            raise self.cursor.wanted("a declaration")
        return found

    def _declarations(self) -> Tuple[DeclarationSyntax, ...]:
        """The declarations up to the `}` that ends them, or to the end."""
        cursor, found = self.cursor, []
        while cursor.token.kind is not TokenKind.END and not cursor.at("}"):
            if cursor.take(";"):
                continue
            start = cursor.token.start
            try:
                declaration = self._declaration()
            except (SourceError, RecursionError) as failure:
                error = failure if isinstance(failure, SourceError) else cursor.source.error("nested too deeply", start)
                if self._whole or cursor.token.start == start:
                    raise error from None
                self.errors.append(error)
                self._go_on()
            else:
                if declaration is not None:
                    found.append(declaration)
        return tuple(found)

    def _go_on(self) -> None:
        """Goes from where something could not be read to the next declaration."""
        token = self.cursor.token
        if not (token.after_line and (token.text in _STARTS or token.text == "@")):
            self._skip_rest(True)

    def _declaration(self) -> Optional[DeclarationSyntax]:
        """Reads one declaration, or goes past it where nothing in it is looked at."""
        modifiers = self._modifiers()
        declaration = self._unmodified()
        if declaration is not None and _Modifier.PRIVATE in modifiers:
            declaration = replace(declaration, is_private=True)
        if declaration is not None and declaration.kind is DeclarationKind.EXTENSION and _Modifier.UNAVAILABLE in modifiers:
            declaration = replace(declaration, inherited=())  # it says that a conformance is not there
        return declaration

    def _unmodified(self) -> Optional[DeclarationSyntax]:
        """The declaration here, after its attributes and modifiers, or None where none begins."""
        cursor = self.cursor
        if cursor.token.kind is TokenKind.NAME:
            word = cursor.token.text
            if word in _TYPES and (word != "actor" or self._declares_actor()):
                return self._type_declaration(_TYPES[word])
            if word == "extension":
                return self._extension()
            if word in ("func", "init", "subscript"):
                return self._function_declaration(DeclarationKind(word))
            if word in ("typealias", "associatedtype"):
                return self._alias(DeclarationKind(word))
            if word == "import":
                self._import()
        self._skip_rest()
        return None

    def _import(self) -> None:
        """Takes up the module of an import, as `A` in `import struct A.B`."""
        cursor = self.cursor
        cursor.advance()
        if cursor.next().kind in _NAMES and not cursor.next().after_line:
            cursor.advance()
        if cursor.at_name:
            self.cursor.source.imports.append(cursor.token.text)

    def _modifiers(self) -> "Set[_Modifier]":
        """Goes past attributes and modifiers, and answers what they say."""
        cursor, found = self.cursor, set()
        while True:
            token = cursor.token
            if token.text == "@" and token.kind is TokenKind.MARK:
                self.attribute()
                if _UNAVAILABLE.match(cursor.source.text, token.start):
                    found.add(_Modifier.UNAVAILABLE)
            elif token.kind is TokenKind.NAME and (token.text in _MODIFIERS or token.text == "class" and self._class_modifies()):
                cursor.advance()
                if cursor.at("(") and not cursor.token.after_space:
                    cursor.skip_brackets()
                elif token.text in ("private", "fileprivate"):
                    found.add(_Modifier.PRIVATE)
            else:
                return found

    def _class_modifies(self) -> bool:
        """Whether the word `class` here says that a member is one of the class, and declares no class."""
        after = self.cursor.next()
        if after.kind is not TokenKind.NAME or after.text not in _STARTS - {"class"}:
            return False
        return after.text in KEYWORDS or self.cursor.next(2).text not in (":", "{", "<", "where")

    def _declares_actor(self) -> bool:
        after = self.cursor.next()
        return after.kind in _NAMES and not after.after_line and self.cursor.next(2).text in (":", "{", "<", "where")

    def _name(self) -> Token:
        token = self.cursor.token
        if token.kind is TokenKind.QUOTED or (token.kind is TokenKind.NAME and token.text not in KEYWORDS):
            return self.cursor.advance()
        raise self.cursor.wanted("a name")

    def _type_declaration(self, kind: DeclarationKind) -> DeclarationSyntax:
        cursor = self.cursor
        cursor.advance()
        name = self._name()
        is_protocol = kind is DeclarationKind.PROTOCOL
        primaries = self._primaries() if is_protocol else ()
        parameters = () if is_protocol else self._parameters()
        inherited, conditions = self._inherited(), self._conditions()
        members, end = self._whole_members() if is_protocol else self._members()
        return DeclarationSyntax(
            kind, name.text, name.start, end, parameters, primaries, inherited, conditions, members=members
        )

    def _extension(self) -> DeclarationSyntax:
        cursor = self.cursor
        cursor.advance()
        start = cursor.token.start
        target = self.type()
        inherited, conditions = self._inherited(), self._conditions()
        members, end = self._members()
        return DeclarationSyntax(
            DeclarationKind.EXTENSION, "", start, end, inherited=inherited, conditions=conditions, target=target, members=members
        )

    def _members(self) -> Tuple[Tuple[DeclarationSyntax, ...], int]:
        """What is declared in braces, and where they end."""
        self.cursor.want("{")
        members = self._declarations()
        return members, self.cursor.want("}").end

    def _whole_members(self) -> Tuple[Tuple[DeclarationSyntax, ...], int]:
        """What is declared in braces, where nothing may be left out. Where something cannot be read, goes past the braces."""
        if not self.cursor.at("{"):
            raise self.cursor.wanted("'{'")
        go_behind = self.cursor.behind_braces()
        self._whole += 1
        try:
            return self._members()
        except SourceError:
            go_behind()
            raise
        finally:
            self._whole -= 1

    def _function_declaration(self, kind: DeclarationKind) -> DeclarationSyntax:
        cursor = self.cursor
        name = cursor.advance()
        if kind is DeclarationKind.FUNCTION:
            name = cursor.advance() if cursor.at_name else cursor.operator()
        elif kind is DeclarationKind.INITIALISER and cursor.token.text in ("?", "!"):
            cursor.advance()
        parameters = self._parameters()
        opaque = _OpaqueParameters()
        types = [opaque.replaced(written) for written in self._parameter_types()]
        thrown = self._effects()
        if cursor.take("->"):
            types.append(self.type())
        conditions = self._conditions()
        if cursor.at("{"):
            cursor.skip_braces()
        all_parameters = parameters + tuple(opaque.parameters)
        return DeclarationSyntax(
            kind, name.text, name.start, cursor.last_end, all_parameters, conditions=conditions, types=tuple(types), thrown=thrown
        )

    def _effects(self) -> Optional[Type]:
        """Goes past `async` and `throws`, and answers what is thrown."""
        cursor, thrown = self.cursor, None
        while cursor.token.text in ("async", "throws", "rethrows", "reasync"):
            if cursor.advance().text == "throws" and cursor.take("("):
                thrown = self.type()
                cursor.want(")")
        return thrown

    def _parameter_types(self) -> List[Type]:
        """The types of the parameters between parentheses."""
        cursor, found = self.cursor, []
        cursor.want("(")
        while not cursor.take(")"):
            while not cursor.at(":"):
                if cursor.at("@"):
                    self.attribute()
                elif cursor.at_name:
                    cursor.advance()
                else:
                    raise cursor.wanted("the name of a parameter")
            cursor.advance()
            found.append(self.type())
            cursor.take("...")
            self._skip_default()
            cursor.take(",")
        return found

    def _alias(self, kind: DeclarationKind) -> DeclarationSyntax:
        cursor = self.cursor
        cursor.advance()
        name = self._name()
        parameters, inherited = self._parameters(), self._inherited()
        target = self.type() if cursor.take("=") else None
        conditions = self._conditions()
        return DeclarationSyntax(kind, name.text, name.start, cursor.last_end, parameters, (), inherited, conditions, target=target)

    # Clauses.

    def _primaries(self) -> Tuple[str, ...]:
        if not self.cursor.take("<"):
            return ()
        found: List[str] = []
        while not self.cursor.take(">"):
            found.append(self._name().text)
            if not self.cursor.take(",") and not self.cursor.at(">"):
                raise self.cursor.wanted("',' or '>'")
        return tuple(found)

    def _parameters(self) -> Tuple[ParameterSyntax, ...]:
        cursor = self.cursor
        if not cursor.take("<"):
            return ()
        found: List[ParameterSyntax] = []
        while not cursor.take(">"):
            while cursor.at("@"):
                self.attribute()
            is_pack, is_value = cursor.take("each"), cursor.take("let")
            name = self._name()
            bound = self.type() if cursor.take(":") else None
            found.append(ParameterSyntax(name.text, name.start, bound, is_pack, is_value))
            if not cursor.take(",") and not cursor.at(">"):
                raise cursor.wanted("',' or '>'")
        return tuple(found)

    def _inherited(self) -> Tuple[InheritedSyntax, ...]:
        cursor, found = self.cursor, []
        if not cursor.take(":"):
            return ()
        while True:
            start = cursor.token.start
            if cursor.take("class"):
                bound: Type = NamedType((Step("AnyObject", (), start),), start)
            else:
                bound = self.type()
            found.append(InheritedSyntax(bound, start, cursor.last_end))
            if not cursor.take(","):
                return tuple(found)

    def _conditions(self) -> Tuple[ConditionSyntax, ...]:
        cursor, found = self.cursor, []
        if not cursor.take("where"):
            return ()
        while True:
            start = cursor.token.start
            left = self.type()
            is_equation = cursor.take("==")
            if not is_equation:
                cursor.want(":")
            right = self.type()
            found.append(ConditionSyntax(left, right, is_equation, start, cursor.last_end))
            if not cursor.take(","):
                return tuple(found)

    def _skip_rest(self, in_brackets: bool = False) -> None:
        """Goes to the next declaration that begins a line, or to what ends those here. It may begin in brackets, where that is said."""
        cursor, is_first = self.cursor, True
        while True:
            token = cursor.token
            kind = token.kind
            if kind is TokenKind.END:
                return
            if kind is TokenKind.MARK:
                if token.text in "};":
                    return
                if token.text == "@" and token.after_line and not is_first:
                    return
                if token.text in ")]" and not in_brackets:
                    raise cursor.wanted("a declaration")
                if token.text in "([{":
                    if token.text == "{":
                        cursor.skip_braces()
                    else:
                        cursor.skip_brackets()
                    is_first = False
                    continue
            elif token.after_line and not is_first and (kind is TokenKind.DIRECTIVE or (kind is TokenKind.NAME and token.text in _STARTS)):
                return
            is_first = False
            cursor.advance()


class _OpaqueParameters:
    """The generic parameters that stand for `some P` in the types of parameters: `some_1`, `some_2`, and so on."""

    def __init__(self) -> None:
        self.parameters: List[ParameterSyntax] = []

    def replaced(self, written: Type) -> Type:
        """The type with a generic parameter in place of each `some P`."""
        if isinstance(written, NamedType):
            if not any(step.arguments for step in written.steps):
                return written
            return NamedType(tuple(self._step(step) for step in written.steps), written.start)
        if isinstance(written, MemberType):
            return MemberType(self.replaced(written.base), self._step(written.step), written.start)
        if isinstance(written, FunctionType):
            parameters = CompoundType(Shape.TUPLE, self._all(written.parameters.parts), written.parameters.start)
            return FunctionType(parameters, written.thrown, self.replaced(written.result), written.start)
        if written.shape is Shape.OPAQUE:
            return self._parameter(written)
        return CompoundType(written.shape, self._all(written.parts), written.start)

    def _all(self, types: Tuple[Type, ...]) -> Tuple[Type, ...]:
        return tuple(self.replaced(written) for written in types)

    def _step(self, step: Step) -> Step:
        return Step(step.name, self._all(step.arguments), step.start)

    def _parameter(self, opaque: CompoundType) -> Type:
        place = len(self.parameters)
        name = "some_%d" % (place + 1)
        self.parameters.append(ParameterSyntax(name, opaque.start, None))
        self.parameters[place] = ParameterSyntax(name, opaque.start, self.replaced(opaque.parts[0]))
        return NamedType((Step(name, (), opaque.start),), opaque.start)


def read_declarations(
    source: Source, configuration: Configuration, errors: Optional[List[SourceError]] = None
) -> Tuple[DeclarationSyntax, ...]:
    """The declarations of a source. Those that cannot be read are left out, and added to the errors.

    Raises SourceError where nothing can be read, or where something cannot be read and there is no list of errors.
    """
    found: List[SourceError] = []
    try:
        declarations = DeclarationReader(Cursor(source, configuration), found).source_file()
    except RecursionError:
        raise source.error("nested too deeply", 0) from None
    except SourceError as error:
        raise (found or [error])[0] from None
    if found and errors is None:
        raise found[0]
    if errors is not None:
        errors += found
    return declarations
