"""The outline of Swift sources: their protocols, types, aliases and conformances as Swift, without all that a reader of names need not see."""
from typing import Iterator, List, Sequence

from ..read.declarations import DeclarationSyntax
from ..read.model import DeclarationKind
from ..read.type_syntax import spelled

_ALIASES = (DeclarationKind.TYPEALIAS, DeclarationKind.ASSOCIATED_TYPE)
_FUNCTIONS = (DeclarationKind.FUNCTION, DeclarationKind.INITIALISER, DeclarationKind.SUBSCRIPT)


def outline(declarations: Sequence[DeclarationSyntax], indent: str = "") -> Iterator[str]:
    """The lines of the outline of declarations. An extension that declares nothing of it is left out."""
    for declaration in declarations:
        if declaration.kind in _FUNCTIONS:
            continue
        if declaration.kind in _ALIASES:
            yield indent + _alias(declaration)
            continue
        members = list(outline(declaration.members, indent + "  "))
        if declaration.kind is DeclarationKind.EXTENSION and not members and not declaration.inherited:
            continue
        head = indent + _head(declaration) + " {"
        if members:
            yield head
            yield from members
            yield indent + "}"
        else:
            yield head + "}"


def _head(declaration: DeclarationSyntax) -> str:
    name = spelled(declaration.target) if declaration.target is not None else declaration.name
    return "%s %s%s" % (declaration.kind.value, name, _clauses(declaration))


def _alias(declaration: DeclarationSyntax) -> str:
    if declaration.target is None:
        return "%s %s%s" % (declaration.kind.value, declaration.name, _clauses(declaration))
    target = " = " + spelled(declaration.target) if declaration.kind is DeclarationKind.TYPEALIAS else ""
    clauses = _parameters(declaration) + _inherited(declaration) + target + _conditions(declaration)
    return "%s %s%s" % (declaration.kind.value, declaration.name, clauses)


def _clauses(declaration: DeclarationSyntax) -> str:
    primaries = "<%s>" % ", ".join(declaration.primaries) if declaration.primaries else ""
    return primaries + _parameters(declaration) + _inherited(declaration) + _conditions(declaration)


def _parameters(declaration: DeclarationSyntax) -> str:
    found: List[str] = []
    for parameter in declaration.parameters:
        word = "each " if parameter.is_pack else "let " if parameter.is_value else ""
        found.append(word + parameter.name + (": " + spelled(parameter.bound) if parameter.bound is not None else ""))
    return "<%s>" % ", ".join(found) if found else ""


def _inherited(declaration: DeclarationSyntax) -> str:
    found = [spelled(inherited.bound) for inherited in declaration.inherited]
    return ": " + ", ".join(found) if found else ""


def _conditions(declaration: DeclarationSyntax) -> str:
    found = [
        "%s %s %s" % (spelled(one.left), "==" if one.is_equation else ":", spelled(one.right)) for one in declaration.conditions
    ]
    return " where " + ", ".join(found) if found else ""
