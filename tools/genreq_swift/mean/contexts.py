"""Declarations in their places, and the types, protocols and aliases that they declare."""
from typing import Dict, Iterator, List, Optional, Set, Tuple, Union

from ..read.declarations import DeclarationSyntax
from ..read.model import DeclarationKind
from ..read.tokens import Source


class Context:
    """A declaration in its place: in its source, and in the declaration around it."""

    __slots__ = ("declaration", "source", "parent", "entity", "members")

    def __init__(self, declaration: DeclarationSyntax, source: Source, parent: "Optional[Context]"):
        self.declaration = declaration
        self.source = source
        self.parent = parent
        self.entity: Optional[Entity] = None  # the type or protocol that it declares or extends
        self.members = [Context(member, source, self) for member in declaration.members]

    @property
    def kind(self) -> DeclarationKind:
        """The word that declares it."""
        return self.declaration.kind

    def around(self) -> "Iterator[Context]":
        """The declarations of types and protocols, and the extension, in which it stands, innermost first; itself, if it is one."""
        context: Optional[Context] = self
        while context is not None:
            if context.entity is not None:
                yield context
            context = context.parent


class Entity:
    """A type or protocol with what is declared in it and in its extensions."""

    __slots__ = ("context", "outer", "path", "members", "associated", "extensions")

    def __init__(self, context: Context, outer: "Optional[Entity]"):
        self.context = context
        self.outer = outer
        self.path: Tuple[str, ...] = (outer.path if outer else ()) + (context.declaration.name,)
        self.members: Dict[str, Member] = {}
        self.associated: Set[str] = set()
        self.extensions: List[Context] = []

    def share(self, twin: "Entity") -> None:
        """Has what is declared in a type of the same name, and the other way round, if both are declared alike."""
        if twin.context.kind is self.context.kind and len(twin.context.declaration.parameters) == len(self.context.declaration.parameters):
            self.members, self.associated, self.extensions = twin.members, twin.associated, twin.extensions

    @property
    def is_protocol(self) -> bool:
        """Whether it is a protocol."""
        return self.context.kind is DeclarationKind.PROTOCOL

    @property
    def is_class(self) -> bool:
        """Whether it is a class."""
        return self.context.kind is DeclarationKind.CLASS

    @property
    def name(self) -> str:
        """Its own name after those around it."""
        return ".".join(self.path)


class Alias:
    """A type alias."""

    __slots__ = ("context", "outer")

    def __init__(self, context: Context, outer: Optional[Entity]):
        self.context = context
        self.outer = outer

    @property
    def is_in_protocol(self) -> bool:
        """Whether it is declared in a protocol, or in an extension of one."""
        return self.outer is not None and self.outer.is_protocol

    @property
    def equates(self) -> bool:
        """Whether a protocol itself declares it, without generic parameters: then all members of its name are equal to what it refers to."""
        declaration, parent = self.context.declaration, self.context.parent
        return parent is not None and parent.kind is DeclarationKind.PROTOCOL and not declaration.parameters and declaration.target is not None


Member = Union[Entity, Alias]
