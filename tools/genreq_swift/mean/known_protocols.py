"""To which protocols a type parameter conforms, as far as it is written: in bounds, where clauses and protocols, without what equations say."""
from typing import Dict, Iterator, Optional, Set

from .contexts import Context, Entity
from ..read.declarations import DeclarationSyntax
from .hierarchy import Hierarchy
from ..read.model import DeclarationKind, TypeParameter
from ..read.type_syntax import spelled

Protocols = Dict[Entity, None]


class KnownProtocols:
    """Looks for the protocols of type parameters."""

    def __init__(self, hierarchy: Hierarchy):
        self.hierarchy = hierarchy
        self.names = hierarchy.names

    def of(self, one: TypeParameter, context: Context) -> Protocols:
        """The protocols to which a type parameter conforms in a declaration, and those that they inherit."""
        found: Protocols = {}
        wanted = {str(one), str(one).replace("Self.", "", 1)}
        for place in _places(context):
            if not one.members:
                if one.parameter.name == "Self" and place.entity is not None and place.entity.is_protocol:
                    found.update(self.hierarchy.protocols_around(place))
                for parameter in place.declaration.parameters:
                    if parameter.name == one.parameter.name and parameter.bound is not None:
                        self._add(self.names.bounds(parameter.bound, place), found)
            self._add(self._stated(place.declaration, wanted, place), found)
        if one.members:
            name = one.members[-1]
            for protocol in self.of(TypeParameter(one.parameter, one.members[:-1]), context):
                self._add(self._of_member(protocol, name), found)
        return found

    def _add(self, bounds: Iterator[Entity], found: Protocols) -> None:
        for bound in bounds:
            if bound.is_protocol:
                found.update(self.hierarchy.inherited(bound))

    def _stated(self, declaration: DeclarationSyntax, wanted: Set[str], context: Context) -> Iterator[Entity]:
        """What the where clause of a declaration says of a type that is spelled in one of these ways."""
        for condition in declaration.conditions:
            if not condition.is_equation and spelled(condition.left) in wanted:
                yield from self.names.bounds(condition.right, context)

    def _of_member(self, protocol: Entity, name: str) -> Iterator[Entity]:
        """What a protocol says of an associated type of it, or of one that it inherits."""
        wanted = {name, "Self." + name}
        yield from self._stated(protocol.context.declaration, wanted, protocol.context)
        for member in protocol.context.declaration.members:
            if member.kind is DeclarationKind.ASSOCIATED_TYPE:
                yield from self._stated(member, wanted, protocol.context)
                if member.name == name:
                    for inherited in member.inherited:
                        yield from self.names.bounds(inherited.bound, protocol.context)


def _places(context: Context) -> Iterator[Context]:
    """A declaration, those around it, and those of the types that are extended there."""
    place: Optional[Context] = context
    while place is not None:
        yield place
        if place.kind is DeclarationKind.EXTENSION and place.entity is not None:
            place = place.entity.context
        else:
            place = place.parent
