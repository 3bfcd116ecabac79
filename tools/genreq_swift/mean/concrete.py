"""Concrete types that stand as further generic parameters of a signature, with the conformances that the sources declare for them.

What follows from a signature with these parameters follows from the written one too, since a parameter is known by less than the type. The
other way round it need not.
"""
from dataclasses import replace
from typing import Dict, Iterator, List, Sequence

from .contexts import Entity
from .hierarchy import Hierarchy
from .statements import Meaning, NominalType, Statement, StatementKind
from ..read.model import DeclarationKind, GenericParameter, Origin, TypeParameter, label_of

_CLASSES = (DeclarationKind.CLASS, DeclarationKind.ACTOR)


class StandIns:
    """The parameters for the concrete types without generic arguments in the statements of a signature."""

    def __init__(self, hierarchy: Hierarchy, statements: Sequence[Statement], parameters: Sequence[GenericParameter], depth: int):
        self.hierarchy = hierarchy
        self._first: Dict[Entity, Statement] = {}
        for statement in statements:
            sides = list(statement.sides())
            if statement.kind is not StatementKind.OUTSIDE and all(_is_plain(side) for side in sides):
                for side in sides:
                    if isinstance(side, NominalType):
                        self._first.setdefault(side.entity, statement)
        self.parameters: Dict[Entity, GenericParameter] = {}
        labels = {parameter.label for parameter in parameters}
        for index, entity in enumerate(self._first):
            label = label_of("_".join(entity.path))
            while label in labels:
                label += "_"
            labels.add(label)
            place = entity.context.source.place(entity.context.declaration.start)
            self.parameters[entity] = GenericParameter(entity.name, label, depth, index, place, True)

    def replaced(self, statements: Sequence[Statement]) -> List[Statement]:
        """The statements with parameters in place of the concrete types."""
        return [self._replaced(statement) for statement in statements] if self.parameters else list(statements)

    def _replaced(self, statement: Statement) -> Statement:
        if not all(_is_plain(side) for side in statement.sides()):
            return statement
        right = statement.right
        if right is not None and not isinstance(right, Entity):
            right = self._side(right)
        return replace(statement, left=self._side(statement.left), right=right)

    def _side(self, side: Meaning) -> Meaning:
        if isinstance(side, NominalType) and side.entity in self.parameters:
            return TypeParameter(self.parameters[side.entity])
        return side

    def conformances(self) -> Iterator[Statement]:
        """What the sources declare of the concrete types."""
        for entity, parameter in self.parameters.items():
            subject = TypeParameter(parameter)
            text = "%s: its declared conformances" % entity.name
            stated = Statement(
                StatementKind.CONFORMANCE,
                subject,
                None,
                self._first[entity].source,
                self._first[entity].start,
                self._first[entity].clause,
                text,
                Origin.CONCRETE,
            )
            if entity.context.kind in _CLASSES:
                yield replace(stated, kind=StatementKind.LAYOUT)
            for protocol in self.hierarchy.declared_conformances(entity):
                yield replace(stated, right=protocol)


def _is_plain(side: Meaning) -> bool:
    """Whether a side is a type parameter, or a declared type without any generic parameter."""
    return isinstance(side, TypeParameter) or (isinstance(side, NominalType) and side.arguments == () and not side.entity.is_protocol)
