"""What genreq's language has, and what it lacks: statements become requirements, or omissions with their causes."""
from typing import Dict, List, Sequence, Tuple, Union

from .contexts import Entity
from .statements import OtherType, Statement, StatementKind
from ..read.model import Cause, Omission, Origin, Place, ProtocolName, Requirement, RequirementKind, TypeParameter

_KINDS = {
    StatementKind.CONFORMANCE: RequirementKind.CONFORMANCE,
    StatementKind.LAYOUT: RequirementKind.LAYOUT,
    StatementKind.SAME_TYPE: RequirementKind.SAME_TYPE,
}


class Profile:
    """Tells requirements from omissions. `labels` has the label of each protocol."""

    def __init__(self, labels: Dict[Entity, str]):
        self.labels = labels

    def split(self, statements: Sequence[Statement], origin_of_all: Union[Origin, None] = None) -> "Tuple[List[Requirement], List[Omission]]":
        """The requirements and the omissions among statements, each in order."""
        kept: List[Requirement] = []
        left_out: List[Omission] = []
        for statement in (part for statement in statements for part in statement.parts()):
            origin = origin_of_all or statement.origin
            cause = self._cause(statement)
            if cause is None:
                kept.append(self._requirement(statement, origin))
            else:
                left_out.append(Omission(cause, _told(statement), *_places(statement), origin))
        return kept, left_out

    def _cause(self, statement: Statement) -> Union[Cause, None]:
        if statement.cause is not None:
            return statement.cause
        for side in statement.sides():
            if not isinstance(side, TypeParameter):
                return side.cause if isinstance(side, OtherType) and side.cause is not Cause.CONCRETE else Cause.CONCRETE
        if isinstance(statement.right, Entity) and statement.right not in self.labels:
            return Cause.UNKNOWN
        return None

    def _requirement(self, statement: Statement, origin: Origin) -> Requirement:
        subject, right = statement.left, statement.right
        assert isinstance(subject, TypeParameter)
        place, clause = _places(statement)
        protocol = ProtocolName(right.name, self.labels[right]) if isinstance(right, Entity) else None
        other = right if isinstance(right, TypeParameter) else None
        return Requirement(_KINDS[statement.kind], subject, protocol, other, place, clause, origin, statement.argument)


def _places(statement: Statement) -> Tuple[Place, Place]:
    """The place of a statement, and that of the clause to which it belongs."""
    place = statement.source.place(statement.start)
    return place, place if statement.clause == statement.start else statement.source.place(statement.clause)


def _told(statement: Statement) -> str:
    """How something left out is told: as it is written, or what it means where it is not written."""
    if statement.text:
        return statement.text
    right = statement.right
    if statement.kind is StatementKind.SAME_TYPE:
        return "%s == %s" % (statement.left, right)
    what = right.name if isinstance(right, Entity) else "AnyObject" if statement.cause is None else statement.cause.value
    return "%s : %s" % (statement.left, what)
