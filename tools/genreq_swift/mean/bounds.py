"""What bounds and where clauses state."""
from dataclasses import dataclass, replace
from typing import Iterator, List, Optional, Sequence, Tuple

from .contexts import Alias, Context, Entity
from ..read.declarations import ConditionSyntax
from .statements import Meaning, NominalType, OtherType, Statement, StatementKind
from ..read.model import Cause, Origin
from .parameters import Scope
from ..read.tokens import Source
from .types import DEEPEST_ALIAS, Found, Noting, TypeMeanings
from ..read.type_syntax import CompoundType, NamedType, Shape, Step, Type

_TRANSPARENT = frozenset((Shape.COMPOSITION, Shape.OPAQUE, Shape.EXISTENTIAL))
_BRANDS = frozenset(("Copyable", "Escapable"))


@dataclass(frozen=True)
class Bound:
    """What a bound says of whatever stands at its left: a protocol with arguments for its primary associated types, a layout, or a cause."""

    kind: StatementKind
    protocol: Optional[Entity]
    arguments: Tuple[Tuple[str, Meaning, int], ...]  # the name of the associated type, the argument, and its place
    cause: Optional[Cause]
    start: int


class Bounds:
    """The meanings of bounds and of the entries of where clauses."""

    def __init__(self, types: TypeMeanings):
        self.types = types

    def condition(self, written: ConditionSyntax, context: Context, scope: Scope) -> List[Statement]:
        """What an entry of a where clause states."""
        left = self.types.meaning(written.left, context, scope)
        text = context.source.written(written.start, written.end)
        if not written.is_equation:
            return list(self.stated(left, self.of(written.right, context, scope), context.source, text))
        right = self.types.meaning(written.right, context, scope)
        return [
            Statement(StatementKind.SAME_TYPE, left, right, context.source, written.start, written.start, text, Origin.OWN)
        ]

    def stated(self, left: Meaning, bounds: Sequence[Bound], source: Source, text: str) -> Iterator[Statement]:
        """What bounds state of a type."""
        for bound in bounds:
            start = bound.start
            yield Statement(bound.kind, left, bound.protocol, source, start, start, text, Origin.OWN, bound.cause)
            for name, argument, place in bound.arguments:
                subject = self.types.member(left, Step(name, (), place), ())
                equation = "%s == %s" % (subject, argument)
                yield Statement(StatementKind.SAME_TYPE, subject, argument, source, place, start, equation, Origin.OWN, argument=True)

    def of(self, written: Type, context: Context, scope: Scope) -> List[Bound]:
        """What a bound says. The places are those of the parts of the bound as it is written here, also where they are aliases."""
        start = written.start
        if isinstance(written, CompoundType):
            if written.shape is Shape.SUPPRESSED:
                return [_cause(Cause.SUPPRESSED, start)]
            if written.shape in _TRANSPARENT or (written.shape is Shape.TUPLE and len(written.parts) == 1):
                return [bound for part in written.parts for bound in self.of(part, context, scope)]
        if not isinstance(written, NamedType):
            return [_cause(Cause.BOUND, start)]
        last = written.steps[-1]
        if last.name == "AnyObject":
            return [Bound(StatementKind.LAYOUT, None, (), None, start)]
        if last.name == "Any":
            return []
        if last.name in _BRANDS:
            return [_cause(Cause.SUPPRESSED, start)]
        return self._named_bounds(written, context, scope)

    def _named_bounds(self, written: NamedType, context: Context, scope: Scope) -> List[Bound]:
        start, last = written.start, written.steps[-1]
        found = self.types.found(written, context, scope)
        if isinstance(found, Found) and isinstance(found.member, Alias):
            return self._alias_bounds(found, last.arguments, start, context, scope)
        if isinstance(found, NominalType):
            found = Found(found.entity)
        if not isinstance(found, Found):
            unknown = isinstance(found, OtherType) and found.cause is Cause.UNKNOWN
            return [_cause(Cause.UNKNOWN if unknown else Cause.BOUND, start)]
        entity = found.member
        assert isinstance(entity, Entity)
        if not entity.is_protocol:
            self.types.arguments(last, context, scope)
            return [_cause(Cause.SUPERCLASS if entity.is_class else Cause.BOUND, start)]
        arguments = zip(entity.context.declaration.primaries, self.types.arguments(last, context, scope), last.arguments)
        return [
            Bound(StatementKind.CONFORMANCE, entity, tuple((name, meant, at.start) for name, meant, at in arguments), None, start)
        ]

    def _alias_bounds(self, found: Found, arguments: Tuple[Type, ...], start: int, context: Context, scope: Scope) -> List[Bound]:
        alias = found.member.context
        if alias.declaration.target is None or self.types.aliases_open > DEEPEST_ALIAS:
            return [_cause(Cause.UNKNOWN, start)]
        meant = tuple(self.types.meaning(argument, context, scope) for argument in arguments)
        alias_scope = self.types.scope(alias)
        with Noting(self.types, None):
            bounds = self.of(alias.declaration.target, alias, alias_scope)
        sides = self.types.sides(found, alias_scope, meant)
        return [
            replace(
                bound, arguments=tuple((name, self.types.replaced(argument, sides), start) for name, argument, _ in bound.arguments), start=start
            )
            for bound in bounds
        ]


def _cause(cause: Cause, start: int) -> Bound:
    return Bound(StatementKind.OUTSIDE, None, (), cause, start)
