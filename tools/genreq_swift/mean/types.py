"""What the types that are written in declarations mean, and what they need."""
from dataclasses import dataclass, replace
from typing import Callable, Dict, Iterator, List, Optional, Set, Tuple, Union

from .contexts import Alias, Context, Entity, Member
from .hierarchy import Hierarchy, Meeting
from .known_protocols import KnownProtocols
from .statements import Meaning, NominalType, OtherType, Replacement, Statement, StatementKind, has_parameters, is_larger
from ..read.model import Cause, Origin, TypeParameter
from .parameters import Scope
from ..read.type_syntax import FunctionType, MemberType, NamedType, Shape, Step, Type, spelled

_SUGAR = {Shape.ARRAY: "Array", Shape.DICTIONARY: "Dictionary", Shape.OPTIONAL: "Optional"}
DEEPEST_ALIAS = 20  # how deeply aliases may stand in each other
_LARGEST = 10000  # how many parts the meaning of an alias may have


@dataclass(frozen=True)
class Found:
    """A declared name, and the type in which it was found."""

    member: Member
    outer: Optional[NominalType] = None


class TypeMeanings:
    """The meanings of types. `scope` answers the scope of a declaration, whose generic parameters and requirements are looked at."""

    def __init__(self, hierarchy: Hierarchy, scope: Callable[[Context], Scope]):
        self.hierarchy = hierarchy
        self.names = hierarchy.names
        self.scope = scope
        self.aliases_open = 0
        self.needs: Optional[List[Statement]] = None  # what the types that are looked at need, where that is wanted
        self.viewpoint: Optional[Context] = None  # the declaration whose requirements are looked at
        self.known_protocols = KnownProtocols(hierarchy)
        self._superclasses: Dict[Entity, Optional[Meaning]] = {}

    def meaning(self, written: Type, context: Context, scope: Scope) -> Meaning:
        """What a type means where it is written."""
        if isinstance(written, NamedType):
            return self._finished(self.found(written, context, scope), written.steps[-1], context, scope)
        if isinstance(written, MemberType):
            base = self.meaning(written.base, context, scope)
            return self.member(base, written.step, self.arguments(written.step, context, scope))
        if isinstance(written, FunctionType):
            return self._function_meaning(written, context, scope)
        if written.shape in _SUGAR:
            parts = tuple(self.meaning(part, context, scope) for part in written.parts)
            entity = self.names.top(_SUGAR[written.shape], context.source)
            if isinstance(entity, Entity):
                return self._nominal(entity, parts)
            sugar = OtherType(spelled(written), Cause.CONCRETE, parts)
            if written.shape is Shape.DICTIONARY:  # its keys are hashable, and no source says so
                self._need_unknown(sugar, written.start, context)
            return sugar
        if written.shape is Shape.TUPLE and len(written.parts) == 1:
            return self.meaning(written.parts[0], context, scope)
        parts = tuple(self.meaning(part, context, scope) for part in written.parts)
        cause = Cause.PACK if written.shape is Shape.PACK else Cause.VALUE if written.shape is Shape.NUMBER else Cause.CONCRETE
        return OtherType(spelled(written), cause, parts)

    def _function_meaning(self, written: FunctionType, context: Context, scope: Scope) -> Meaning:
        parts = [self.meaning(part, context, scope) for part in written.parameters.parts]
        if written.thrown is not None:
            thrown = self.meaning(written.thrown, context, scope)
            self.need_error(thrown, context)
            parts.append(thrown)
        parts.append(self.meaning(written.result, context, scope))
        return OtherType(spelled(written), Cause.CONCRETE, tuple(parts))

    def arguments(self, step: Step, context: Context, scope: Scope) -> Tuple[Meaning, ...]:
        """What the generic arguments of a step mean."""
        return tuple(self.meaning(argument, context, scope) for argument in step.arguments)

    def found(self, written: NamedType, context: Context, scope: Scope) -> Union[Meaning, Found]:
        """What the names of a type lead to, before the arguments of the last one."""
        steps = written.steps
        first = steps[0]
        found = self._first(first.name, context, scope)
        if len(steps) > 1 and self._is_module(found, steps):
            member = self.names.in_module(first.name, steps[1].name, context.source)
            found = Found(member) if member is not None else OtherType("%s.%s" % (first.name, steps[1].name), Cause.UNKNOWN)
            steps = steps[1:]
        for before, step in zip(steps, steps[1:]):
            found = self._member(self._finished(found, before, context, scope, True), step.name)
        return found

    def _is_module(self, found: Union[Meaning, Found], steps: Tuple[Step, ...]) -> bool:
        if not self.names.is_module(steps[0].name) or isinstance(found, (TypeParameter, NominalType)):
            return False
        member = found.member if isinstance(found, Found) else None
        return not (isinstance(member, Entity) and steps[1].name in member.members)

    def _first(self, name: str, context: Context, scope: Scope) -> Union[Meaning, Found]:
        """What a name without anything in front of it means."""
        if name in scope.names:
            return scope.meaning(scope.names[name])
        around = list(context.around())
        if name == "Self":
            if not around:
                return OtherType("Self", Cause.UNKNOWN)
            assert around[0].entity is not None
            return self.self_type(around[0].entity)
        for place in around:
            found = self._in_context(name, place, scope)
            if found is not None:
                return found
        member = self.names.top(name, context.source)
        if member is not None:
            return Found(member)
        for place in around:
            found = self._in_outer_types(name, place)
            if found is not None:
                return found
        return OtherType(name, Cause.UNKNOWN)

    def _in_context(self, name: str, place: Context, scope: Scope) -> Union[Meaning, Found, None]:
        """What a name means as a member of the type or protocol that is declared or extended there."""
        entity = place.entity
        assert entity is not None
        if not entity.is_protocol:
            return self._in_type(name, self.self_type(entity))
        protocols = self.hierarchy.protocols_around(place)
        if any(name in protocol.associated for protocol in protocols) and scope.parameters:
            return TypeParameter(scope.parameters[0], (name,))
        for protocol in protocols:
            if name in protocol.members:
                return Found(protocol.members[name])
        return None

    def _in_type(self, name: str, outer: Meaning) -> Union[Meaning, Found, None]:
        """What a name means in a type: itself, or a member."""
        if not isinstance(outer, NominalType):
            return None
        if name == outer.entity.path[-1]:
            return outer
        return self._inherited_member(name, outer)

    def _inherited_member(self, name: str, outer: NominalType) -> Optional[Found]:
        """The member of a type that has a name: its own, of a protocol to which it conforms, or of a superclass."""
        seen: Set[Entity] = set()
        current: Meaning = outer
        while isinstance(current, NominalType) and current.entity not in seen:
            entity = current.entity
            seen.add(entity)
            member = entity.members.get(name) or self.hierarchy.aliases_of_protocols(entity).get(name)
            if member is not None:
                return Found(member, current)
            superclass = self._superclass(entity)
            if superclass is None:
                break
            current = self.replaced(superclass, self.outer_sides(current))
        return None

    def _superclass(self, entity: Entity) -> Optional[Meaning]:
        """The superclass of a class, in its own generic parameters. While that is looked for, the class has none."""
        if entity not in self._superclasses:
            self._superclasses[entity] = None
            written = self.hierarchy.superclass(entity)
            if written is not None:
                with Noting(self, None):
                    self._superclasses[entity] = self.meaning(written[1], entity.context, self.scope(entity.context))
        return self._superclasses[entity]

    def outer_sides(self, outer: NominalType) -> Replacement:
        """What stands in place of the generic parameters of a declared type."""
        if outer.arguments is None:
            return {}
        return dict(zip(self.scope(outer.entity.context).parameters, outer.arguments))

    def _in_outer_types(self, name: str, place: Context) -> Optional[Found]:
        assert place.entity is not None
        outer = place.entity.outer
        while outer is not None:
            if name in outer.members and not outer.is_protocol:
                self_type = self.self_type(outer)
                return Found(outer.members[name], self_type if isinstance(self_type, NominalType) else None)
            outer = outer.outer
        return None

    def self_type(self, entity: Entity) -> Meaning:
        """What `Self` means in a type or protocol."""
        scope = self.scope(entity.context)
        if entity.is_protocol:
            return TypeParameter(scope.parameters[0])
        return NominalType(entity, tuple(scope.meaning(parameter) for parameter in scope.parameters))

    def _finished(
        self, found: Union[Meaning, Found], step: Step, context: Context, scope: Scope, as_base: bool = False
    ) -> Meaning:
        """What was found, with the arguments of its step. A protocol stands for itself as the base of a member alone."""
        arguments = self.arguments(step, context, scope)
        if isinstance(found, NominalType) and arguments and len(arguments) == len(found.entity.context.declaration.parameters):
            front = (found.arguments or ())[: len(self.scope(found.entity.context).parameters) - len(arguments)]
            return self._nominal(found.entity, front + arguments)
        if not isinstance(found, Found):
            if isinstance(found, OtherType) and arguments:
                return self._unknown_generic(found, arguments, step, context)
            return found
        if isinstance(found.member, Alias):
            return self.alias_meaning(found, arguments)
        return self._entity_meaning(found, arguments, as_base)

    def _unknown_generic(self, found: OtherType, arguments: Tuple[Meaning, ...], step: Step, context: Context) -> OtherType:
        """A generic type that no source declares. What it needs of its arguments is not known."""
        unknown = OtherType("%s<%s>" % (found.text, ", ".join(map(str, arguments))), found.cause, found.parts + arguments)
        self._need_unknown(unknown, step.start, context)
        return unknown

    def _need_unknown(self, left: OtherType, start: int, context: Context) -> None:
        """Notes that it is not known what a type needs."""
        if self.needs is not None:
            cause = left.cause if left.cause is not Cause.CONCRETE else Cause.UNKNOWN
            source = context.source
            self.needs.append(Statement(StatementKind.OUTSIDE, left, None, source, start, start, left.text, Origin.INFERRED, cause))

    def _entity_meaning(self, found: Found, arguments: Tuple[Meaning, ...], as_base: bool) -> Meaning:
        entity = found.member
        assert isinstance(entity, Entity)
        if entity.is_protocol:
            return NominalType(entity, None) if as_base else OtherType(entity.name, Cause.CONCRETE, arguments)
        all_parameters = len(self.scope(entity.context).parameters)
        own = len(entity.context.declaration.parameters)
        front: Tuple[Meaning, ...] = ()
        if all_parameters > own and found.outer is not None:
            front = (found.outer.arguments or ())[: all_parameters - own]
        if len(front) + len(arguments) != all_parameters:
            return NominalType(entity, None)
        return self._nominal(entity, front + arguments)

    def alias_meaning(self, found: Found, arguments: Tuple[Meaning, ...]) -> Meaning:
        """To what an alias refers, with the meanings of its generic arguments."""
        assert isinstance(found.member, Alias)
        alias = found.member.context
        name = alias.declaration.name
        if alias.declaration.target is None or self.aliases_open > DEEPEST_ALIAS:
            return OtherType(name, Cause.UNKNOWN, arguments)
        alias_scope = self.scope(alias)
        with Noting(self, None):
            meant = self.meaning(alias.declaration.target, alias, alias_scope)
        sides = self.sides(found, alias_scope, arguments)
        if self.needs is not None and arguments:
            self.needs += [self.replaced_statement(statement, sides) for statement in alias_scope.own]
        wanted = len(alias_scope.parameters) - (found.outer is None and found.member.is_in_protocol)
        if len(sides) < wanted and has_parameters(meant):
            return OtherType(name, Cause.UNKNOWN, arguments)
        meant = self.replaced(meant, sides)
        return OtherType(name, Cause.CONCRETE) if is_larger(meant, _LARGEST) else meant

    def _nominal(self, entity: Entity, arguments: Tuple[Meaning, ...]) -> Meaning:
        """A declared type with its arguments. What it needs of them is noted where that is wanted."""
        if self.needs is not None and arguments:
            scope = self.scope(entity.context)
            if scope.statements:
                sides: Replacement = dict(zip(scope.parameters, arguments))
                self.needs += [self.replaced_statement(statement, sides) for statement in scope.statements]
        return NominalType(entity, arguments)

    def member(self, base: Meaning, step: Step, arguments: Tuple[Meaning, ...]) -> Meaning:
        """The member of a type, with the meanings of its generic arguments."""
        found = self._member(base, step.name)
        if not isinstance(found, Found):
            return found
        if isinstance(found.member, Alias):
            return self.alias_meaning(found, arguments)
        return self._entity_meaning(found, arguments, False)

    def _member(self, base: Meaning, name: str) -> Union[Meaning, Found]:
        """The member of a type that has a name."""
        if isinstance(base, TypeParameter):
            return self._member_of_parameter(base, name)
        if isinstance(base, NominalType):
            if base.entity.is_protocol:
                if name in base.entity.members:
                    return Found(base.entity.members[name])
            else:
                found = self._inherited_member(name, base)
                if found is not None:
                    return found
            return OtherType("%s.%s" % (base, name), Cause.UNKNOWN, base.arguments or ())
        return OtherType("%s.%s" % (base, name), base.cause if base.cause is not Cause.CONCRETE else Cause.UNKNOWN, (base,))

    def _member_of_parameter(self, base: TypeParameter, name: str) -> Meaning:
        aliases = self.names.aliases_in_protocols.get(name, [])
        if name in self.names.associated and (not aliases or not self._is_alias_alone(base, name)):
            return base.member(name)
        if len(aliases) > 1 and self.viewpoint is not None:
            known = self.known_protocols.of(base, self.viewpoint)
            aliases = [alias for alias in aliases if alias.outer in known] or aliases
        for alias in aliases:
            return self.replaced(self.alias_meaning(Found(alias), ()), self.sides_of_self(alias, base))
        return OtherType("%s.%s" % (base, name), Cause.UNKNOWN, (base,))

    def _is_alias_alone(self, base: TypeParameter, name: str) -> bool:
        """Whether the protocols of a type parameter have an alias of a name, and no associated type."""
        if self.viewpoint is None:
            return False
        known = self.known_protocols.of(base, self.viewpoint)
        if any(name in protocol.associated for protocol in known):
            return False
        return any(isinstance(protocol.members.get(name), Alias) for protocol in known)

    def replaced(self, meaning: Meaning, sides: Replacement) -> Meaning:
        """The type with others in place of generic parameters."""
        if not sides:
            return meaning
        if isinstance(meaning, TypeParameter):
            found = sides.get(meaning.parameter)
            if found is None:
                return meaning
            for name in meaning.members:
                found = self.member(found, Step(name, (), 0), ())
            return found
        if isinstance(meaning, NominalType):
            if not meaning.arguments:
                return meaning
            return NominalType(meaning.entity, tuple(self.replaced(argument, sides) for argument in meaning.arguments))
        if not meaning.parts:
            return meaning
        return replace(meaning, parts=tuple(self.replaced(part, sides) for part in meaning.parts))

    def equated(self, subject: TypeParameter, meeting: Meeting) -> Iterator[Tuple[Meaning, Meaning]]:
        """The types that are equal since members of one name meet in a type parameter."""
        meanings = [self.replaced(self.alias_meaning(Found(alias), ()), self.sides_of_self(alias, subject)) for alias in meeting.aliases]
        first = subject.member(meeting.name) if meeting.is_declared else meanings.pop(0)
        return ((first, other) for other in meanings if other != first)

    def sides_of_self(self, alias: Alias, base: Meaning) -> Replacement:
        """A type in place of the `Self` of the protocol in which an alias is declared."""
        return {self.scope(alias.context).parameters[0]: base}

    def replaced_statement(self, statement: Statement, sides: Replacement) -> Statement:
        """The statement with others in place of generic parameters."""
        right = statement.right
        if right is not None and not isinstance(right, Entity):
            right = self.replaced(right, sides)
        return replace(statement, left=self.replaced(statement.left, sides), right=right)

    def need_error(self, thrown: Meaning, context: Context) -> None:
        """What is thrown is an error."""
        error = self.names.top("Error", context.source)
        if self.needs is not None and isinstance(error, Entity) and isinstance(thrown, TypeParameter):
            start = context.declaration.start
            self.needs.append(
                Statement(StatementKind.CONFORMANCE, thrown, error, context.source, start, start, "", Origin.INFERRED)
            )

    def sides(self, found: Found, alias_scope: Scope, arguments: Tuple[Meaning, ...]) -> Replacement:
        """What stands in place of the generic parameters of an alias and of the type around it."""
        sides: Replacement = {}
        outer = found.outer
        if outer is not None and isinstance(found.member, Alias) and found.member.is_in_protocol:
            sides[alias_scope.parameters[0]] = outer
        elif outer is not None:
            sides.update(self.outer_sides(outer))
        own = len(found.member.context.declaration.parameters)
        if own:
            sides.update(zip(alias_scope.parameters[len(alias_scope.parameters) - own :], arguments))
        return sides


class Noting:
    """While this is open, what the types that are looked at need is noted in a list; or nowhere, as in an alias."""

    def __init__(self, meanings: TypeMeanings, noted: Optional[List[Statement]]):
        self.meanings = meanings
        self.noted = noted
        self.before: Optional[List[Statement]] = None

    def __enter__(self) -> None:
        self.before, self.meanings.needs = self.meanings.needs, self.noted
        self.meanings.aliases_open += self.noted is None

    def __exit__(self, *_: object) -> None:
        self.meanings.needs = self.before
        self.meanings.aliases_open -= self.noted is None
