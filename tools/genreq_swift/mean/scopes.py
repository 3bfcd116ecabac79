"""The scopes of declarations: what is required of the generic parameters of each, and of those around it."""
from dataclasses import replace
from typing import Dict, List, Optional, Sequence

from .contexts import Alias, Context, Entity
from ..read.declarations import ParameterSyntax
from .hierarchy import Hierarchy
from .statements import NominalType, OtherType, Replacement, Statement, StatementKind, has_parameters
from ..read.model import Cause, DeclarationKind, Origin, TypeParameter
from .bounds import Bounds
from .parameters import Scope
from .types import Found, Noting, TypeMeanings
from ..read.type_syntax import CompoundType, NamedType, Type, spelled

_INFERRING = frozenset(
    (DeclarationKind.FUNCTION, DeclarationKind.INITIALISER, DeclarationKind.SUBSCRIPT, DeclarationKind.TYPEALIAS)
)

_MOST_NEEDS = 500  # after this many, conditions of conformances are not followed


class Scopes:
    """The scopes of all declarations, with the meanings of the types and bounds in them."""

    def __init__(self, hierarchy: Hierarchy):
        self.hierarchy = hierarchy
        self.types = TypeMeanings(hierarchy, self.scope)
        self.bounds = Bounds(self.types)
        self._scopes: Dict[Context, Scope] = {}

    def scope(self, context: Context) -> Scope:
        """The scope of a declaration. While it is made, it holds what was found so far."""
        known = self._scopes.get(context)
        if known is not None:
            return known
        kind = context.kind
        if kind is DeclarationKind.PROTOCOL:
            return self._protocol_scope(context)
        around = self._scope_around(context)
        scope = self._scopes[context] = Scope(around)
        self._declare_parameters(context, scope)
        before, self.types.viewpoint = self.types.viewpoint, context
        try:
            self._state_all(context, scope)
        except RecursionError:
            del self._scopes[context]
            raise
        finally:
            self.types.viewpoint = before
        return scope

    def _state_all(self, context: Context, scope: Scope) -> None:
        """States what a declaration requires itself."""
        declaration, kind = context.declaration, context.kind
        needs: List[Statement] = []
        with Noting(self.types, needs):
            self._state_bounds(context, scope)
            if kind is DeclarationKind.EXTENSION:
                self._state_target(context, scope)
            for condition in declaration.conditions:
                scope.own += self.bounds.condition(condition, context, scope)
            self._tell_aliases(context, scope)
            if kind in _INFERRING and (declaration.parameters or declaration.conditions):
                self._look_at_types(context, scope)
        self._infer(needs, context, scope)

    def _scope_around(self, context: Context) -> Optional[Scope]:
        if context.kind is DeclarationKind.EXTENSION:
            return self.scope(context.entity.context) if context.entity is not None else None
        return self.scope(context.parent) if context.parent is not None else None

    def _protocol_scope(self, context: Context) -> Scope:
        scope = self._scopes[context] = Scope()
        start = context.declaration.start
        parameter = scope.declare("Self", (context.source, start), 0)
        scope.depth = 1
        assert context.entity is not None
        text = "Self: %s" % context.entity.name
        scope.own.append(
            Statement(
                StatementKind.CONFORMANCE, TypeParameter(parameter), context.entity, context.source, start, start, text, Origin.CONTEXT
            )
        )
        return scope

    def _declare_parameters(self, context: Context, scope: Scope) -> None:
        parameters = context.declaration.parameters
        for index, written in enumerate(parameters):
            scope.declare(written.name, (context.source, written.start), index)
            scope.outside.pop(written.name, None)
            cause = Cause.PACK if written.is_pack else Cause.VALUE if written.is_value else None
            if cause is not None:
                scope.outside[written.name] = cause
                scope.own.append(self._outside_parameter(written, cause, context))
        if parameters:
            scope.depth += 1

    def _outside_parameter(self, written: ParameterSyntax, cause: Cause, context: Context) -> Statement:
        left = OtherType(written.name, cause)
        return Statement(
            StatementKind.OUTSIDE, left, None, context.source, written.start, written.start, written.name, Origin.OWN, cause
        )

    def _state_bounds(self, context: Context, scope: Scope) -> None:
        for written in context.declaration.parameters:
            if written.bound is not None and not written.is_value:
                left = scope.meaning(scope.names[written.name])
                text = "%s: %s" % (written.name, spelled(written.bound))
                scope.own += self.bounds.stated(left, self.bounds.of(written.bound, context, scope), context.source, text)

    def _state_target(self, context: Context, scope: Scope) -> None:
        """What an extended type says beside the type: `extension P<T>`, `extension S<Int>`, `extension [Int]`, or an alias of such a type."""
        target, entity = context.declaration.target, context.entity
        if target is None or entity is None:
            return
        if entity.is_protocol:
            subject = TypeParameter(scope.parameters[0])
            stated = self.bounds.stated(subject, self.bounds.of(target, context, scope), context.source, spelled(target))
            scope.own += [statement for statement in stated if statement.right is not entity]
            return
        found = self.types.found(target, context, scope) if isinstance(target, NamedType) and not target.steps[-1].arguments else None
        if isinstance(found, Found) and isinstance(found.member, Alias) and found.member.context.declaration.parameters:
            self._state_alias_target(found.member, context, scope)
        else:
            self._state_arguments(target, context, scope)

    def _state_arguments(self, target: Type, context: Context, scope: Scope) -> None:
        """The generic parameters of an extended type are its arguments."""
        meant = self.types.meaning(target, context, scope)
        if not isinstance(meant, NominalType) or meant.entity is not context.entity or meant.arguments is None:
            return
        written = target.steps[-1].arguments if isinstance(target, NamedType) else target.parts if isinstance(target, CompoundType) else ()
        starts = [target.start] * (len(meant.arguments) - len(written)) + [argument.start for argument in written]
        for parameter, argument, start in zip(scope.parameters, meant.arguments, starts):
            left = scope.meaning(parameter)
            if argument != left:
                text = "%s == %s" % (left, argument)
                scope.own.append(Statement(StatementKind.SAME_TYPE, left, argument, context.source, start, start, text, Origin.OWN))

    def _state_alias_target(self, alias: Alias, context: Context, scope: Scope) -> None:
        """Of an alias `typealias A<T> = S<T> where ..`, an extension of A has the requirements."""
        target = alias.context.declaration.target
        if target is None:
            return
        alias_scope = self.scope(alias.context)
        with Noting(self.types, None):
            meant = self.types.meaning(target, alias.context, alias_scope)
        if not isinstance(meant, NominalType) or not meant.arguments:
            return
        sides: Replacement = {}
        for argument, parameter in zip(meant.arguments, scope.parameters):
            if not isinstance(argument, TypeParameter) or argument.members:
                return
            sides[argument.parameter] = TypeParameter(parameter)
        start = context.declaration.start
        for statement in alias_scope.own:
            stated = self.types.replaced_statement(statement, sides)
            scope.own.append(replace(stated, source=context.source, start=start, clause=start, origin=Origin.INFERRED))

    def _tell_aliases(self, context: Context, scope: Scope) -> None:
        """Tells where members of one name meet in a type that conforms to several protocols. Then more is equal than is required here."""
        direct: Dict[TypeParameter, List[Entity]] = {}
        for statement in scope.statements if scope.own and self.hierarchy.names_of_aliases() else ():
            if isinstance(statement.left, TypeParameter) and isinstance(statement.right, Entity):
                direct.setdefault(statement.left, []).append(statement.right)
        start, source = context.declaration.start, context.source
        for subject, protocols in direct.items():
            if len(protocols) > 1:
                for meeting in self.hierarchy.meetings(protocols):
                    text = "%s.%s" % (subject, meeting.name)
                    scope.own.append(Statement(StatementKind.OUTSIDE, subject, None, source, start, start, text, Origin.INFERRED, Cause.ALIAS))

    def _look_at_types(self, context: Context, scope: Scope) -> None:
        """Looks at the types of a declaration for what they need."""
        declaration = context.declaration
        types = list(declaration.types)
        if declaration.target is not None:
            types.append(declaration.target)
        for written in types:
            self.types.meaning(written, context, scope)
        if declaration.thrown is not None:
            self.types.need_error(self.types.meaning(declaration.thrown, context, scope), context)

    def _infer(self, needs: Sequence[Statement], context: Context, scope: Scope) -> None:
        """States what the types of a declaration need, but for what is stated already or has no type parameter."""
        start = context.declaration.start
        known = {statement.same_as() for statement in scope.statements} if needs else set()
        waiting = list(reversed(needs))
        while waiting:
            statement = waiting.pop()
            if statement.cause is Cause.SUPPRESSED or not any(has_parameters(side) for side in statement.sides()):
                continue
            if statement.same_as() in known:
                continue
            known.add(statement.same_as())
            instead = self._of_conformance(statement) if len(known) < _MOST_NEEDS else None
            if instead is not None:
                waiting += reversed(instead)
                continue
            text = statement.text if isinstance(statement.left, OtherType) and statement.left.text == statement.text else ""
            scope.own.append(
                replace(statement, source=context.source, start=start, clause=start, text=text, origin=Origin.INFERRED, argument=False)
            )

    def _of_conformance(self, statement: Statement) -> Optional[List[Statement]]:
        """What is needed that a declared type conforms to a protocol, where it is declared to do so: the conditions of that."""
        left, right = statement.left, statement.right
        if statement.kind is not StatementKind.CONFORMANCE or not isinstance(left, NominalType) or not isinstance(right, Entity):
            return None
        declared = self.hierarchy.conformance(left.entity, right)
        if declared is None or left.arguments is None:
            return None
        if declared is left.entity.context:
            return []
        sides = self.types.outer_sides(left)
        return [self.types.replaced_statement(condition, sides) for condition in self.scope(declared).own]
