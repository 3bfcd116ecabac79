"""How declarations become protocols and signatures."""
from dataclasses import dataclass, replace
import re
from typing import Dict, Iterable, Iterator, List, Optional, Sequence, Set, Tuple

from .concrete import StandIns
from .contexts import Context, Entity
from ..read.declarations import DeclarationSyntax
from .hierarchy import Hierarchy
from .lookup import Names
from .parameters import Scope
from .statements import Statement, StatementKind
from ..read.model import (
    AssociatedType,
    Counts,
    DeclarationKind,
    GenericParameter,
    Omission,
    Origin,
    Place,
    Problem,
    Protocol,
    Requirement,
    Signature,
    TypeParameter,
    label_of,
)
from .profile import Profile
from .scopes import Scopes
from ..read.tokens import Source

_WITH_SIGNATURE = frozenset(
    (
        DeclarationKind.FUNCTION,
        DeclarationKind.INITIALISER,
        DeclarationKind.SUBSCRIPT,
        DeclarationKind.TYPEALIAS,
        DeclarationKind.STRUCT,
        DeclarationKind.CLASS,
        DeclarationKind.ENUM,
        DeclarationKind.ACTOR,
        DeclarationKind.EXTENSION,
    )
)


@dataclass
class _Tally:
    not_generic: int = 0
    as_around: int = 0
    of_unknown_types: int = 0


class _ProtocolSplit:
    """Splits what a protocol states, and collects its omissions. In a text for genreq the `Self` of a protocol is `Self`."""

    def __init__(self, profile: Profile, parameter: GenericParameter):
        self.profile = profile
        self.parameter = replace(parameter, label="Self")
        self.omissions: List[Omission] = []

    def kept(self, statements: Sequence[Statement]) -> Tuple[Requirement, ...]:
        """The requirements among statements."""
        requirements, omissions = self.profile.split(statements)
        self.omissions += omissions
        return tuple(
            replace(requirement, subject=self._own(requirement.subject), other=requirement.other and self._own(requirement.other))
            for requirement in requirements
        )

    def _own(self, one: TypeParameter) -> TypeParameter:
        return TypeParameter(self.parameter, one.members)


class SignatureMaker:
    """Makes the protocols and signatures of sources that are read."""

    def __init__(self, files: Sequence[Tuple[Source, Sequence[DeclarationSyntax]]], concrete: bool = False):
        self.concrete = concrete
        self.names = Names(files)
        self.hierarchy = Hierarchy(self.names)
        self.scopes = Scopes(self.hierarchy)
        self.profile = Profile(_labels(self.names.protocols))
        self.problems: List[Problem] = []
        self.contexts: Dict[Place, Context] = {}  # by the places of the protocols and signatures that were made
        self.made: Dict[Entity, Protocol] = {}
        self._around: Dict[Context, Tuple[List[Requirement], List[Omission]]] = {}
        self._tally = _Tally()
        self._number = 0

    def counts(self, files: int) -> Counts:
        """How many declarations stand in no list."""
        tally = self._tally
        return Counts(files, tally.not_generic, tally.as_around, tally.of_unknown_types)

    # Protocols.

    def protocols(self) -> Iterator[Protocol]:
        """All protocols."""
        for entity in self.names.protocols:
            try:
                made = self.made[entity] = self._protocol(entity)
                self.contexts[made.place] = entity.context
                yield made
            except RecursionError:
                place = entity.context.source.place(entity.context.declaration.start)
                self.problems.append(Problem("protocol %s is nested too deeply" % entity.name, place))

    def _protocol(self, entity: Entity) -> Protocol:
        context = entity.context
        declaration, source = context.declaration, context.source
        scope = self.scopes.scope(context)
        self.scopes.types.viewpoint = context
        subject = TypeParameter(scope.parameters[0])
        split = _ProtocolSplit(self.profile, scope.parameters[0])
        inherited = split.kept(self._inherited(declaration, subject, context, scope))
        conditions = split.kept(self._conditions(declaration, context, scope) + self._alias_equations(entity, subject))
        members: Dict[str, AssociatedType] = {}
        for member in context.members:
            name = member.declaration.name
            if member.kind is DeclarationKind.ASSOCIATED_TYPE and name not in members:
                stated = self._inherited(member.declaration, subject.member(name), context, scope)
                stated += self._conditions(member.declaration, context, scope)
                members[name] = AssociatedType(name, source.place(member.declaration.start), split.kept(stated))
        known = {name for protocol in self.hierarchy.inherited(entity) for name in protocol.associated}
        return Protocol(
            entity.name,
            self.profile.labels[entity],
            source.module,
            source.place(declaration.start),
            source.line(max(declaration.start, declaration.end - 1)),
            split.parameter,
            tuple(name for name in dict.fromkeys(declaration.primaries) if name in known),
            inherited,
            conditions,
            tuple(members.values()),
            tuple(split.omissions),
        )

    def _conditions(self, declaration: DeclarationSyntax, context: Context, scope: Scope) -> List[Statement]:
        """What a where clause states."""
        return [statement for condition in declaration.conditions for statement in self.scopes.bounds.condition(condition, context, scope)]

    def _inherited(self, declaration: DeclarationSyntax, subject: TypeParameter, context: Context, scope: Scope) -> List[Statement]:
        """What an inheritance clause states."""
        return [
            statement
            for inherited in declaration.inherited
            for statement in self.scopes.bounds.stated(
                subject,
                self.scopes.bounds.of(inherited.bound, context, scope),
                context.source,
                "%s: %s" % (subject, context.source.written(inherited.start, inherited.end)),
            )
        ]

    def _alias_equations(self, entity: Entity, subject: TypeParameter) -> List[Statement]:
        """An alias of a protocol is equal to the associated types and aliases of its name of the protocols that inherit it, or that it inherits."""
        source, start = entity.context.source, entity.context.declaration.start
        return [
            Statement(StatementKind.SAME_TYPE, left, right, source, start, start, "%s == %s" % (left, right), Origin.INFERRED)
            for meeting in self.hierarchy.meetings_in(entity)
            for left, right in self.scopes.types.equated(subject, meeting)
        ]

    # Signatures.

    def signatures(self, contexts: Sequence[Context]) -> Iterator[Signature]:
        """The signatures of declarations and of all that is declared in them, in written order."""
        for context in contexts:
            if context.kind is DeclarationKind.EXTENSION and context.entity is None:
                self._tally.of_unknown_types += 1
                continue
            if context.kind in _WITH_SIGNATURE:
                try:
                    signature = self._signature(context)
                except RecursionError:
                    place = context.source.place(context.declaration.start)
                    self.problems.append(Problem("the declaration is nested too deeply", place))
                    signature = None
                if signature is not None:
                    self.contexts[signature.place] = context
                    yield signature
            if context.members:
                yield from self.signatures(context.members)

    def _signature(self, context: Context) -> Optional[Signature]:
        if not self.scopes.scope(context).parameters:
            self._tally.not_generic += 1
            return None
        declaration, source = context.declaration, context.source
        scope = self.scopes.scope(context)
        if not (declaration.parameters or declaration.conditions or scope.own):
            self._tally.as_around += 1
            return None
        parameters = tuple(scope.parameters)
        if self.concrete:
            parameters, requirements, omissions = self._with_stand_ins(scope)
        else:
            around, around_out = self._split_around(context)
            own, own_out = self.profile.split(scope.own)
            requirements, omissions = around + own, around_out + own_out
        self._number += 1
        return Signature(
            _name(context),
            "%s_%d" % (_word(context), self._number),
            context.kind,
            source.place(declaration.start),
            source.line(max(declaration.start, declaration.end - 1)),
            parameters,
            tuple(requirements),
            tuple(omissions),
            self._referred(context),
        )

    def _referred(self, context: Context) -> str:
        """The own name of the type to which an alias refers."""
        declaration = context.declaration
        if context.kind is not DeclarationKind.TYPEALIAS or declaration.target is None:
            return ""
        meant = self.names.referred(declaration.target, context)
        return meant.name if isinstance(meant, Entity) else ""

    def _with_stand_ins(self, scope: Scope) -> Tuple[Tuple[GenericParameter, ...], List[Requirement], List[Omission]]:
        """The parameters of a scope and those for concrete types, with what is required of all of them."""
        stand_ins = StandIns(self.hierarchy, scope.statements, scope.parameters, scope.depth)
        requirements, omissions = self.profile.split(stand_ins.replaced(scope.around), Origin.CONTEXT)
        own, own_out = self.profile.split(stand_ins.replaced(scope.own))
        more, _ = self.profile.split(list(stand_ins.conformances()))
        return (*scope.parameters, *stand_ins.parameters.values()), requirements + own + more, omissions + own_out

    def _split_around(self, context: Context) -> Tuple[List[Requirement], List[Omission]]:
        """The requirements and omissions of what is around a declaration."""
        around = context.entity.context if context.kind is DeclarationKind.EXTENSION and context.entity is not None else context.parent
        if around is None:
            return [], []
        known = self._around.get(around)
        if known is None:
            known = self._around[around] = self.profile.split(self.scopes.scope(around).statements, Origin.CONTEXT)
        return known


def _name(context: Context) -> str:
    """The name of a declaration after those around it."""
    if context.entity is not None:
        return context.entity.name
    if context.parent is not None:
        return "%s.%s" % (_name(context.parent), context.declaration.name)
    return context.declaration.name


def _word(context: Context) -> str:
    """The word that the label of a declaration begins with."""
    if context.kind is DeclarationKind.EXTENSION and context.entity is not None:
        return "extension_" + _label("_".join(context.entity.path))
    return _label(context.declaration.name)


def _label(name: str) -> str:
    return label_of(name) if re.search(r"\w", name) else "operator"


def _labels(protocols: Sequence[Entity]) -> Dict[Entity, str]:
    """A label for each protocol, made of its path."""
    labels: Dict[Entity, str] = {}
    taken: Set[str] = set()
    for entity in protocols:
        first = label = label_of("_".join(entity.path))
        number = 1
        while label in taken:
            number += 1
            label = "%s_%d" % (first, number)
        taken.add(label)
        labels[entity] = label
    return labels


def needs_of(protocols: Sequence[Protocol]) -> Dict[str, Set[str]]:
    """The labels of the protocols that each protocol needs, itself among them, by its label."""
    direct = {
        protocol.label: {requirement.protocol.label for requirement in protocol.requirements if requirement.protocol is not None}
        for protocol in protocols
    }
    needs: Dict[str, Set[str]] = {}
    for label in direct:
        needs[label] = found = {label}
        waiting = [label]
        while waiting:
            more = direct.get(waiting.pop(), set()) - found
            found |= more
            waiting += more
    return needs


def needed_protocols(protocols: Sequence[Protocol], always: Iterable[str], signatures: Sequence[Signature]) -> Tuple[Protocol, ...]:
    """Of all protocols those with the given labels, and what they and the signatures need, in order."""
    needs = needs_of(protocols)
    found: Set[str] = set().union(*(needs[label] for label in always))
    for signature in signatures:
        for requirement in signature.requirements:
            if requirement.protocol is not None and requirement.protocol.label not in found:
                found |= needs[requirement.protocol.label]
    return tuple(protocol for protocol in protocols if protocol.label in found)
