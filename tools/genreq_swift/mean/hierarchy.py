"""Which types and protocols inherit and conform to which, and what they have of them."""
from dataclasses import dataclass
from typing import Dict, Iterator, List, Optional, Sequence, Set, Tuple

from .contexts import Alias, Context, Entity
from ..read.model import DeclarationKind
from .lookup import Names
from ..read.type_syntax import NamedType, Type


@dataclass(frozen=True)
class Meeting:
    """Members of one name in several protocols: whether one is an associated type, and those that are aliases."""

    name: str
    is_declared: bool
    aliases: Tuple[Alias, ...]


class Hierarchy:
    """How what the names of sources refer to inherits and conforms."""

    def __init__(self, names: Names):
        self.names = names
        self._inherited: Dict[Entity, Dict[Entity, None]] = {}
        self._aliases: Dict[Entity, Dict[str, Alias]] = {}
        self._names_of_aliases: Optional[List[str]] = None

    def inherited(self, protocol: Entity) -> Dict[Entity, None]:
        """A protocol and those that it inherits, in order."""
        known = self._inherited.get(protocol)
        if known is None:
            known = self._inherited[protocol] = {}
            waiting = [protocol]
            while waiting:
                entity = waiting.pop(0)
                if entity not in known:
                    known[entity] = None
                    waiting += [bound for bound in self._inherits(entity.context) if bound.is_protocol]
        return known

    def _inherits(self, context: Context) -> Iterator[Entity]:
        """What a protocol, or an extension of one, says that `Self` is."""
        for inherited in context.declaration.inherited:
            yield from self.names.bounds(inherited.bound, context)
        for declaration in (context.declaration,) + context.declaration.members:
            if declaration is context.declaration or declaration.kind is DeclarationKind.ASSOCIATED_TYPE:
                for condition in declaration.conditions:
                    if not condition.is_equation and _is_self(condition.left):
                        yield from self.names.bounds(condition.right, context)

    def protocols_around(self, context: Context) -> Dict[Entity, None]:
        """The protocols to which `Self` conforms in a protocol, or in an extension of one."""
        assert context.entity is not None
        known = self.inherited(context.entity)
        if context.kind is DeclarationKind.EXTENSION and context.declaration.conditions:
            known = dict(known)
            for bound in self._inherits(context):
                if bound.is_protocol:
                    known.update(self.inherited(bound))
        return known

    def conformance(self, entity: Entity, protocol: Entity) -> Optional[Context]:
        """The declaration that says that a type conforms to a protocol: the type or an extension of it, or one that says more without a condition."""
        for context in [entity.context] + entity.extensions:
            if protocol in self._conforms(context):
                return context
        for context in [entity.context] + entity.extensions:
            if context is entity.context or not context.declaration.conditions:
                if any(protocol in self.inherited(bound) for bound in self._conforms(context)):
                    return context
        return None

    def aliases_of_protocols(self, entity: Entity) -> Dict[str, Alias]:
        """The aliases that a type has of the protocols to which it is declared to conform, by name."""
        known = self._aliases.get(entity)
        if known is None:
            known = self._aliases[entity] = {}
            for context in [entity.context] + entity.extensions:
                for bound in self._conforms(context):
                    for protocol in self.inherited(bound):
                        for name, member in protocol.members.items():
                            if isinstance(member, Alias):
                                known.setdefault(name, member)
        return known

    def names_of_aliases(self) -> List[str]:
        """The names that a protocol has for an alias of its own, and another one for an associated type or for an alias of its own."""
        if self._names_of_aliases is None:
            own = {name: [alias for alias in aliases if alias.equates] for name, aliases in self.names.aliases_in_protocols.items()}
            self._names_of_aliases = [name for name, aliases in own.items() if len(aliases) > 1 or (aliases and name in self.names.associated)]
        return self._names_of_aliases

    def meetings_in(self, protocol: Entity) -> "Iterator[Meeting]":
        """The members of one name that meet in a protocol, and not in one that it inherits."""
        parents = [bound for bound in self._inherits(protocol.context) if bound.is_protocol]
        return self._meetings([self.inherited(parent) for parent in parents if parent is not protocol] + [{protocol: None}])

    def meetings(self, protocols: Sequence[Entity]) -> "Iterator[Meeting]":
        """The members of one name that meet where a type conforms to all of several protocols, and not in one of these alone."""
        return self._meetings([self.inherited(protocol) for protocol in protocols])

    def _meetings(self, parts: Sequence[Dict[Entity, None]]) -> "Iterator[Meeting]":
        known = {entity: None for part in parts for entity in part}
        for name in self.names_of_aliases():
            aliases = {}
            for entity in known:
                member = entity.members.get(name)
                if isinstance(member, Alias) and member.equates:
                    aliases[entity] = member
            declaring = [entity for entity in known if name in entity.associated]
            places = {**dict.fromkeys(declaring), **dict.fromkeys(aliases)}
            if aliases and len(places) > 1 and not any(all(place in part for place in places) for part in parts):
                yield Meeting(name, bool(declaring), tuple(aliases.values()))

    def declared_conformances(self, entity: Entity) -> Dict[Entity, None]:
        """The protocols to which a type, or a superclass of it, is declared to conform without a condition."""
        found: Dict[Entity, None] = {}
        seen: Set[Entity] = set()
        current: Optional[Entity] = entity
        while current is not None and current not in seen:
            seen.add(current)
            for context in [current.context] + current.extensions:
                if context is current.context or not context.declaration.conditions:
                    found.update((protocol, None) for protocol in self._conforms(context))
            superclass = self.superclass(current)
            current = superclass[0] if superclass is not None else None
        return found

    def _conforms(self, context: Context) -> List[Entity]:
        """The protocols in the inheritance clause of a type or of an extension."""
        return [
            bound
            for inherited in context.declaration.inherited
            for bound in self.names.bounds(inherited.bound, context)
            if bound.is_protocol
        ]

    def superclass(self, entity: Entity) -> Optional[Tuple[Entity, Type]]:
        """The class that a class inherits, and how that is written."""
        if entity.is_class:
            for inherited in entity.context.declaration.inherited:
                found = self.names.referred(inherited.bound, entity.context)
                if isinstance(found, Entity) and found.is_class:
                    return found, inherited.bound
        return None


def _is_self(written: Type) -> bool:
    return isinstance(written, NamedType) and len(written.steps) == 1 and written.steps[0].name == "Self"
