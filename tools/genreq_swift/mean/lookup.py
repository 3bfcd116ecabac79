"""What the names in Swift sources refer to: the types, protocols and aliases that the sources declare."""
from typing import Dict, FrozenSet, Iterator, List, Optional, Sequence, Set, Tuple

from ..read.conditions import DARWIN_MODULES, LINUX_MODULES
from .contexts import Alias, Context, Entity, Member
from ..read.declarations import DeclarationSyntax
from ..read.model import DeclarationKind
from ..read.tokens import Source
from ..read.type_syntax import CompoundType, NamedType, Shape, Type

_NOMINAL = frozenset(
    (DeclarationKind.STRUCT, DeclarationKind.CLASS, DeclarationKind.ENUM, DeclarationKind.ACTOR, DeclarationKind.PROTOCOL)
)
_KNOWN_MODULES: FrozenSet[str] = LINUX_MODULES | DARWIN_MODULES | {"Builtin", "SwiftShims"}
_IMPLICIT = ("Swift", "_Concurrency", "_StringProcessing")  # the modules that every source imports
_DEEPEST_ALIAS = 10


class Names:
    """All names of the sources."""

    def __init__(self, files: Sequence[Tuple[Source, Sequence[DeclarationSyntax]]]):
        self.roots: List[List[Context]] = []
        self.protocols: List[Entity] = []
        self.associated: Set[str] = set()  # the names of all associated types
        self.aliases_in_protocols: Dict[str, List[Alias]] = {}
        self._everywhere: Dict[str, Member] = {}
        self._by_module: Dict[str, Dict[str, Member]] = {}
        self._by_file: Dict[str, Dict[str, Member]] = {}
        self._seen: Dict[str, List[Dict[str, Member]]] = {}
        self._unbound: List[Context] = []
        for source, declarations in files:
            contexts = [Context(declaration, source, None) for declaration in declarations]
            self.roots.append(contexts)
            for context in contexts:
                self._declare(context, None)
        self._bind_extensions()

    # Collecting.

    def _declare(self, context: Context, outer: Optional[Entity]) -> None:
        """Takes up what a declaration in a type or protocol, or at the top, declares."""
        kind = context.kind
        if kind in _NOMINAL:
            self._declare_nominal(context, outer)
        elif kind is DeclarationKind.TYPEALIAS:
            alias = Alias(context, outer)
            self._register(context, outer, alias)
            if outer is not None and outer.is_protocol:
                self.aliases_in_protocols.setdefault(context.declaration.name, []).append(alias)
        elif kind is DeclarationKind.ASSOCIATED_TYPE and outer is not None:
            outer.associated.add(context.declaration.name)
            self.associated.add(context.declaration.name)
        elif kind is DeclarationKind.EXTENSION:
            self._unbound.append(context)

    def _declare_nominal(self, context: Context, outer: Optional[Entity]) -> None:
        entity = Entity(context, outer)
        context.entity = entity
        twin = self._by_module.get(context.source.module, {}).get(context.declaration.name) if outer is None else None
        if isinstance(twin, Entity) and not context.declaration.is_private:
            entity.share(twin)  # a module may have a type in two files of which one configuration has one
        if entity.is_protocol:
            self.protocols.append(entity)
        self._register(context, outer, entity)
        for member in context.members:
            self._declare(member, entity)

    def _register(self, context: Context, outer: Optional[Entity], member: Member) -> None:
        name, source = context.declaration.name, context.source
        if outer is not None:
            outer.members.setdefault(name, member)
            return
        if not context.declaration.is_private:
            self._everywhere.setdefault(name, member)
            self._by_module.setdefault(source.module, {}).setdefault(name, member)
        self._by_file.setdefault(source.file, {}).setdefault(name, member)

    def _bind_extensions(self) -> None:
        """Finds what each extension extends. One may extend what another one declares, so this goes on while there is something found."""
        waiting, self._unbound = self._unbound, []
        while waiting:
            left = []
            for context in waiting:
                entity = self._extended(context)
                if entity is None:
                    left.append(context)
                    continue
                context.entity = entity
                entity.extensions.append(context)
                for member in context.members:
                    self._declare(member, entity)
            left += self._unbound
            self._unbound = []
            if len(left) >= len(waiting):
                return
            waiting = left

    def _extended(self, context: Context) -> Optional[Entity]:
        target = context.declaration.target
        shape = {Shape.ARRAY: "Array", Shape.DICTIONARY: "Dictionary", Shape.OPTIONAL: "Optional"}
        if isinstance(target, CompoundType) and target.shape in shape:
            found = self.top(shape[target.shape], context.source)
        else:
            found = self.referred(target, context) if target is not None else None
        return found if isinstance(found, Entity) else None

    # Looking up.

    def top(self, name: str, source: Source) -> Optional[Member]:
        """What a name at the top means in a source: what its file declares, or its module, or one that it imports, or any other."""
        for names in self._seen_from(source):
            if name in names:
                return names[name]
        return None

    def _seen_from(self, source: Source) -> List[Dict[str, Member]]:
        """The names that a source sees, nearest first."""
        known = self._seen.get(source.file)
        if known is None:
            modules = (source.module, *source.imports, *_IMPLICIT)
            nearest = [self._by_file.get(source.file), *(self._by_module.get(module) for module in modules), self._everywhere]
            known = self._seen[source.file] = [names for names in nearest if names]
        return known

    def is_module(self, name: str) -> bool:
        """Whether a name is that of a module."""
        return name in self._by_module or name in _KNOWN_MODULES

    def in_module(self, module: str, name: str, source: Source) -> Optional[Member]:
        """What a name means with that of a module before it. Modules also tell what they import, so it may be declared in another."""
        return self._by_module.get(module, {}).get(name) or self.top(name, source)

    def referred(self, written: Type, context: Context, depth: int = 0) -> Optional[Member]:
        """The type or protocol to which a name refers, as seen from around a declaration, with all aliases followed."""
        if isinstance(written, CompoundType) and written.shape in (Shape.TUPLE, Shape.EXISTENTIAL) and len(written.parts) == 1:
            return self.referred(written.parts[0], context, depth)
        if not isinstance(written, NamedType) or depth > _DEEPEST_ALIAS:
            return None
        steps = [step.name for step in written.steps]
        found = self._first(steps[0], context)
        if len(steps) > 1 and self.is_module(steps[0]) and not (isinstance(found, Entity) and steps[1] in found.members):
            found = self.in_module(steps[0], steps[1], context.source)
            steps = steps[1:]
        for name in steps[1:]:
            found = self.behind_aliases(found, depth)
            found = found.members.get(name) if isinstance(found, Entity) else None
        return self.behind_aliases(found, depth)

    def _first(self, name: str, context: Context) -> Optional[Member]:
        """What a name means around a declaration, where members that a protocol inherits are not looked at."""
        parent = context.parent
        if parent is not None:
            for around in parent.around():
                assert around.entity is not None
                if name in around.entity.members:
                    return around.entity.members[name]
        return self.top(name, context.source)

    def behind_aliases(self, member: Optional[Member], depth: int = 0) -> Optional[Member]:
        """What an alias refers to in the end, where that is a type or a protocol; or the alias."""
        if isinstance(member, Alias) and member.context.declaration.target is not None:
            return self.referred(member.context.declaration.target, member.context, depth + 1) or member
        return member

    def bounds(self, written: Type, context: Context, seen: Optional[Set[Alias]] = None) -> Iterator[Entity]:
        """The types and protocols in a bound. The aliases in `seen` were looked at."""
        seen = set() if seen is None else seen
        if isinstance(written, CompoundType) and written.shape in (Shape.COMPOSITION, Shape.TUPLE, Shape.EXISTENTIAL, Shape.OPAQUE):
            for part in written.parts:
                yield from self.bounds(part, context, seen)
            return
        found = self.referred(written, context)
        if isinstance(found, Entity):
            yield found
        elif isinstance(found, Alias) and found not in seen and found.context.declaration.target is not None:
            seen.add(found)
            yield from self.bounds(found.context.declaration.target, found.context, seen)
