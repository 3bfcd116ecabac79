"""What names mean where a declaration stands, for those that ask in it."""
from typing import Dict, List, Mapping, Sequence

from ..read.declarations import DeclarationSyntax
from ..read.model import Declaration, DeclarationKind, NotSeen, Place, Protocol
from ..read.type_syntax import NamedType, Step
from .contexts import Alias, Context, Entity
from .lookup import Names


class Seen:
    """Looks protocols up as the compiler does: what is declared nearer, in the file, in the module or in what is imported hides the rest."""

    def __init__(self, names: Names, contexts: Mapping[Place, Context], protocols: Mapping[Entity, Protocol]):
        self.names = names
        self.contexts = contexts
        self.protocols = protocols
        self._by_name: Dict[str, List[Protocol]] = {}
        for protocol in protocols.values():
            self._by_name.setdefault(protocol.name, []).append(protocol)

    def protocol(self, name: str, declaration: Declaration) -> Protocol:
        """The protocol that a name means in a declaration, or else the only one of that name. NotSeen where there is none."""
        written = NamedType(tuple(Step(step.strip(), (), 0) for step in name.split(".")), 0)
        inside = _inside(self.contexts[declaration.place])
        meant = self.names.referred(written, inside)
        if isinstance(meant, Entity) and meant in self.protocols:
            return self.protocols[meant]
        if isinstance(meant, Alias):
            protocols = [entity.name for entity in self.names.bounds(written, inside)]
            if protocols:
                raise NotSeen("%s is an alias of %s: ask of each" % (name, " & ".join(protocols)))
        if meant is not None:
            raise NotSeen("%s is no protocol" % name)
        return self._only(name)

    def _only(self, name: str) -> Protocol:
        """The only protocol of a name, wherever it stands."""
        found: Sequence[Protocol] = self._by_name.get(name, ())
        if len(found) > 1:
            raise NotSeen("several protocols are named %s, and none is seen there: %s" % (name, ", ".join(str(one.place) for one in found)))
        if not found:
            raise NotSeen("no protocol is named %s" % name)
        return found[0]


def _inside(context: Context) -> Context:
    """A place in a declaration, from which what is declared in it is seen."""
    return Context(DeclarationSyntax(DeclarationKind.TYPEALIAS, "", context.declaration.start), context.source, context)
