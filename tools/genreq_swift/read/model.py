"""What reading Swift sources gives: their protocols and their generic signatures, each with its place.

All values are frozen. What a user of this module may rely on:

- Own names are the names as the sources have them. Labels are the words that stand for them in a text for genreq, where a name may be
  reserved, may hold characters that genreq refuses, or may stand twice. Labels of protocols and of signatures are unique in a reading, those
  of generic parameters in their signature. A label of a member depends on its name alone (`label_of`).
- `str(..)` of a type parameter or a requirement has own names, `labelled` has labels.
- The requirements of a signature are those of the declarations around it first, outermost first, then its own in written order, then the
  inferred ones, then those of concrete types. One that is written twice stands twice.
- Whatever was written and is no requirement here is an omission. Without omissions in it and in the protocols that it reaches a signature or a
  protocol is whole.
"""
from dataclasses import dataclass, field
from enum import Enum
import re
from typing import Callable, FrozenSet, Optional, Tuple, Union

RESERVED = frozenset(
    """protocol associatedtype func where Self AnyObject public internal fileprivate private class struct enum actor extension typealias import
    var let init subscript static mutating some any Any each repeat Type Protocol async throws rethrows""".split()
)
RESERVED_LIKE = re.compile("(?:%s|_)_*" % "|".join(sorted(RESERVED, key=len, reverse=True)))


def label_of(name: str) -> str:
    """The word that stands for a name in a text for genreq. Different names have different words."""
    if name.isascii() and name.isidentifier():
        word = name
    else:
        word = "".join(char if ("a" + char).isidentifier() else "_u%X_" % ord(char) for char in name)
    if not word or word[0].isdigit():
        word = "_" + word
    return word + "_" if RESERVED_LIKE.fullmatch(word) else word


def on_one_line(path: str) -> str:
    """A path as it is told, where it has line breaks."""
    return path.replace("\n", "\\n").replace("\r", "\\r")


@dataclass(frozen=True, order=True)
class Place:
    """A place in a source: the file as it was named, the line and the column, each from 1. Columns count bytes, as the compiler does."""

    file: str
    line: int
    column: int

    def __str__(self) -> str:
        return "%s:%d:%d" % (on_one_line(self.file), self.line, self.column)


@dataclass(frozen=True)
class GenericParameter:
    """A generic parameter of a signature.

    `name` is its own name: `Self` in a protocol and its extensions, `some_1` and so on for those that stand for `some P`. In a protocol the
    label of `Self` is `Self`, and in a signature a name. `depth` and `index` are those of the compiler, so that it prints τ_depth_index.
    `place` is where it is declared. One that stands for a concrete type (`--concrete`) comes after the others, with the type's name.
    """

    name: str
    label: str
    depth: int
    index: int
    place: Place = field(compare=False)
    is_concrete: bool = False


@dataclass(frozen=True)
class TypeParameter:
    """A generic parameter and the names of the members that are taken of it, one after the other."""

    parameter: GenericParameter
    members: Tuple[str, ...] = ()

    def member(self, name: str) -> "TypeParameter":
        """Its member of this name."""
        return TypeParameter(self.parameter, self.members + (name,))

    def __str__(self) -> str:
        return ".".join((self.parameter.name,) + self.members)

    @property
    def labelled(self) -> str:
        """The type parameter as it stands in a text for genreq."""
        return ".".join((self.parameter.label,) + tuple(label_of(member) for member in self.members))


class RequirementKind(Enum):
    """What a requirement requires."""

    CONFORMANCE = "conformance"
    LAYOUT = "layout"
    SAME_TYPE = "same-type"


class Origin(Enum):
    """Where a requirement of a signature comes from."""

    OWN = "own"  # the declaration itself writes it
    CONTEXT = "context"  # it belongs to a declaration around it
    INFERRED = "inferred"  # a type in the declaration needs it, as `Set<T>` needs `T: Hashable`
    CONCRETE = "concrete"  # the sources declare it of a concrete type that stands as a parameter


@dataclass(frozen=True)
class ProtocolName:
    """A protocol: its own name, with dots where it is nested, and its label."""

    name: str
    label: str


@dataclass(frozen=True)
class Requirement:
    """A requirement between type parameters.

    - CONFORMANCE: `subject : protocol`
    - LAYOUT: `subject : AnyObject`
    - SAME_TYPE: `subject == other`, sides as written

    `place` is that of what is required: of the protocol in `T: P & Q`, of the left side of an equation. `clause` is the place of what would
    have to be taken out with it: `T: P<U>` is a conformance and an equation with one clause, whose equations are `argument`s.
    """

    kind: RequirementKind
    subject: TypeParameter
    protocol: Optional[ProtocolName]
    other: Optional[TypeParameter]
    place: Place
    clause: Place
    origin: Origin
    argument: bool = False

    def __str__(self) -> str:
        if self.kind is RequirementKind.SAME_TYPE:
            return "%s == %s" % (self.subject, self.other)
        return "%s : %s" % (self.subject, self.protocol.name if self.protocol else "AnyObject")

    @property
    def labelled(self) -> str:
        """The requirement as it stands in a where clause of a text for genreq, and in a query."""
        if self.kind is RequirementKind.SAME_TYPE and self.other is not None:
            return "%s == %s" % (self.subject.labelled, self.other.labelled)
        return "%s : %s" % (self.subject.labelled, self.protocol.label if self.protocol else "AnyObject")


class Cause(Enum):
    """Why something that was written is no requirement here. The value is how it is told."""

    SUPPRESSED = "~Copyable"  # also ~Escapable, and Copyable and Escapable written out
    CONCRETE = "concrete type"
    SUPERCLASS = "superclass"
    PACK = "parameter pack"
    VALUE = "integer parameter"
    UNKNOWN = "unknown name"  # a name that no source declares
    ALIAS = "alias that meets a member"  # aliases of protocols and associated types of one name are equal in a type that has them
    BOUND = "bound that is no protocol"


@dataclass(frozen=True)
class Omission:
    """Something that was written, or inferred, and that genreq's language lacks.

    `text` is how it was written, `clause` the place of what would have to be taken out with it, as of a requirement.
    """

    cause: Cause
    text: str
    place: Place
    clause: Place
    origin: Origin


class Status(Enum):
    """How much of a declaration is there. The value is how it is told."""

    WHOLE = "whole"
    WITHOUT_SUPPRESSED = "without ~Copyable"
    WITH_CONCRETE = "with parameters for concrete types"
    OVER_INCOMPLETE = "over incomplete protocols"  # it is none of that by itself, and reaches a protocol that is
    INCOMPLETE = "incomplete"


def status_of(omissions: Tuple[Omission, ...], parameters: Tuple[GenericParameter, ...]) -> Status:
    """The last status that has a cause among these, or WHOLE. Whether it is OVER_INCOMPLETE depends on the protocols."""
    if any(omission.cause is not Cause.SUPPRESSED for omission in omissions):
        return Status.INCOMPLETE
    if any(parameter.is_concrete for parameter in parameters):
        return Status.WITH_CONCRETE
    return Status.WITHOUT_SUPPRESSED if omissions else Status.WHOLE


class DeclarationKind(Enum):
    """The word that declares."""

    FUNCTION = "func"
    INITIALISER = "init"
    SUBSCRIPT = "subscript"
    STRUCT = "struct"
    CLASS = "class"
    ENUM = "enum"
    ACTOR = "actor"
    EXTENSION = "extension"
    TYPEALIAS = "typealias"
    PROTOCOL = "protocol"
    ASSOCIATED_TYPE = "associatedtype"


@dataclass(frozen=True)
class Signature:
    """The generic signature of a declaration that has generic parameters or a where clause of its own.

    `name` is its own name after those around it, as `Sequence.map`; that of an extension is what it extends. `place` is that of its own
    name, or of the word `init` or `subscript`, or of the extended type. `last_line` is the line on which the declaration ends.
    `parameters` has those of the declarations around it first. `refers_to` is the own name of the type to which an alias refers.
    """

    name: str
    label: str
    kind: DeclarationKind
    place: Place
    last_line: int
    parameters: Tuple[GenericParameter, ...]
    requirements: Tuple[Requirement, ...]
    omissions: Tuple[Omission, ...]
    refers_to: str = ""

    @property
    def own_status(self) -> Status:
        """How much of it is there, whatever is there of the protocols that it reaches."""
        return status_of(self.omissions, self.parameters)


@dataclass(frozen=True)
class AssociatedType:
    """An associated type as a protocol declares it, with what is written at it."""

    name: str
    place: Place
    requirements: Tuple[Requirement, ...]


@dataclass(frozen=True)
class Protocol:
    """A protocol.

    `module` is the name of the module in which it is declared. Its only generic parameter is `Self`. `inherited` are the requirements of its
    inheritance clause, `conditions` those of its where clause; each associated type has its own.
    """

    name: str
    label: str
    module: str
    place: Place
    last_line: int
    self_parameter: GenericParameter
    primaries: Tuple[str, ...]
    inherited: Tuple[Requirement, ...]
    conditions: Tuple[Requirement, ...]
    associated_types: Tuple[AssociatedType, ...]
    omissions: Tuple[Omission, ...]

    @property
    def requirements(self) -> Tuple[Requirement, ...]:
        """All of them, in the order in which they stand in the text for genreq."""
        own = tuple(requirement for member in self.associated_types for requirement in member.requirements)
        return self.inherited + self.conditions + own

    @property
    def parameters(self) -> Tuple[GenericParameter, ...]:
        """Its generic parameters."""
        return (self.self_parameter,)

    @property
    def own_status(self) -> Status:
        """How much of it is there, whatever is there of the protocols that it reaches."""
        return status_of(self.omissions, self.parameters)


Declaration = Union[Protocol, Signature]


class NotSeen(Exception):
    """A name means no protocol where it is asked."""


def _nothing_seen(name: str, _: Declaration) -> Protocol:
    raise NotSeen("no protocol is named %s" % name)


@dataclass(frozen=True)
class Problem:
    """Something that could not be read, told as one line. It has a place, or speaks of a file or folder as a whole."""

    message: str
    place: Optional[Place] = None
    file: str = ""

    def __str__(self) -> str:
        where = str(self.place) if self.place else on_one_line(self.file)
        return "%s: error: %s" % (where, self.message) if where else self.message


@dataclass(frozen=True)
class Counts:
    """How many files were read, and what the declarations are that stand in no list of the reading."""

    files: int = 0
    not_generic: int = 0  # neither they nor anything around them has generic parameters
    as_around: int = 0  # with just the signature of what is around them
    of_unknown_types: int = 0  # extensions of types that no source declares


@dataclass(frozen=True)
class Reading:
    """All that was read.

    `protocols` are those of the named sources, and of those beside (`--with`) what these need, `all_protocols` all that were read. `own_labels`
    are the labels of those of the named sources. `signatures` are those of the named sources alone, by file in the order of reading and in written
    order. `seen` answers which protocol a name means in a declaration, and raises NotSeen where it means none.
    """

    protocols: Tuple[Protocol, ...]
    own_labels: FrozenSet[str]
    signatures: Tuple[Signature, ...]
    problems: Tuple[Problem, ...]
    counts: Counts
    all_protocols: Tuple[Protocol, ...] = ()
    seen: Callable[[str, Declaration], Protocol] = _nothing_seen

    @property
    def own_protocols(self) -> Tuple[Protocol, ...]:
        """The protocols of the named sources."""
        return tuple(protocol for protocol in self.protocols if protocol.label in self.own_labels)
