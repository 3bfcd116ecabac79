"""What types and requirements mean: values over type parameters and declared types."""
from dataclasses import dataclass, replace
from enum import Enum
from typing import Dict, Iterator, Optional, Tuple, Union

from .contexts import Entity
from ..read.model import Cause, GenericParameter, Origin, TypeParameter
from ..read.tokens import Source


@dataclass(frozen=True)
class NominalType:
    """A declared type. `arguments` are those of all generic parameters of it and of the types around it, or nothing where they are not known."""

    entity: Entity
    arguments: "Optional[Tuple[Meaning, ...]]"

    def __str__(self) -> str:
        own = len(self.entity.context.declaration.parameters)
        given = (self.arguments or ())[-own:] if own else ()
        return self.entity.name + ("<%s>" % ", ".join(map(str, given)) if given else "")


@dataclass(frozen=True)
class OtherType:
    """A type that is neither. `cause` is why genreq lacks it, `parts` are the types in it, and `text` is how it is told."""

    text: str
    cause: Cause
    parts: "Tuple[Meaning, ...]" = ()

    def __str__(self) -> str:
        return self.text


Meaning = Union[TypeParameter, NominalType, OtherType]
Replacement = Dict[GenericParameter, Meaning]


def parts_of(meaning: Meaning) -> "Tuple[Meaning, ...]":
    """The types in a type."""
    if isinstance(meaning, NominalType):
        return meaning.arguments or ()
    return meaning.parts if isinstance(meaning, OtherType) else ()


def has_parameters(meaning: Meaning) -> bool:
    """Whether a type parameter stands in a type."""
    return isinstance(meaning, TypeParameter) or any(has_parameters(part) for part in parts_of(meaning))


def is_larger(meaning: Meaning, most: int) -> bool:
    """Whether a type has more than this many parts."""
    waiting = [meaning]
    while waiting and most >= 0:
        most -= 1
        waiting += parts_of(waiting.pop())
    return most < 0


class StatementKind(Enum):
    """What a statement states. The value is what stands between or after its sides."""

    CONFORMANCE = ":"
    LAYOUT = ": AnyObject"
    SAME_TYPE = "=="
    OUTSIDE = "outside"  # what has no form here; its statement has a cause


@dataclass(frozen=True)
class Statement:
    """A requirement, written or inferred, of whatever types: the protocol or the other side stands at the right.

    `start` is its place in the source, `clause` the place of the written thing to which it belongs, and `text` that thing.
    """

    kind: StatementKind
    left: Meaning
    right: Union[Meaning, Entity, None]
    source: Source
    start: int
    clause: int
    text: str
    origin: Origin
    cause: Optional[Cause] = None
    argument: bool = False

    def sides(self) -> Iterator[Meaning]:
        """The types that it speaks of."""
        yield self.left
        if self.right is not None and not isinstance(self.right, Entity):
            yield self.right

    def parts(self) -> "Iterator[Statement]":
        """The statement, or where it equates two of a declared type, those that equate their arguments."""
        left, right = self.left, self.right
        if (
            self.kind is StatementKind.SAME_TYPE
            and isinstance(left, NominalType)
            and isinstance(right, NominalType)
            and left.entity is right.entity
            and left.arguments
            and right.arguments
        ):
            for one, other in zip(left.arguments, right.arguments):
                if one != other:
                    yield from replace(self, left=one, right=other).parts()
        else:
            yield self

    def same_as(self) -> Tuple[object, ...]:
        """What two statements have in common if they state the same."""
        return self.kind, self.left, self.right, self.cause
