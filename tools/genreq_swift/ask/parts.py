"""Protocols and signatures as parts of a text for genreq. Requirements stand in a part in the order of the model."""
from dataclasses import replace
from typing import FrozenSet, Iterable, List, Optional, Sequence, Tuple

from ..read.model import Protocol, Requirement, RequirementKind, Signature, TypeParameter, label_of
from .program import Part


def function_part(signature: Signature, requirements: Optional[Sequence[Requirement]] = None, queries: Sequence[str] = ()) -> Part:
    """A signature as a function, with all of its requirements or with these alone, and with queries of it."""
    chosen = signature.requirements if requirements is None else requirements
    parameters = ", ".join(parameter.label for parameter in signature.parameters)
    text = "func %s%s()%s" % (signature.label, "<%s>" % parameters if parameters else "", where_clause(chosen))
    return Part(signature.label, text, protocols_of(chosen), tuple(queries))


# In a function no generic parameter can have the name `Self`.
SELF_OF_FUNCTION = "Self_"


def conforming_part(label: str, protocol: Protocol, queries: Sequence[str] = ()) -> Part:
    """A function whose one generic parameter conforms to a protocol, and queries of it."""
    text = "func %s<%s>() where %s : %s" % (label, SELF_OF_FUNCTION, SELF_OF_FUNCTION, protocol.label)
    return Part(label, text, frozenset([protocol.label]), tuple(queries))


def in_function(one: TypeParameter) -> TypeParameter:
    """A type of a protocol as a type of that function."""
    return TypeParameter(replace(one.parameter, label=SELF_OF_FUNCTION), one.members)


def protocol_part(protocol: Protocol, without: FrozenSet[int] = frozenset()) -> Part:
    """A protocol, but for the requirements at these places among all of them, counted from 0."""
    numbered = enumerate(protocol.requirements)

    def kept(requirements: Sequence[Requirement]) -> List[Requirement]:
        return [requirement for place, requirement in [next(numbered) for _ in requirements] if place not in without]

    me = TypeParameter(protocol.self_parameter)
    primaries = "<%s>" % ", ".join(label_of(name) for name in protocol.primaries) if protocol.primaries else ""
    head = "protocol %s%s%s {" % (protocol.label, primaries, clauses(me, kept(protocol.inherited + protocol.conditions)))
    members = [
        "  associatedtype %s%s\n" % (label_of(member.name), clauses(me.member(member.name), kept(member.requirements)))
        for member in protocol.associated_types
    ]
    return Part(protocol.label, head + ("\n" + "".join(members) if members else " ") + "}", protocols_of(protocol.requirements))


def clauses(subject: TypeParameter, requirements: Sequence[Requirement]) -> str:
    """An inheritance clause and a where clause. From the first that is no bound of the subject on, all stand in the where clause."""
    front = 0
    while front < len(requirements) and requirements[front].subject == subject and requirements[front].kind is not RequirementKind.SAME_TYPE:
        front += 1
    inherit = ", ".join(requirement.protocol.label if requirement.protocol else "AnyObject" for requirement in requirements[:front])
    return (": " + inherit if inherit else "") + where_clause(requirements[front:])


def where_clause(requirements: Iterable[Requirement]) -> str:
    """The where clause with these requirements, which begins with a space where there are any."""
    texts = [requirement.labelled for requirement in requirements]
    return " where " + ", ".join(texts) if texts else ""


def protocols_of(requirements: Iterable[Requirement]) -> FrozenSet[str]:
    """The labels of the protocols that these requirements name."""
    return frozenset(requirement.protocol.label for requirement in requirements if requirement.protocol)


def sides_of(requirement: Requirement) -> Tuple[TypeParameter, ...]:
    """The types of a requirement: its subject, and of an equation its other side."""
    return (requirement.subject, requirement.other) if requirement.other else (requirement.subject,)
