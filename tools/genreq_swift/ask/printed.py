"""Signatures and requirements as genreq prints them, read back.

A printed signature is `<τ_0_0 where τ_0_0 : Sequence, τ_0_0.[Sequence]Element : Equatable>`. A generic parameter is `τ_0_0`, `Self` in the
requirements of a protocol, or a name of a declaration.
"""
import re
from dataclasses import dataclass
from typing import Optional, Tuple, Union

_MEMBER = re.compile(r"\.(?:\[([^\[\], ]+)\])?([^.\[\], ]+)")
_PARAMETER = re.compile(r"[^.\[\], <>:=]+")
_PROTOCOL = re.compile(r"[^\[\], <>:=]+")
_SIGNATURE = re.compile(r"<(?P<parameters>[^ ,<>]+(?:, [^ ,<>]+)*)?(?: where (?P<requirements>.+))?>")

LAYOUT = "AnyObject"


class Unreadable(Exception):
    """A text is not of a form that genreq prints."""


@dataclass(frozen=True)
class PrintedMember:
    """A member of a type: its name, and the protocol that declares it where it is bound."""

    name: str
    protocol: Optional[str] = None

    def __str__(self) -> str:
        return "." + ("[%s]" % self.protocol if self.protocol else "") + self.name


@dataclass(frozen=True)
class PrintedType:
    """A generic parameter, and the members that are taken of it, one after the other."""

    parameter: str
    members: Tuple[PrintedMember, ...] = ()

    def __str__(self) -> str:
        return self.parameter + "".join(str(member) for member in self.members)


@dataclass(frozen=True)
class Conformance:
    """`subject : protocol`."""

    subject: PrintedType
    protocol: str

    def __str__(self) -> str:
        return "%s : %s" % (self.subject, self.protocol)


@dataclass(frozen=True)
class Layout:
    """`subject : AnyObject`."""

    subject: PrintedType

    def __str__(self) -> str:
        return "%s : %s" % (self.subject, LAYOUT)


@dataclass(frozen=True)
class SameType:
    """`subject == other`."""

    subject: PrintedType
    other: PrintedType

    def __str__(self) -> str:
        return "%s == %s" % (self.subject, self.other)


PrintedRequirement = Union[Conformance, Layout, SameType]


@dataclass(frozen=True)
class PrintedSignature:
    """Generic parameters, and requirements of them."""

    parameters: Tuple[str, ...]
    requirements: Tuple[PrintedRequirement, ...] = ()

    def __str__(self) -> str:
        where = ", ".join(str(requirement) for requirement in self.requirements)
        return "<" + ", ".join(self.parameters) + (" where " + where if where else "") + ">"


def read_type(text: str) -> PrintedType:
    """The type parameter that a text is. Unreadable where it is none."""
    parameter = _PARAMETER.match(text)
    members, at = [], parameter.end() if parameter else 0
    while parameter and at < len(text):
        member = _MEMBER.match(text, at)
        if not member:
            break
        members.append(PrintedMember(member[2], member[1]))
        at = member.end()
    if not parameter or at < len(text):
        raise Unreadable("no type parameter: %s" % text)
    return PrintedType(parameter[0], tuple(members))


def read_requirement(text: str) -> PrintedRequirement:
    """The requirement that a text is. Unreadable where it is none."""
    subject, equals, other = text.partition(" == ")
    if equals:
        return SameType(read_type(subject), read_type(other))
    subject, colon, entity = text.partition(" : ")
    if not colon or not _PROTOCOL.fullmatch(entity):
        raise Unreadable("no requirement: %s" % text)
    return Layout(read_type(subject)) if entity == LAYOUT else Conformance(read_type(subject), entity)


def read_signature(text: str) -> PrintedSignature:
    """The signature that a text is. Unreadable where it is none."""
    found = _SIGNATURE.fullmatch(text)
    if not found:
        raise Unreadable("no signature: %s" % text)
    parameters = tuple(found["parameters"].split(", ") if found["parameters"] else [])
    requirements = tuple(read_requirement(each) for each in (found["requirements"].split(", ") if found["requirements"] else []))
    if any(one.parameter not in parameters for each in requirements for one in types_of(each)):
        raise Unreadable("a type of no generic parameter: %s" % text)
    return PrintedSignature(parameters, requirements)


def types_of(requirement: PrintedRequirement) -> Tuple[PrintedType, ...]:
    """The sides of a requirement that are types."""
    return (requirement.subject, requirement.other) if isinstance(requirement, SameType) else (requirement.subject,)
