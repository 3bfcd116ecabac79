"""The two forms of a minimised signature: that of genreq, and that of the Swift compiler.

Both have the same conformances and layouts, and the same classes of equal types. They differ in this:

| | genreq | the Swift compiler |
|---|---|---|
| equal types U < V < W | U == V, U == W | U == V, V == W |
| an equation stands | at its greater side | at its lesser side |
| of one subject | conformances, the layout | the layout, conformances, the equation |
"""
from dataclasses import replace
from typing import Any, Callable, Dict, List, Tuple

from .printed import Conformance, Layout, PrintedRequirement, PrintedSignature, PrintedType, SameType, read_signature

Key = Tuple[Any, ...]
ProtocolKey = Callable[[str], Key]


def by_name(protocol: str) -> Key:
    """The order of the protocols of one module: those that are nested less come first, then names decide."""
    return (protocol.count("."), protocol.split("."))


def type_key(signature: PrintedSignature, one: PrintedType) -> Key:
    """The order of type parameters: by the number of members, then by the generic parameter, then by the names of members from the first on.

    Of two protocols that declare a member of one name of one type a minimised signature names one alone, since both members are equal.
    """
    members = tuple((member.protocol is None, member.name, member.protocol or "") for member in one.members)
    return (len(one.members), signature.parameters.index(one.parameter), members)


def classes(signature: PrintedSignature) -> List[List[PrintedType]]:
    """The classes of types that the equations of a signature make equal, each in the order of type parameters."""
    class_of: Dict[PrintedType, List[PrintedType]] = {}
    for requirement in signature.requirements:
        if isinstance(requirement, SameType):
            one = class_of.setdefault(requirement.subject, [requirement.subject])
            other = class_of.setdefault(requirement.other, [requirement.other])
            if one is not other:
                one.extend(other)
                class_of.update((each, one) for each in other)
    first_of = [one for each, one in class_of.items() if one[0] == each]
    return [sorted(one, key=lambda each: type_key(signature, each)) for one in first_of]


def _but_equations(signature: PrintedSignature) -> List[PrintedRequirement]:
    return [each for each in signature.requirements if not isinstance(each, SameType)]


def compiler_form(signature: PrintedSignature, protocol_key: ProtocolKey = by_name) -> PrintedSignature:
    """The form of the Swift compiler. Protocols of several modules it compares by their modules first, for which there is `protocol_key`."""

    def key(requirement: PrintedRequirement) -> Key:
        subject = type_key(signature, requirement.subject)
        if isinstance(requirement, Layout):
            return (subject, 0)
        if isinstance(requirement, Conformance):
            return (subject, 1, protocol_key(requirement.protocol))
        return (subject, 2)

    chains = [SameType(*pair) for one in classes(signature) for pair in zip(one, one[1:])]
    return replace(signature, requirements=tuple(sorted(_but_equations(signature) + chains, key=key)))


def genreq_form(signature: PrintedSignature) -> PrintedSignature:
    """The form of genreq."""

    def key(requirement: PrintedRequirement) -> Key:
        if isinstance(requirement, SameType):
            return (type_key(signature, requirement.other),)
        subject = type_key(signature, requirement.subject)
        return (subject, 0, requirement.protocol) if isinstance(requirement, Conformance) else (subject, 1)

    stars = [SameType(one[0], each) for one in classes(signature) for each in one[1:]]
    return replace(signature, requirements=tuple(sorted(_but_equations(signature) + stars, key=key)))


def as_swift(text: str) -> str:
    """The text of a minimised signature in the form of the Swift compiler. Unreadable where it is none."""
    return str(compiler_form(read_signature(text)))


def as_genreq(text: str) -> str:
    """The text of a minimised signature in the form of genreq. Unreadable where it is none."""
    return str(genreq_form(read_signature(text)))
