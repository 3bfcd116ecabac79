"""Prints the protocols of a library and so many functions over them, each with requirements and queries: `text.py LIBRARY COUNT`."""

import dataclasses
import pathlib
import random
import re
import sys
from collections.abc import Mapping, Sequence

PROTOCOL = re.compile(r"protocol (\w+)(?:: (\w+(?:, \w+)*))?")
ASSOCIATED = re.compile(r"associatedtype (\w+)(?:: (\w+(?: & \w+)*))?")
PARAMS = "TUV"

# Names of members, with the protocols to which they conform.
Members = dict[str, set[str]]


@dataclasses.dataclass(frozen=True)
class Protocol:
    """The protocols that a protocol inherits, and the members that it declares."""

    inherited: tuple[str, ...]
    declared: dict[str, tuple[str, ...]]


def names(listed: str) -> tuple[str, ...]:
    """The names in a list."""
    return tuple(re.findall(r"\w+", listed))


def read_library(text: str) -> dict[str, Protocol]:
    """The protocols of a text by name."""
    heads = list(PROTOCOL.finditer(text))
    ends = [head.start() for head in heads[1:]] + [len(text)]
    protocols = {}
    for head, end in zip(heads, ends):
        declared = {name: names(bounds) for name, bounds in ASSOCIATED.findall(text, head.end(), end)}
        protocols[head[1]] = Protocol(names(head[2] or ""), declared)
    return protocols


def members_of(protocols: Mapping[str, Protocol], name: str) -> Members:
    """The members of a protocol, inherited ones too."""
    found: Members = {}
    for base in protocols[name].inherited:
        add_members(found, members_of(protocols, base))
    add_members(found, {member: set(bounds) for member, bounds in protocols[name].declared.items()})
    return found


def add_members(found: Members, others: Members) -> None:
    """Adds members to those found."""
    for member, bounds in others.items():
        found.setdefault(member, set()).update(bounds)


class Writer:
    """Writes functions over the protocols of a library."""

    def __init__(self, protocols: Mapping[str, Protocol]) -> None:
        self.protocols = list(protocols)
        self.members = {name: members_of(protocols, name) for name in protocols}
        self.with_members = [name for name in protocols if self.members[name]]
        self.all_members = sorted(set().union(*self.members.values()))
        self.numbers = random.Random(1)

    def below(self, bound: int) -> int:
        """The next number below a bound. Only these numbers of the generator are the same in each version of Python."""
        return int(self.numbers.random() * bound)

    def pick(self, items: Sequence[str]) -> str:
        """The next of some items."""
        return items[self.below(len(items))]

    def path(self, params: Mapping[str, str], longest: int) -> str:
        """A generic parameter, which conforms to its protocol, with one member or more."""
        param = self.pick(list(params))
        path, conforms = param, {params[param]}
        for _ in range(1 + self.below(longest)):
            members: Members = {}
            for name in conforms:
                add_members(members, self.members[name])
            if not members:
                break
            member = self.pick(sorted(members))
            path, conforms = f"{path}.{member}", members[member]
        return path

    def requirement(self, params: Mapping[str, str]) -> str:
        """A requirement of a member: each third one that it is another one, and else a conformance."""
        path = self.path(params, 2)
        if self.below(3) == 0:
            other = self.path(params, 1)
            if other != path:
                return f"{path} == {other}"
        return f"{path}: {self.pick(self.protocols)}"

    def asked_type(self, params: Mapping[str, str]) -> str:
        """A type parameter. Each eighth one has a member more, which it may lack."""
        path = self.path(params, 3)
        return path if self.below(8) else f"{path}.{self.pick(self.all_members)}"

    def ask(self, params: Mapping[str, str], kind: int) -> str:
        """What a query asks, of one of the five kinds."""
        if kind == 0:
            return ""
        path = self.asked_type(params)
        if kind == 1:
            return path
        if kind == 2:
            return f"{path} : {self.pick(self.protocols)}"
        if kind == 3:
            return f"{path} : AnyObject"
        return f"{path} == {self.asked_type(params)}"

    def function(self, number: int) -> list[str]:
        """A function with one to three generic parameters and three to five requirements, and two queries."""
        params = {param: self.pick(self.with_members) for param in PARAMS[: 1 + self.below(len(PARAMS))]}
        clause = [self.requirement(params) for _ in range(3 + self.below(3) - len(params))]
        listed = ", ".join(f"{param}: {bound}" for param, bound in params.items())
        where = f" where {', '.join(clause)}" if clause else ""
        asked = [self.ask(params, kind % 5) for kind in (2 * number, 2 * number + 1)]
        return [f"func f{number}<{listed}>(){where}"] + [f"query f{number}({ask})" for ask in asked]


def main(words: Sequence[str]) -> None:
    """Prints the text."""
    library = pathlib.Path(words[0]).read_text(encoding="utf-8")
    writer = Writer(read_library(library))
    print(library, end="")
    for number in range(int(words[1])):
        print("\n".join(writer.function(number)))


if __name__ == "__main__":
    main(sys.argv[1:])
