"""Functions and protocols of a text for genreq as Swift, so that the compiler answers for the same text.

Protocols are Swift already. A function gets an unnamed parameter for each generic parameter, since Swift wants each to be used, and a body. Where a
protocol has the name of a generic parameter or of an associated type, Swift would take the one that is declared nearer: it is named by an alias."""
from dataclasses import dataclass
import re
from typing import Dict, FrozenSet, Iterable, List, Mapping, Sequence, Set

FUNCTION = re.compile(r"func (?P<name>\w+)(?:<(?P<generics>[\w, ]*)>)?\(\)(?P<clause>.*)")
# The standard library of the compiler declares it, and is not there.
FIRST = "typealias AnyObject = Builtin.AnyObject"
PROTOCOL = re.compile(r"protocol (\w+)")
ASSOCIATED = re.compile(r"^  associatedtype (\w+)", re.MULTILINE)
# What a protocol or an associated type inherits, and what a requirement requires.
INHERITED = re.compile(r"^(?P<before>(?:protocol|  associatedtype) \w+(?:<[^>]*>)?: )(?P<names>[\w, ]+?)(?= where |$| \{)", re.MULTILINE)
REQUIRED = re.compile(r"(?P<before> : )(?P<names>\w+)")
# The compiler has these itself.
ITS_OWN = re.compile(r"protocol (?:Copyable|Escapable)\b")


class Untranslated(Exception):
    """A function that is not written as it should be."""


@dataclass(frozen=True)
class SwiftText:
    """A text, and which function or protocol begins on each of its lines."""

    content: str
    label_at: Dict[int, str]


def function(text: str) -> str:
    """A function with the names of its generic parameters in angles, and its requirements in a where clause."""
    found = FUNCTION.fullmatch(text)
    if not found:
        raise Untranslated("no function of a text for genreq: %s" % text)
    generics = found["generics"] or ""
    parameters = ", ".join("_: %s.Type" % name for name in generics.split(", ") if name)
    angles = "<%s>" % generics if generics else ""
    return "func %s%s(%s)%s {}" % (found["name"], angles, parameters, found["clause"])


def names_nearer(texts: Iterable[str]) -> FrozenSet[str]:
    """The names of the generic parameters and of the associated types of protocols and functions."""
    found: Set[str] = set()
    for text in texts:
        generics = FUNCTION.fullmatch(text)
        found.update(generics["generics"].split(", ") if generics and generics["generics"] else ASSOCIATED.findall(text))
    return frozenset(found)


def aliases_of(protocols: Sequence[str], functions: Sequence[str]) -> Dict[str, str]:
    """A name of its own for each protocol that has the name of something that is declared nearer."""
    declared = [found[1] for found in map(PROTOCOL.match, protocols) if found]
    nearer = names_nearer([*protocols, *functions])
    taken = nearer.union(declared)
    aliases: Dict[str, str] = {}
    for name in declared:
        if name in nearer:
            alias = name + "_protocol"
            while alias in taken:
                alias += "_"
            aliases[name] = alias
    return aliases


def with_aliases(text: str, aliases: Mapping[str, str]) -> str:
    """A protocol or a function in which protocols are named by these aliases."""
    if not aliases:
        return text

    def renamed(found: "re.Match[str]") -> str:
        return found["before"] + ", ".join(aliases.get(name, name) for name in found["names"].split(", "))

    return INHERITED.sub(renamed, REQUIRED.sub(renamed, text))


def as_swift(protocols: Sequence[str], functions: Sequence[str]) -> SwiftText:
    """The text of these protocols and functions, as each stands in a text for genreq."""
    aliases = aliases_of(protocols, functions)
    lines: List[str] = [FIRST] + ["typealias %s = %s" % (alias, name) for name, alias in aliases.items()]
    label_at: Dict[int, str] = {}
    pieces = [text for text in protocols if not ITS_OWN.match(text)] + [function(text) for text in functions]
    for piece in pieces:
        label_at[len(lines) + 1] = re.split(r"[^\w]", piece.split(" ", 1)[1], maxsplit=1)[0]
        lines += with_aliases(piece, aliases).split("\n")
    return SwiftText("\n".join(lines) + "\n", label_at)
