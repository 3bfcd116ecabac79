"""The conditions of `#if`, and the configuration by which they are true or false."""
from dataclasses import dataclass
from typing import Callable, FrozenSet, List, Tuple

from .tokens import Source, Token, TokenKind

LINUX_MODULES = frozenset(
    """Swift Glibc Foundation FoundationEssentials FoundationInternationalization FoundationNetworking FoundationXML Dispatch XCTest Testing
    Synchronization Observation Distributed RegexBuilder _Concurrency _StringProcessing _RegexParser _Differentiation""".split()
)
DARWIN_MODULES = (LINUX_MODULES - {"Glibc"}) | {"Darwin", "os", "ObjectiveC", "Combine", "SwiftUI", "CoreFoundation", "CryptoKit"}
# Features that a compiler has where they are asked for alone. All others it has.
_ABSENT_FEATURES = frozenset(("Embedded", "NonescapableTypes"))
DARWIN = frozenset(("macOS", "OSX", "iOS", "tvOS", "watchOS", "visionOS"))


@dataclass(frozen=True)
class Configuration:
    """For what a source is read: the system, the processor, the versions, and the names that are set by `-D`."""

    system: str = "Linux"
    processor: str = "x86_64"
    compiler: Tuple[int, ...] = (6, 0, 3)
    language: Tuple[int, ...] = (6,)
    defined: FrozenSet[str] = frozenset()
    modules: FrozenSet[str] = LINUX_MODULES


class _Condition:
    """Reads a condition from a place on, and finds whether it is true."""

    def __init__(self, source: Source, offset: int, configuration: Configuration):
        self.source = source
        self.configuration = configuration
        self.end = offset
        self.token = source.token(offset)

    def advance(self) -> Token:
        taken, self.end = self.token, self.token.end
        self.token = self.source.token(self.end)
        return taken

    def doubled(self, mark: str) -> bool:
        """Takes `&&` or `||`, if it stands here."""
        if self.token.text != mark or self.source.text[self.token.end : self.token.end + 1] != mark:
            return False
        self.advance()
        self.advance()
        return True

    def either(self) -> bool:
        value = self.both()
        while self.doubled("|"):
            value = self.both() or value
        return value

    def both(self) -> bool:
        value = self.one()
        while self.doubled("&"):
            value = self.one() and value
        return value

    def one(self) -> bool:
        token = self.advance()
        if token.text == "!":
            return not self.one()
        if token.text == "(":
            value = self.either()
            self.want(")")
            return value
        if token.kind not in (TokenKind.NAME, TokenKind.QUOTED):
            raise self.source.error("a condition is wanted, and not %r" % token.text, token.start)
        if self.token.text == "(" and not self.token.after_line:
            return self.call(token.text)
        return self.name(token.text)

    def want(self, mark: str) -> None:
        if self.token.text != mark:
            raise self.source.error("%r is wanted in the condition, and not %r" % (mark, self.token.text), self.token.start)
        self.advance()

    def name(self, name: str) -> bool:
        if name.startswith("$"):
            return name[1:] not in _ABSENT_FEATURES
        return name == "true" or name in self.configuration.defined

    def call(self, name: str) -> bool:
        start = self.token.start
        end = self.source.after_brackets(start)
        words: List[str] = []
        self.advance()
        while self.token.start < end - 1:
            words.append(self.advance().text)
        self.want(")")
        test = _TESTS.get(name)
        return test(self.configuration, words) if test and words else False


def _system(configuration: Configuration, words: List[str]) -> bool:
    return words[0] == configuration.system or (words[0] == "OSX" and configuration.system == "macOS")


def _version(wanted: List[str], have: Tuple[int, ...]) -> bool:
    """Whether a version is `>=5.9`, or `<6`, as the words say."""
    numbers = tuple(int(part) for part in "".join(wanted).lstrip("<>=").split(".") if part.isdigit())
    padded = have + (0,) * (len(numbers) - len(have))
    return padded < numbers if wanted[0] == "<" else padded >= numbers


def _runtime(configuration: Configuration, words: List[str]) -> bool:
    return words[0] == ("_ObjC" if configuration.system in DARWIN else "_Native")


_TESTS: "dict[str, Callable[[Configuration, List[str]], bool]]" = {
    "os": _system,
    "arch": lambda configuration, words: words[0] == configuration.processor,
    "canImport": lambda configuration, words: words[0] in configuration.modules,
    "compiler": lambda configuration, words: _version(words, configuration.compiler),
    "swift": lambda configuration, words: _version(words, configuration.language),
    "hasFeature": lambda configuration, words: words[0] not in _ABSENT_FEATURES,
    "hasAttribute": lambda configuration, words: True,
    "_runtime": _runtime,
    "_endian": lambda configuration, words: words[0] == "little",
    "_pointerBitWidth": lambda configuration, words: words[0] == "_64",
    "_hasAtomicBitWidth": lambda configuration, words: words[0] != "_128",
    "defined": lambda configuration, words: words[0] in configuration.defined,
}


def condition(source: Source, offset: int, configuration: Configuration) -> Tuple[bool, int]:
    """Whether the condition at a place is true, and where it ends."""
    reader = _Condition(source, offset, configuration)
    value = reader.either()
    return value, reader.end
