"""The definitions of crates/*/specs, and what each of them names. A definition rests on each definition that it names, so more may be found than counts,
and never less."""
import pathlib
import re
from dataclasses import dataclass
from typing import Dict, Iterable, Iterator, List, Optional, Set, Tuple

# A module and a name in it: a definition, or a name of elsewhere.
Key = Tuple[str, str]
# What import lines bring: each name with where it stands, and each alias with its module.
Imports = Tuple[Dict[str, Key], Dict[str, str]]

DEFINITION = re.compile(r"(\s*)(?:abbrev pub|unfoldable pub|pub record|pub data|abbrev|unfoldable|record|data) +([^\s:({]+)")
WORD = re.compile(r"[A-Za-z_][\w\-]*(?:\.[A-Za-z_][\w\-]*)?")
# A crate that another one passes on, by its name before that of a module.
PASSED_ON = re.compile(r"Rattle\.\w+\.specs\.(?!declared\.)(\w+)\.(?=[A-Z]|declared\.)")


@dataclass(frozen=True)
class Definition:
    """A definition: its name, its text, what the comment above it says, and its line."""

    name: str
    text: str
    comment: str
    line: int


def home(module: str) -> str:
    """The module where it stands, by whichever crate it is passed on."""
    return PASSED_ON.sub(r"Rattle.\1.specs.", module)


def parted(listed: str) -> Iterator[str]:
    """The items of a list with commas between them, where an item may have a list of its own in braces."""
    depth, item = 0, ""
    for character in listed + ",":
        depth += {"{": 1, "}": -1}.get(character, 0)
        if character == "," and depth == 0:
            if item.strip():
                yield item.strip()
            item = ""
        else:
            item += character


def brought(module: str, listed: str) -> Iterator[Tuple[str, str]]:
    """The modules and the items that a list brings from below a module."""
    for item in parted(listed):
        below, begins, rest = item.partition(".{")
        if begins:
            yield from brought("%s.%s" % (module, below), rest[:-1])
        else:
            yield home(module), item


def uses(text: str, keyword: str) -> Imports:
    """What the lines of a text bring that begin with the keyword."""
    names: Dict[str, Key] = {}
    for module, listed in re.findall(r"^(?:pub )?" + keyword + r" ([\w.]+)\.\{(.*)\};?$", text, re.M):
        for below, item in brought(module, listed):
            whole, _, local = item.partition(" as ")
            names[local or whole.split(".")[-1]] = (below, whole)
    return names, {alias: home(module) for module, alias in re.findall(r"^" + keyword + r" ([\w.]+) as (\w+)", text, re.M)}


def comment_above(lines: List[str], at: int) -> str:
    """The comment that stands directly above a line, but for headings."""
    found: List[str] = []
    while at > 0 and lines[at - 1].strip().startswith("--") and not lines[at - 1].strip().startswith("-- ----"):
        at -= 1
        found.insert(0, lines[at].strip()[2:].strip())
    return " ".join(found)


def end_of(lines: List[str], at: int, indent: int, name: str) -> int:
    """Where the definition that begins at a line ends: at an empty line, or one that is no deeper and no equation of it."""
    end = at + 1
    while end < len(lines) and lines[end].strip():
        depth = len(lines[end]) - len(lines[end].lstrip())
        if depth < indent or depth == indent and lines[end].split()[0] != name:
            break
        end += 1
    return end


class Specs:
    """All definitions of the specs below a folder of crates."""

    def __init__(self, crates: pathlib.Path) -> None:
        self.crates = crates
        self.definitions: Dict[Key, Definition] = {}
        self.imports: Dict[str, Imports] = {}
        self.owners: Dict[Key, Key] = {}
        self.files: Dict[str, str] = {}
        for path in sorted(crates.glob("*/specs/**/*.antt")):
            if path.name != "Lib.antt":
                self.read(path)

    def read(self, path: pathlib.Path) -> None:
        """Takes the definitions of a file."""
        crate, _, rest = str(path.relative_to(self.crates)).split("/", 2)
        module = "Rattle.%s.specs.%s" % (crate, rest[: -len(".antt")].replace("/", "."))
        text = path.read_text(encoding="utf-8")
        self.files[module] = "%s/specs/%s" % (crate, rest)
        self.imports[module] = uses(text, "use")
        lines, at = text.split("\n"), 0
        while at < len(lines):
            begin = DEFINITION.match(lines[at])
            at = self.define(module, lines, at, begin) if begin else at + 1

    def define(self, module: str, lines: List[str], at: int, begin: "re.Match[str]") -> int:
        """Takes the definition that begins at a line, and answers where the next one may begin."""
        indent, name = len(begin[1]), begin[2]
        end = end_of(lines, at, indent, name)
        text = "\n".join(lines[at:end])
        self.definitions[module, name] = Definition(name, text, comment_above(lines, at), at + 1)
        if re.match(r"\s*(pub )?data ", lines[at]):
            for constructor in re.findall(r"^ {%d}([^\s:({]+) :" % (indent + 2), text, re.M):
                self.owners[module, constructor] = (module, name)
        return end

    def resolve(self, module: str, name: str) -> Optional[Key]:
        """The definition of this name in a module, or of the data type of which it is a constructor, or None."""
        if (module, name) in self.definitions:
            return module, name
        if (module, name) in self.owners:
            return self.owners[module, name]
        above, _, last = module.rpartition(".")
        if (above, last) in self.definitions:
            return above, last
        # A name that the module itself has from elsewhere.
        own = self.imports.get(module, ({}, {}))[0]
        return self.resolve(*own[name]) if name in own else None

    def named(self, text: str, module: str, imports: Imports) -> Tuple[Set[Key], Set[Key]]:
        """What the words of a text stand for: definitions of specs, and names of elsewhere."""
        names, aliases = imports
        inner: Set[Key] = set()
        outer: Set[Key] = set()
        for word in WORD.findall(re.sub(r"--.*", "", text)):
            first, _, second = word.partition(".")
            where = (aliases[first], second) if second and first in aliases else names.get(first, (module, first))
            found = self.resolve(*where)
            if found:
                inner.add(found)
            elif where[0] != module:
                outer.add(where)
        return inner, outer

    def named_by(self, key: Key) -> Tuple[Set[Key], Set[Key]]:
        """What a definition names."""
        return self.named(self.definitions[key].text, key[0], self.imports[key[0]])

    def below(self, key: Key) -> Set[Key]:
        """The other definitions that a definition names."""
        return self.named_by(key)[0] - {key}

    def closure(self, starts: Iterable[Key]) -> Tuple[Set[Key], Set[Key]]:
        """All that these rest on: definitions, and names of elsewhere."""
        seen: Set[Key] = set()
        elsewhere: Set[Key] = set()
        left = list(starts)
        while left:
            key = left.pop()
            if key not in seen:
                seen.add(key)
                inner, outer = self.named_by(key)
                left.extend(inner)
                elsewhere |= outer
        return seen, elsewhere

    def in_order(self, keys: Set[Key]) -> List[str]:
        """The modules of these definitions, each after those on which its definitions rest."""
        below: Dict[str, Set[str]] = {}
        for key in keys:
            below.setdefault(key[0], set()).update(other[0] for other in self.below(key) if other in keys)
        order: List[str] = []
        seen: Set[str] = set()

        def visit(module: str) -> None:
            if module not in seen:
                seen.add(module)
                for other in sorted(below[module]):
                    visit(other)
                order.append(module)

        for module in sorted(below):
            visit(module)
        return order

    def here(self, keys: Set[Key], module: str) -> List[Definition]:
        """Those of these definitions that stand in a module, in its order."""
        return sorted((self.definitions[key] for key in keys if key[0] == module), key=lambda it: it.line)
