"""What the compiler prints under `-debug-generic-signatures`: the signature of each declaration, by its place.

Of a declaration stand there

    MODULE.(file).NAME@FILE:LINE:COLUMN
    Generic signature: <T where T : P>
    Canonical generic signature: <τ_0_0 where τ_0_0 : P>

with `Requirement signature: <Self where ..>` for a protocol, and for an extension in place of the first line

      0x5555 FileUnit file="FILE"
        0x5555 ExtensionDecl line=LINE base=NAME
"""
from dataclasses import dataclass, field
import re
from typing import Dict, Iterable, List, Optional, Set, Tuple

DECLARED = re.compile(r"[^@\s][^@]*\.\(file\)\.[^@]*@(.+):(\d+):(\d+)$")
UNIT = re.compile(r'\s*0x[0-9a-f]+ FileUnit file="(.*)"$')
EXTENSION = re.compile(r"\s*0x[0-9a-f]+ ExtensionDecl line=(\d+) ")
SIGNATURE = "Canonical generic signature: "
REQUIREMENTS = "Requirement signature: "
ERROR = re.compile(r".*?: error: ")

At = Tuple[str, int, int]
Line = Tuple[str, int]


@dataclass
class Printed:
    """Signatures by file, line and column, those of extensions by file and line, requirement signatures of protocols by file, line and
    column, and the errors that the compiler told. Two extensions of one line with several signatures are `doubtful`."""

    signatures: Dict[At, str] = field(default_factory=dict)
    extensions: Dict[Line, str] = field(default_factory=dict)
    protocols: Dict[At, str] = field(default_factory=dict)
    doubtful: Set[Line] = field(default_factory=set)
    errors: List[str] = field(default_factory=list)


class Reader:
    """Goes through the lines, and bears which declaration they speak of."""

    def __init__(self) -> None:
        self.printed = Printed()
        self.place: Optional[At] = None
        self.unit = ""
        self.extension: Optional[Line] = None

    def line(self, line: str) -> None:
        declared = DECLARED.match(line)
        unit = UNIT.match(line)
        extension = EXTENSION.match(line)
        if declared:
            self.place, self.extension = (declared[1], int(declared[2]), int(declared[3])), None
        elif unit:
            self.unit = unit[1]
        elif extension:
            self.place, self.extension = None, (self.unit, int(extension[1]))
        elif line.startswith(SIGNATURE):
            self.signature(line[len(SIGNATURE) :])
        elif line.startswith(REQUIREMENTS) and self.place:
            self.printed.protocols.setdefault(self.place, line[len(REQUIREMENTS) :])
        elif ERROR.match(line) and not line.startswith(" "):
            self.printed.errors.append(line)

    def signature(self, text: str) -> None:
        """The first signature of a place is that of what is declared there. Behind it stand those of what the compiler makes of it."""
        if self.place:
            self.printed.signatures.setdefault(self.place, text)
        elif self.extension and self.printed.extensions.setdefault(self.extension, text) != text:
            self.printed.doubtful.add(self.extension)


def read(lines: Iterable[str]) -> Printed:
    reader = Reader()
    for line in lines:
        reader.line(line.rstrip("\r\n"))
    return reader.printed
