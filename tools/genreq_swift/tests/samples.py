"""Sources for tests."""
from typing import List, Sequence

from ..read.conditions import Configuration
from ..read.declarations import DeclarationSyntax, read_declarations
from ..read.model import Reading, Signature
from ..mean.reader import reading_of
from ..read.tokens import Source

FILE = "sample.swift"


def declared(text: str, configuration: Configuration = Configuration()) -> Sequence[DeclarationSyntax]:
    """The declarations of a text."""
    return read_declarations(Source(FILE, text), configuration)


def reading(text: str, beside: str = "", concrete: bool = False) -> Reading:
    """What is read of a text, with another beside it."""
    others = [(source, read_declarations(source, Configuration())) for source in [Source("beside.swift", beside, "Beside")] if beside]
    source = Source(FILE, text, "Sample")
    return reading_of([(source, read_declarations(source, Configuration()))], others, concrete=concrete)


def shown(signature: Signature) -> str:
    """A signature as `<T where T : P>`, with own names and its requirements as they were written."""
    parameters = ", ".join(parameter.name for parameter in signature.parameters)
    requirements = ", ".join(map(str, signature.requirements))
    return "<%s%s>" % (parameters, " where " + requirements if requirements else "")


def signatures(text: str, beside: str = "") -> List[str]:
    """The signatures of a text, each after its name."""
    return ["%s %s" % (signature.name, shown(signature)) for signature in reading(text, beside).signatures]


def omissions(text: str, beside: str = "") -> List[str]:
    """What is left out of the signatures of a text, each with its cause."""
    return [
        "%s: %s" % (omission.text, omission.cause.value) for signature in reading(text, beside).signatures for omission in signature.omissions
    ]
