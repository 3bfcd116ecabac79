"""The text for genreq of what was read, and the map from it to the sources."""
from dataclasses import dataclass
import json
from typing import Dict, List, Sequence

from ..mean.standing import Standing
from ..read.model import Declaration, Omission, Protocol, Requirement, Signature, Status
from .parts import function_part, protocol_part
from .program import TEXT_LIMIT


@dataclass(frozen=True)
class Text:
    """A text for genreq, and where in it each declaration begins, in bytes."""

    content: str
    declarations: Sequence[Declaration]
    offsets: Sequence[int]


def text_of(protocols: Sequence[Protocol], signatures: Sequence[Signature]) -> Text:
    """The text with these protocols and signatures, one after the other."""
    parts = [protocol_part(protocol) for protocol in protocols] + [function_part(signature) for signature in signatures]
    offsets: List[int] = []
    length = 0
    for part in parts:
        offsets.append(length)
        length += len(part.written)
    return Text("".join(part.text + "\n" for part in parts), (*protocols, *signatures), offsets)


def too_long(text: Text) -> List[str]:
    """What is told of a text that genreq does not read."""
    length = len(text.content.encode("utf-8"))
    return ["the text has %d bytes, and genreq reads %d: give less files, or --strict" % (length, TEXT_LIMIT)] if length > TEXT_LIMIT else []


def map_of(text: Text, standing: Standing) -> str:
    """The map of a text, as JSON: an object for each declaration, in the order of the text."""
    found = [_mapped(declaration, offset, standing.status(declaration)) for declaration, offset in zip(text.declarations, text.offsets)]
    return json.dumps(found, ensure_ascii=False, indent=1) + "\n"


def _mapped(declaration: Declaration, offset: int, status: Status) -> Dict[str, object]:
    return {
        "label": declaration.label,
        "offset": offset,
        "name": declaration.name,
        "kind": declaration.kind.value if isinstance(declaration, Signature) else "protocol",
        "file": declaration.place.file,
        "line": declaration.place.line,
        "column": declaration.place.column,
        "last_line": declaration.last_line,
        "status": status.value,
        "parameters": [
            {"name": parameter.name, "label": parameter.label, "depth": parameter.depth, "index": parameter.index}
            for parameter in declaration.parameters
        ],
        "requirements": [_mapped_requirement(requirement) for requirement in declaration.requirements],
        "omissions": [_mapped_omission(omission) for omission in declaration.omissions],
    }


def _mapped_requirement(requirement: Requirement) -> Dict[str, object]:
    return {
        "text": str(requirement),
        "label": requirement.labelled,
        "origin": requirement.origin.value,
        "file": requirement.place.file,
        "line": requirement.place.line,
        "column": requirement.place.column,
    }


def _mapped_omission(omission: Omission) -> Dict[str, object]:
    return {
        "text": omission.text,
        "cause": omission.cause.value,
        "origin": omission.origin.value,
        "file": omission.place.file,
        "line": omission.place.line,
        "column": omission.place.column,
    }
