"""Own names in what genreq prints, in place of the labels of its text."""
import re
from dataclasses import dataclass
from typing import Mapping, Sequence

from ..read.model import GenericParameter, Reading, label_of

# What stands before a word says whether it is a member. A word in brackets is a protocol.
_WORD = re.compile(r"(?P<before>[.\]]?)(?P<word>[^\W\d]\w*)")
_PARAMETER = re.compile(r"τ_0_(\d+)")


@dataclass(frozen=True)
class OwnNames:
    """The names of protocols and of members by their labels, of those that differ from them."""

    protocols: Mapping[str, str]
    members: Mapping[str, str]

    def of(self, text: str, parameters: Sequence[GenericParameter]) -> str:
        """A text that genreq prints of a function with these generic parameters, in own names."""
        return _WORD.sub(lambda found: found["before"] + self._name(found, parameters), text)

    def _name(self, found: "re.Match[str]", parameters: Sequence[GenericParameter]) -> str:
        word = found["word"]
        parameter = _PARAMETER.fullmatch(word)
        if parameter and int(parameter[1]) < len(parameters):
            return parameters[int(parameter[1])].name
        if found["before"]:
            return self.members.get(word, word)
        return self.protocols.get(word, self.members.get(word, word))


def own_names(reading: Reading) -> OwnNames:
    """The own names of a reading."""
    members = {member.name for protocol in reading.all_protocols for member in protocol.associated_types}
    return OwnNames(
        {protocol.label: protocol.name for protocol in reading.all_protocols if protocol.label != protocol.name},
        {label_of(name): name for name in members if label_of(name) != name},
    )
