"""The generic parameters of a declaration, and what is required of them."""
from typing import Dict, List, Optional, Tuple

from .statements import Meaning, OtherType, Statement
from ..read.model import Cause, GenericParameter, TypeParameter, label_of
from ..read.tokens import Source


class Scope:
    """The generic parameters of a declaration and all around it, what their names mean, and what is required of them."""

    def __init__(self, around: "Optional[Scope]" = None):
        self.parameters: List[GenericParameter] = list(around.parameters) if around else []
        self.names: Dict[str, GenericParameter] = dict(around.names) if around else {}
        self.outside: Dict[str, Cause] = dict(around.outside) if around else {}  # the parameters that are packs or integers, by name
        self.around: List[Statement] = around.statements if around else []
        self.own: List[Statement] = []
        self.depth: int = around.depth if around else 0

    @property
    def statements(self) -> List[Statement]:
        """All that is required."""
        return self.around + self.own

    def meaning(self, parameter: GenericParameter) -> Meaning:
        """A generic parameter as a type. Those that are packs or integers are none."""
        if parameter.name in self.outside:
            return OtherType(parameter.name, self.outside[parameter.name])
        return TypeParameter(parameter)

    def declare(self, name: str, place_of: "Tuple[Source, int]", index: int) -> GenericParameter:
        """Takes up a generic parameter of the list that is at the scope's depth."""
        label = label_of(name)
        while any(parameter.label == label for parameter in self.parameters):
            label += "_"
        source, start = place_of
        parameter = GenericParameter(name, label, self.depth, index, source.place(start))
        self.parameters.append(parameter)
        self.names[name] = parameter
        return parameter
