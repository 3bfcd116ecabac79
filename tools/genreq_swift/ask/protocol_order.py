"""The order in which the Swift compiler has the protocols of several modules."""
from typing import Dict

from ..read.model import Reading
from .swift_form import Key, by_name


class ProtocolOrder:
    """The key of each protocol by its label: modules are compared first, and then names."""

    def __init__(self, reading: Reading):
        self.keys: Dict[str, Key] = {protocol.label: (protocol.module, by_name(protocol.name)) for protocol in reading.protocols}

    def __call__(self, label: str) -> Key:
        return self.keys[label]
