"""The four packages are floors: read, mean, ask, say. None stands on one above it, and no module stands beside them."""
from pathlib import Path
import re
import unittest

TOP = Path(__file__).resolve().parent.parent
FLOORS = ("read", "mean", "ask", "say")
_IMPORT = re.compile(r"^from \.\.(\w+)\.", re.MULTILINE)


class Floors(unittest.TestCase):
    def test_no_module_is_without_a_floor(self):
        self.assertEqual([path.name for path in TOP.glob("*.py")], ["__init__.py"])

    def test_none_stands_on_one_above(self):
        for floor in FLOORS:
            above = set(FLOORS[FLOORS.index(floor) + 1 :])
            for path in (TOP / floor).glob("*.py"):
                used = set(_IMPORT.findall(path.read_text(encoding="utf-8")))
                self.assertEqual(used & above, set(), path)
