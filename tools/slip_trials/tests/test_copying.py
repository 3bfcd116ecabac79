"""The copy in which slips are tried."""
import tempfile
import unittest
from pathlib import Path
from typing import Dict

from slip_trials.copying import copy_with_slips

FILES = {
    "crates.txt": "low:\n",
    "HANDLES": "Handles allowed: none.\n",
    "crates/low/src/lib.rt": "source",
    "crates/low/must-fail/wrong.edit": "of the gate",
    "crates/low/slips/worse.edit": "a slip",
    "crates/low/out/rlib/format": "proved",
}


class Copying(unittest.TestCase):
    def setUp(self) -> None:
        room = tempfile.TemporaryDirectory()
        self.addCleanup(room.cleanup)
        self.top = Path(room.name)
        for path, text in FILES.items():
            (self.top / path).parent.mkdir(parents=True, exist_ok=True)
            (self.top / path).write_text(text)

    def files(self, top: Path) -> Dict[str, str]:
        return {str(path.relative_to(top)): path.read_text() for path in top.rglob("*") if path.is_file()}

    def test_slips_stand_in_place_of_the_edits_of_the_gate(self) -> None:
        with copy_with_slips(self.top) as copy:
            found = self.files(copy)
        wanted = {path: text for path, text in FILES.items() if "must-fail" not in path and "slips" not in path}
        self.assertEqual(found, {**wanted, "crates/low/must-fail/worse.edit": "a slip"})

    def test_what_is_proved_is_shared(self) -> None:
        proved = "crates/low/out/rlib/format"
        with copy_with_slips(self.top) as copy:
            self.assertTrue((copy / proved).samefile(self.top / proved))

    def test_the_copy_goes_and_the_repository_stays(self) -> None:
        with copy_with_slips(self.top) as copy:
            pass
        self.assertFalse(copy.exists())
        self.assertEqual(self.files(self.top), FILES)
