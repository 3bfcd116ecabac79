"""Whether a slip can be applied."""
import tempfile
import unittest
from pathlib import Path
from typing import Dict

from slip_trials.applying import apply
from slip_trials.house import HouseFault, Slip

SOURCE = "let a = 1;\nlet b = 1;\n"


class Applying(unittest.TestCase):
    def setUp(self) -> None:
        room = tempfile.TemporaryDirectory()
        self.addCleanup(room.cleanup)
        self.top = Path(room.name)
        for path, text in (("src/lib.rt", SOURCE), ("slips/wrong.edit", "")):
            file = self.top / "crates/low" / path
            file.parent.mkdir(parents=True)
            file.write_text(text)

    def applied(self, *lines: str) -> Dict[str, str]:
        (self.top / "crates/low/slips/wrong.edit").write_text("".join(line + "\n" for line in lines))
        return apply(Slip("low", "wrong"), self.top)

    def test_each_pair_changes_what_the_pairs_before_it_made(self) -> None:
        found = self.applied("file: src/lib.rt", "old: a = 1", "new: a = 2", "old: let a = 2;", "new:")
        self.assertEqual(found, {"src/lib.rt": "\nlet b = 1;\n"})

    def test_a_text_that_is_gone_or_stands_twice_is_refused(self) -> None:
        with self.assertRaisesRegex(HouseFault, "slip low/wrong: `c = 1` stands 0 times in src/lib.rt"):
            self.applied("file: src/lib.rt", "old: c = 1", "new: c = 2")
        with self.assertRaisesRegex(HouseFault, "`= 1` stands 2 times"):
            self.applied("file: src/lib.rt", "old: = 1", "new: = 2")

    def test_an_edit_of_another_form_is_refused(self) -> None:
        for lines in ([], ["file: src/gone.rt"], ["old: a", "new: b"], ["file: src/lib.rt", "new: b"]):
            with self.subTest(lines), self.assertRaises(HouseFault):
                self.applied(*lines)
