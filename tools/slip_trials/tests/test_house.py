"""Which slips a repository has."""
import tempfile
import unittest
from pathlib import Path

from slip_trials.house import HouseFault, Slip, chosen, slips_of


class SlipsOfAHouse(unittest.TestCase):
    def setUp(self) -> None:
        room = tempfile.TemporaryDirectory()
        self.addCleanup(room.cleanup)
        self.top = Path(room.name)

    def write(self, *paths: str) -> None:
        for path in paths:
            file = self.top / "crates" / path
            file.parent.mkdir(parents=True, exist_ok=True)
            file.write_text("# Refused by the prover.\n")

    def test_the_edits_of_the_gate_are_no_slips(self) -> None:
        self.write("low/must-fail/wrong.edit", "low/slips/worse.edit", "high/must-fail/bad.edit")
        self.assertEqual(slips_of(self.top), {"low": (Slip("low", "worse"),)})

    def test_a_slip_has_no_name_of_another_crates_edit(self) -> None:
        self.write("low/must-fail/wrong.edit", "high/slips/wrong.edit")
        with self.assertRaisesRegex(HouseFault, "the name wrong, of high and of low"):
            slips_of(self.top)

    def test_a_file_that_is_no_edit_is_refused(self) -> None:
        self.write("low/slips/wrong.edit~")
        with self.assertRaisesRegex(HouseFault, "wrong.edit~ is no edit"):
            slips_of(self.top)

    def test_an_edit_that_does_not_say_what_refuses_it_is_refused(self) -> None:
        self.write("low/must-fail/wrong.edit")
        (self.top / "crates/low/must-fail/wrong.edit").write_text("file: src/lib.rt\n")
        with self.assertRaisesRegex(HouseFault, "edit low/wrong: its first line does not begin with `# Refused by`"):
            slips_of(self.top)


class ChosenSlips(unittest.TestCase):
    slips = {name: (Slip(name, "wrong"),) for name in ("high", "low")}

    def test_those_of_all_crates_where_none_is_named(self) -> None:
        self.assertEqual(chosen(self.slips, []), [self.slips["high"], self.slips["low"]])

    def test_a_crate_that_is_named_twice_is_tried_once(self) -> None:
        self.assertEqual(chosen(self.slips, ["low", "low"]), [self.slips["low"]])

    def test_a_crate_without_slips_is_refused(self) -> None:
        with self.assertRaisesRegex(HouseFault, "lowest has no slips"):
            chosen(self.slips, ["low", "lowest"])
