"""Which crates are proved, in which order, and with how many processors."""
import os
import unittest
from unittest import mock

from building import proving
from building.tests.test_crates import Repository


class Rules(Repository):
    def setUp(self) -> None:
        super().setUp()
        patch = mock.patch.object(proving, "TOP", self.top)
        patch.start()
        self.addCleanup(patch.stop)

    def prove(self, name: str, seconds: int) -> None:
        made = proving.made_of(self.crates.by_name[name])
        made.parent.mkdir(parents=True, exist_ok=True)
        made.touch()
        os.utime(made, (seconds, seconds))

    def left(self) -> "list[str]":
        return [crate.name for crate in proving.left_of(self.crates, ["part_c"])]

    def test_each_crate_has_a_rule_over_its_sources_and_what_it_stands_on(self) -> None:
        rules = proving.rules(self.crates, ["top"]).splitlines()
        self.assertIn("all: crates/top/out/top", rules)
        mid = next(line for line in rules if line.startswith("crates/mid/out/rlib/mid.rlib/format: "))
        self.assertEqual(set(mid.split()[1:]), {"crates/mid/src", "crates/mid/src/lib.rt", "crates/low/out/rlib/low.rlib/format"})
        self.assertFalse([line for line in rules if "part_c" in line])

    def test_all_is_left_at_first(self) -> None:
        self.assertEqual(self.left(), ["low", "mid", "top", "part_c"])

    def test_what_is_proved_is_not_left(self) -> None:
        self.prove("low", 100)
        self.prove("mid", 100)
        self.assertEqual(self.left(), ["top", "part_c"])

    def test_what_stands_on_a_crate_that_is_left_is_left(self) -> None:
        for name in ("low", "mid", "top", "part_c"):
            self.prove(name, 200)
        os.utime(self.top / "crates/low/specs/Lib.antt", (300, 300))
        self.assertEqual(self.left(), ["low", "mid", "top", "part_c"])

    def test_what_stands_on_a_crate_that_was_proved_later_is_left(self) -> None:
        for name, seconds in (("low", 300), ("mid", 200), ("top", 200), ("part_c", 200)):
            self.prove(name, seconds)
        self.assertEqual(self.left(), ["mid", "top", "part_c"])

    def test_a_crate_with_nothing_beside_it_gets_the_processors(self) -> None:
        with mock.patch("os.cpu_count", return_value=4):
            left = proving.left_of(self.crates, ["part_c"])
            self.assertEqual(proving.jobs_for(self.crates, self.crates.by_name["mid"], left), 4)
