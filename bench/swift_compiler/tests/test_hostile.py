"""Edits of sources, and what is said of a reader that fails at one."""
from pathlib import Path
import tempfile
import unittest

from swift_compiler.hostile import edits, faults_of


def reader_that_fails_at_brackets(paths) -> None:
    if "[" in Path(paths[0]).read_text(encoding="utf-8"):
        raise IndexError("a bracket")


class Hostile(unittest.TestCase):
    def test_edits_are_the_same_each_time_and_differ_from_the_text(self) -> None:
        first, second = (list(edits("protocol P { }", 20, "seed")) for _ in range(2))
        self.assertEqual(first, second)
        self.assertEqual(first[0], ("whole", "protocol P { }"))
        self.assertGreater(len({text for _, text in first}), 10)

    def test_a_fault_is_told_with_what_was_done(self) -> None:
        with tempfile.TemporaryDirectory() as folder:
            source = Path(folder) / "a.swift"
            source.write_text("func f<T>(_: [T])", encoding="utf-8")
            read, _, found = faults_of(reader_that_fails_at_brackets, source, 0, Path(folder))
        self.assertEqual((read, len(found), found[0].edit), (1, 1, "whole"))
        self.assertIn("IndexError: a bracket", found[0].happened)


if __name__ == "__main__":
    unittest.main()
