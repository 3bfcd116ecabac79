"""The texts that are timed. Run by `python3 -m unittest discover -s bench/answers`."""

import pathlib
import unittest

from text import Writer, members_of, read_library

LIBRARY = """protocol E { }
protocol S { associatedtype Item associatedtype It: I & E where It.Item == Item }
protocol I { associatedtype Item }
protocol C: S, E where Item: E { associatedtype Part: C; associatedtype Item: E }
"""
WHOLE = pathlib.Path(__file__).resolve().parent.parent / "library.txt"


class Texts(unittest.TestCase):
    def test_protocols_have_their_own_members(self) -> None:
        protocols = read_library(LIBRARY)
        self.assertEqual(list(protocols), ["E", "S", "I", "C"])
        self.assertEqual(protocols["S"].declared, {"Item": (), "It": ("I", "E")})
        self.assertEqual(protocols["C"].inherited, ("S", "E"))

    def test_members_are_inherited(self) -> None:
        members = members_of(read_library(LIBRARY), "C")
        self.assertEqual(members, {"Item": {"E"}, "It": {"I", "E"}, "Part": {"C"}})

    def test_the_library_has_fifty_protocols(self) -> None:
        self.assertEqual(len(read_library(WHOLE.read_text(encoding="utf-8"))), 50)

    def test_functions_are_the_same_each_time(self) -> None:
        first, second = Writer(read_library(LIBRARY)), Writer(read_library(LIBRARY))
        self.assertEqual([first.function(k) for k in range(50)], [second.function(k) for k in range(50)])

    def test_a_function_has_three_to_five_requirements(self) -> None:
        writer = Writer(read_library(LIBRARY))
        for number in range(100):
            head, *queries = writer.function(number)
            count = head.count(": ") + head.count(" == ")
            self.assertIn(count, range(3, 6), head)
            self.assertEqual([query.partition("(")[0] for query in queries], [f"query f{number}"] * 2)


if __name__ == "__main__":
    unittest.main()
