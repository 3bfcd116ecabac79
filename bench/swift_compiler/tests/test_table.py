"""The tables that are printed."""
import unittest

from swift_compiler.comparing import Pair
from swift_compiler.forms import Likeness
from swift_compiler.ours import Own
from swift_compiler.table import differences, row, table, total


def pair(ours: str, theirs: str, status: str = "whole") -> Pair:
    return Pair(Own("a.swift", 1, 2, "func", "f", status, ours), theirs or None)


PAIRS = [
    pair("<τ_0_0 where τ_0_0 : P>", "<τ_0_0 where τ_0_0 : P>"),
    pair("<τ_0_0 where τ_0_0 : P>", "<τ_0_0 where τ_0_0 : Q>"),
    pair("<τ_0_0>", "<τ_0_0 where τ_0_0 == Int>", "incomplete"),
    pair("<τ_0_0>", ""),
]


class Tables(unittest.TestCase):
    def test_each_signature_is_counted_once(self) -> None:
        found = row("M", PAIRS)
        self.assertEqual((found.ours, found.incomplete, found.not_printed, found.compared), (4, 1, 1, 2))
        self.assertEqual(found.counts, {Likeness.SAME: 1, Likeness.OTHER: 1})

    def test_the_last_row_is_the_sum(self) -> None:
        rows = [row("M", PAIRS), row("N", PAIRS[:1])]
        self.assertEqual(total(rows).words, ["all", "5", "1", "1", "3", "2", "0", "0", "0", "1"])
        self.assertEqual(len({len(line) for line in table("signatures", rows)}), 1)

    def test_a_difference_is_told_with_its_place_and_both_texts(self) -> None:
        self.assertEqual(
            differences(PAIRS, [Likeness.OTHER]),
            ["", "a.swift:1:2: f: other", "  ours      <τ_0_0 where τ_0_0 : P>", "  compiler  <τ_0_0 where τ_0_0 : Q>"],
        )


if __name__ == "__main__":
    unittest.main()
