"""How tests are counted."""
import unittest

from building.testing import count_of_script, count_of_tests

TWO = "tests: 2\ntest words::one ... ok\ntest words::two ... %s\ntest result: .. 2 passed"


class Counts(unittest.TestCase):
    def test_each_test_counts(self) -> None:
        found = count_of_tests("low", 0, TWO % "ok", 1.0)
        self.assertEqual((found.passed, found.failed, found.said), (2, 0, ""))

    def test_a_failed_test_shows_what_was_printed(self) -> None:
        found = count_of_tests("low", 1, TWO % "FAILED", 1.0)
        self.assertEqual((found.passed, found.failed), (1, 1))
        self.assertIn("words::two", found.said)

    def test_a_runner_that_fails_without_a_test_counts_as_one(self) -> None:
        self.assertEqual(count_of_tests("low", 1, TWO % "ok", 1.0).failed, 1)
        self.assertEqual(count_of_tests("low", 0, "", 1.0).failed, 1)

    def test_a_script_counts_as_its_last_line_says(self) -> None:
        found = count_of_script("worked", 0, "1 passed, 9 failed\n20 passed, 0 failed\n", 1.0)
        self.assertEqual((found.passed, found.failed), (20, 0))

    def test_a_script_that_says_nothing_counts_as_one(self) -> None:
        self.assertEqual((count_of_script("tools", 0, "", 1.0).passed, count_of_script("tools", 1, "", 1.0).failed), (1, 1))

    def test_a_script_that_fails_is_no_success_whatever_it_counts(self) -> None:
        self.assertEqual(count_of_script("worked", 1, "20 passed, 0 failed\n", 1.0).failed, 1)
