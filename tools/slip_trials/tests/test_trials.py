"""What is read of the output of `rt must-fail`."""
import unittest

from slip_trials.house import Slip
from slip_trials.trials import Trial, Verdict, batches, trials_by

SLIP, OTHER = Slip("low", "wrong"), Slip("low", "very_wrong")


class ReadTrials(unittest.TestCase):
    def verdict(self, *lines: str) -> Verdict:
        return trials_by([SLIP], 1, "\n".join(lines))[0].verdict

    def test_status_0_says_that_all_are_refused(self) -> None:
        self.assertEqual(trials_by([SLIP, OTHER], 0, ""), [Trial(SLIP, Verdict.REFUSED, ""), Trial(OTHER, Verdict.REFUSED, "")])

    def test_each_verdict_is_told_from_the_others(self) -> None:
        self.assertIs(self.verdict("rt: must-fail low/wrong.edit: refused, as it must be: src/lib.rt:1:2: error"), Verdict.REFUSED)
        self.assertIs(self.verdict("rt: must-fail low/wrong.edit: NOT REFUSED: it cannot be refused"), Verdict.NOT_REFUSED)
        self.assertIs(self.verdict("rt: must-fail low/wrong.edit: BAD EDIT: its text is not there"), Verdict.BAD)
        self.assertIs(self.verdict("rt: must-fail low/wrong.edit: NOT TRIED: its check was killed"), Verdict.NOT_TRIED)

    def test_other_words_are_no_refusal(self) -> None:
        self.assertIs(self.verdict("rt: must-fail low/wrong.edit: perhaps refused"), Verdict.NOT_TRIED)

    def test_the_line_of_another_slip_is_not_taken(self) -> None:
        lines = ["must-fail low/very_wrong.edit: refused", "must-fail low/wrong.edit: NOT REFUSED: it is proved"]
        self.assertIs(self.verdict(*lines), Verdict.NOT_REFUSED)

    def test_where_the_run_broke_off_its_last_line_is_the_reason(self) -> None:
        self.assertEqual(trials_by([SLIP], 1, "one\nlow is not proved\n"), [Trial(SLIP, Verdict.NOT_TRIED, "low is not proved")])


class Batches(unittest.TestCase):
    def test_crates_share_a_run_until_it_fills_the_processors(self) -> None:
        one, two, three = [(Slip(name, "wrong"),) * count for name, count in (("a", 1), ("b", 2), ("c", 3))]
        self.assertEqual(list(batches([one, two, three], 3)), [[one, two], [three]])
        self.assertEqual(list(batches([three, one], 4)), [[three, one]])
        self.assertEqual(list(batches([three, one], 3)), [[three], [one]])
