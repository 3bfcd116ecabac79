"""What the first line of an edit says."""
import tempfile
import unittest
from pathlib import Path

from slip_trials.reasons import fault_of

SOURCE = """pub struct Stack;

impl<'a> Stack<'a> {
    pub fn pop(&mut self) -> bool
        ensures none { IsTrue result }
"""


class FaultOfAReason(unittest.TestCase):
    def setUp(self) -> None:
        room = tempfile.TemporaryDirectory()
        self.addCleanup(room.cleanup)
        self.top = Path(room.name)
        (self.top / "crates/low/src/deep").mkdir(parents=True)
        (self.top / "crates/low/src/deep/stack.rt").write_text(SOURCE)

    def test_a_clause_that_is_there(self) -> None:
        self.assertIsNone(fault_of(self.top, "# Refused by the clause `none` of low::deep::stack::Stack::pop."))

    def test_no_reason(self) -> None:
        self.assertEqual(fault_of(self.top, "file: src/lib.rt"), "its first line does not begin with `# Refused by`")

    def test_a_function_that_is_gone(self) -> None:
        self.assertEqual(fault_of(self.top, "# Refused by the clause of low::deep::stack::Stack::push."), "there is no low::deep::stack::Stack::push")

    def test_a_module_that_is_gone(self) -> None:
        self.assertEqual(fault_of(self.top, "# Refused by the clause of low::pop."), "there is no low::pop")

    def test_a_clause_that_is_gone(self) -> None:
        self.assertEqual(fault_of(self.top, "# Refused by the clause `some` of low::deep::stack::Stack::pop."), "there is no clause `some`")
