"""The command, with a script in place of `rt` that says what it is told to say."""
import contextlib
import io
import os
import tempfile
import unittest
from pathlib import Path
from typing import Tuple
from unittest import mock

from slip_trials import command


class Command(unittest.TestCase):
    def setUp(self) -> None:
        room = tempfile.TemporaryDirectory()
        self.addCleanup(room.cleanup)
        self.top, self.tools = Path(room.name) / "house", Path(room.name) / "tools"
        for name in ("wrong", "worse"):
            self.slip(name)
        self.tools.mkdir()
        self.source("right")
        for changed in (mock.patch.object(command, "TOP", self.top), mock.patch.dict(os.environ, PATH="%s:/usr/bin:/bin" % self.tools)):
            changed.start()
            self.addCleanup(changed.stop)

    def slip(self, name: str) -> None:
        folder = self.top / "crates/low/slips"
        folder.mkdir(parents=True, exist_ok=True)
        (folder / (name + ".edit")).write_text("# Refused by the prover.\nfile: src/lib.rt\nold: right\nnew: %s\n" % name)

    def source(self, text: str) -> None:
        (self.top / "crates/low/src").mkdir(exist_ok=True)
        (self.top / "crates/low/src/lib.rt").write_text(text)

    def toolchain(self, script: str) -> None:
        rt = self.tools / "rt"
        rt.write_text("#!/bin/sh\n" + script)
        rt.chmod(0o755)

    def runs(self, *words: str) -> Tuple[int, str, str]:
        out, err = io.StringIO(), io.StringIO()
        with contextlib.redirect_stdout(out), contextlib.redirect_stderr(err):
            status = command.main(list(words))
        return status, out.getvalue(), err.getvalue()

    def test_all_are_refused(self) -> None:
        self.toolchain('[ "$*" = "must-fail low" ] && ls crates/low/must-fail/worse.edit crates/low/must-fail/wrong.edit')
        status, out, _ = self.runs()
        self.assertEqual((status, out.splitlines()), (0, ["refused      low/worse", "refused      low/wrong", "2 slips refused, 0 not refused, 0 bad"]))

    def test_one_that_is_not_refused_is_told(self) -> None:
        self.toolchain('echo "rt: must-fail low/worse.edit: refused"; echo "rt: must-fail low/wrong.edit: NOT REFUSED: it is proved"; exit 1')
        status, out, _ = self.runs("low")
        self.assertEqual((status, out.splitlines()[1:]), (1, ["NOT REFUSED  low/wrong: it is proved", "1 slips refused, 1 not refused, 0 bad"]))

    def test_names_alone(self) -> None:
        self.assertEqual(self.runs("--list"), (0, "low/worse\nlow/wrong\n", ""))

    def test_the_names_end_at_a_slip_that_cannot_be_applied(self) -> None:
        self.source("changed")
        self.assertEqual(self.runs("--list"), (2, "", "slips: slip low/worse: `right` stands 0 times in src/lib.rt, and not once\n"))

    def test_no_toolchain(self) -> None:
        with mock.patch.dict(os.environ, PATH=str(self.tools)):
            status, out, err = self.runs()
        self.assertEqual((status, out, err.count("\n")), (2, "", 1))
        self.assertIn("rt, the command of the Rattle toolchain, is not on the path", err)

    def test_a_crate_without_slips(self) -> None:
        self.assertEqual(self.runs("high"), (2, "", "slips: high has no slips\n"))
