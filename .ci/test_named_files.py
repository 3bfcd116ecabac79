"""Which files a task has to name, and which it names."""
import pathlib
import re
import tempfile
import unittest
from typing import Dict, List

import named_files
from named_files import Task

TASK = Task("Add a colour", re.compile(r"\bColour::|\bIsRed\b"))


def page_with(*lines: str) -> str:
    return "# Page\n\n## Add a colour\n\n%s\n\n## Another task\n\n1. `swreq_low/src/other.rt`\n" % "\n".join(lines)


class Files(unittest.TestCase):
    def faults(self, files: Dict[str, str], *lines: str) -> List[str]:
        """What is wrong with a task of these lines where these files are there."""
        with tempfile.TemporaryDirectory() as folder:
            for name, text in files.items():
                path = pathlib.Path(folder, name)
                path.parent.mkdir(parents=True, exist_ok=True)
                path.write_text(text, encoding="utf-8")
            return named_files.faults_of_task(TASK, page_with(*lines), pathlib.Path(folder))

    def test_a_task_names_each_file_with_a_variant(self) -> None:
        files = {"swreq_low/src/a.rt": "Colour::Red", "swreq_low/specs/B.antt": "IsRed", "swreq_low/src/c.rt": "Shape::Round"}
        self.assertEqual(self.faults(files, "1. `swreq_low/src/a.rt`", "2. `swreq_low`: `specs/B.antt`"), [])

    def test_a_file_that_is_not_named_is_told(self) -> None:
        files = {"swreq_low/src/a.rt": "Colour::Red"}
        self.assertEqual(self.faults(files, "1. `README.md`"), ["Add a colour: it lacks what names variants: swreq_low/src/a.rt"])

    def test_a_named_file_without_a_variant_is_told(self) -> None:
        files = {"swreq_low/src/c.rt": "Shape::Round"}
        self.assertEqual(self.faults(files, "1. `swreq_low/src/c.rt`"), ["Add a colour: it has what names no variant: swreq_low/src/c.rt"])

    def test_a_named_file_that_is_gone_is_told(self) -> None:
        self.assertEqual(len(self.faults({}, "1. `swreq_low/src/gone.rt`")), 1)

    def test_comments_and_strings_name_no_variant(self) -> None:
        files = {
            "swreq_low/src/a.rt": "// Colour::Red\nlet quote = '\"'; let s = \"Colour::Red\n \\\" Colour::Red\";\n",
            "swreq_low/specs/B.antt": "-- IsRed\nuse Low.{IsBlue} -- IsRed\n",
        }
        self.assertEqual(self.faults(files, "1. `docs/PAGE.md`"), [])

    def test_what_stands_after_the_steps_is_no_list(self) -> None:
        files = {"swreq_low/src/a.rt": "Colour::Red"}
        self.assertEqual(self.faults(files, "1. `swreq_low/src/a.rt`", "", "Besides `swreq_low/src/c.rt`."), [])

    def test_proofs_and_edits_are_not_listed(self) -> None:
        files = {"swreq_low/proofs/P.antt": "IsRed", "swreq_low/slips/s.edit": "Colour::Red"}
        self.assertEqual(self.faults(files, "1. `docs/PAGE.md`"), [])

    def test_a_path_in_a_crate_is_of_the_crate_named_last(self) -> None:
        line = "1. `swreq_low`: `src/a.rt` (`Red`), `specs/B.antt`; `swreq_high`: `src/c.rt`, and `swreq_mid/src/d.rt`."
        wanted = ["swreq_low/src/a.rt", "swreq_low/specs/B.antt", "swreq_high/src/c.rt", "swreq_mid/src/d.rt"]
        self.assertEqual(list(named_files.files_in(line)), wanted)


if __name__ == "__main__":
    unittest.main()
