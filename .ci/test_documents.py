"""What the checks of the documents find."""
import pathlib
import tempfile
import unittest

import documents

CONTRACT = """-- What is true.
pub record IsRun (r : Run) : Type 0 where
  -- The status says how.
  -- It is told.
  pub end : IsEnd r
  -- Each query prints yes.
  pub yes : Prints r
    SayYes
"""
README = """# Page

## What is proved

- `end`: The status says how. It is told.
- `yes`: Each query prints yes.

## More

- `HANDLES`: none.
"""


class Repository(unittest.TestCase):
    def setUp(self) -> None:
        folder = tempfile.TemporaryDirectory()
        self.addCleanup(folder.cleanup)
        self.top = pathlib.Path(folder.name)

    def write(self, name: str, text: str) -> None:
        path = self.top / name
        path.parent.mkdir(parents=True, exist_ok=True)
        path.write_text(text, encoding="utf-8")


class Contract(Repository):
    def test_readme_has_the_sentences_as_they_are(self) -> None:
        self.write(documents.CONTRACT, CONTRACT)
        self.write("README.md", README)
        self.assertEqual(documents.faults_of_contract(self.top), [])

    def test_other_words_are_told(self) -> None:
        self.write(documents.CONTRACT, CONTRACT)
        self.write("README.md", README.replace("prints yes", "prints no"))
        self.assertEqual(len(documents.faults_of_contract(self.top)), 1)


class Sizes(Repository):
    def test_readme_has_a_limit(self) -> None:
        self.write("README.md", "x" * documents.GREATEST_README)
        self.assertEqual(documents.faults_of_sizes(self.top), [])
        self.write("README.md", "x" * (documents.GREATEST_README + 1))
        self.assertEqual(len(documents.faults_of_sizes(self.top)), 1)

    def test_a_cell_has_a_limit(self) -> None:
        self.write("README.md", "")
        self.write("docs/PAGE.md", "| A | B |\n|---|---|\n| a | %s |\n" % ("b" * (documents.GREATEST_CELL + 1)))
        self.assertEqual(len(documents.faults_of_sizes(self.top)), 1)


class Paths(Repository):
    def missing(self, text: str) -> "list[str]":
        self.write("docs/PAGE.md", text)
        return [fault.rpartition(" ")[2] for fault in documents.faults_of_paths(self.top)]

    def test_what_is_named_has_to_be_there(self) -> None:
        self.assertEqual(self.missing("`docs/GONE.md`, `tools/gone FILE`, `VERSION`"), ["VERSION", "docs/GONE.md", "tools/gone"])
        self.assertEqual(self.missing("`docs/PAGE.md`, `docs/PAGE.md FILE`"), [])

    def test_paths_below_crates_are_whole_or_of_the_crate_before_them(self) -> None:
        self.write("crates/swreq_low/src/a.rt", "")
        self.assertEqual(self.missing("`swreq_low/src/a.rt`, `swreq_low`: `src/a.rt`, `src/b.rt`"), ["crates/swreq_low/src/b.rt"])

    def test_what_is_built_may_be_missing(self) -> None:
        self.assertEqual(self.missing("`crates/swreq_low/out/lib.a`, and `cc -o ask ask.c`, then `./ask`"), [])

    def test_commands_at_the_top_have_to_be_there(self) -> None:
        self.write("here", "")
        self.assertEqual(self.missing("```sh\n./here\n./gone < x\n```\n"), ["gone"])

    def test_a_file_may_stand_beside_its_page(self) -> None:
        self.write("docs/here.txt", "")
        self.assertEqual(self.missing("`here.txt`, `gone/gone.swift`, `NAME.txt`"), ["gone/gone.swift"])

    def test_links_lead_on_from_their_page(self) -> None:
        self.assertEqual(self.missing("[a](PAGE.md#part), [b](GONE.md), [c](https://a.example/b)"), ["GONE.md"])


class Commands(Repository):
    def test_a_command_prints_what_stands_after_it(self) -> None:
        self.write("README.md", "```sh\necho yes\n```\n\n```\nyes\n```\n")
        self.assertEqual(documents.faults_of_commands(self.top), [])
        self.write("README.md", "```sh\necho no\n```\n\n```\nyes\n```\n")
        self.assertEqual(documents.faults_of_commands(self.top), ["README.md: `echo no` prints something else"])

    def test_a_command_with_what_it_prints_stands_alone(self) -> None:
        self.write("README.md", "```sh\necho yes\necho no\n```\n\n```\nyes\nno\n```\n")
        self.assertEqual(len(documents.faults_of_blocks(self.top)), 1)
        self.write("README.md", "```sh\necho yes\necho no\n```\n\nand so on\n\n```\nyes\n```\n")
        self.assertEqual(documents.faults_of_blocks(self.top), [])


class Statuses(Repository):
    ROWS = "".join("| %d | meaning %d | more |\n" % (number, number) for number in range(7))
    ENUM = "GENREQ_A = 0, GENREQ_B = 1, GENREQ_C = 2, GENREQ_D = 3, GENREQ_E = 6"

    def test_they_are_the_same_everywhere(self) -> None:
        self.write("README.md", self.ROWS)
        self.write("docs/COMMAND_LINE.md", self.ROWS + "| 70 | another | more |\n")
        self.write("include/genreq.h", self.ENUM)
        self.assertEqual(documents.faults_of_statuses(self.top), [])
        self.write("docs/COMMAND_LINE.md", self.ROWS.replace("meaning 3", "another"))
        self.write("include/genreq.h", self.ENUM.replace("6", "7"))
        self.assertEqual(len(documents.faults_of_statuses(self.top)), 2)


class Release(Repository):
    def test_the_version_is_the_newest_release(self) -> None:
        self.write("CHANGES.md", "# Changes\n\n## 1.1.0, 2026-12-01\n\n## 1.0.0, 2026-11-30\n")
        self.write("VERSION", "1.1.0\n")
        self.assertEqual(documents.faults_of_release(self.top), [])
        self.write("VERSION", "1.0.0\n")
        self.assertEqual(len(documents.faults_of_release(self.top)), 1)


if __name__ == "__main__":
    unittest.main()
