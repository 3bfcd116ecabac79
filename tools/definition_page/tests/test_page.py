"""What the page has of the contract and of the definitions."""
import pathlib
import unittest

from definition_page import contract, page
from definition_page.specs import Definition

RECORD = """pub record IsRun (r : Run) : Type 0 where
  -- How it ends.
  -- All of it.
  pub end : IsEnd r
  -- What it prints.
  pub yes : Prints r
    SayYes
"""
SOURCE = """pub fn run<S: Source>(src: &mut S) -> u8
    // Little is read.
    ensures source { Reads
        src.old src.new }
    ensures run { IsRun result }
{
    0
}
"""


class Clauses(unittest.TestCase):
    def test_the_fields_of_the_record_are_clauses(self) -> None:
        first, second = contract.fields_of_contract(RECORD)
        self.assertEqual((first.name, first.comment, first.text.strip()), ("end", "How it ends. All of it.", "IsEnd r"))
        self.assertEqual((second.name, second.comment, second.text.split()), ("yes", "What it prints.", ["Prints", "r", "SayYes"]))

    def test_so_are_those_of_run_but_for_the_one_of_the_record(self) -> None:
        (only,) = contract.clauses_of_run(SOURCE)
        self.assertEqual((only.name, only.comment), ("source", "Little is read."))
        self.assertIn("src.old src.new", only.text)

    def test_what_no_other_clause_cites_is_its_own(self) -> None:
        a, b, c = ("m", "a"), ("m", "b"), ("m", "c")
        self.assertEqual(contract.own_of({"x": {a, b}, "y": {b, c}}), {"x": {a}, "y": {c}})


class Sentences(unittest.TestCase):
    def said(self, text: str, comment: str) -> str:
        return page.sentence(Definition("x", text, comment, 1))

    def test_the_first_sentence_of_a_comment_is_shown(self) -> None:
        self.assertEqual(self.said("", "A `T.A` or so. More of it."), "A `T.A` or so.")

    def test_without_a_comment_the_declaration_is_shown(self) -> None:
        self.assertEqual(self.said("  abbrev pub x : Type 0\n  x = y", ""), "`x : Type 0`")

    def test_marks_of_markdown_are_no_marks_outside_code(self) -> None:
        self.assertEqual(self.said("", "x* is < `y*`"), "x\\* is &lt; `y*`")


class Page(unittest.TestCase):
    def test_what_yes_rests_on_is_explained_and_the_rest_has_a_line_for_each_file(self) -> None:
        text = page.page(page.TOP / "crates")
        explained, rest = text.split("\n## What the rest of the contract rests on\n")
        self.assertIn("\n| `yes` | ", explained)
        self.assertIn("\n### swreq_derive/specs/Derivation.antt\n", explained)
        lines = rest.partition("\n## ")[0].strip().split("\n")[2:]
        self.assertTrue(all(line.startswith("- `") and line.count(".antt`: `") == 1 for line in lines))

    def test_an_item_is_found_in_its_source(self) -> None:
        crates = pathlib.Path(page.TOP / "crates")
        self.assertEqual(page.source_of(crates, "Rattle.swreq_word.specs.declared.symbols.Symbol"), ("swreq_word/src/symbols.rt", "Symbol"))
        self.assertIsNone(page.source_of(crates, "Rattle.std.specs.Prelude"))
