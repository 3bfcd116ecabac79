"""How blocks are written for `man`."""
import unittest

from manual_page.markdown import Code, Heading, Items, Paragraph, Table
from manual_page.roff import inline, lines_of


class Inline(unittest.TestCase):
    def test_code_and_strong_words_are_strong_and_emphasised_words_are_slanted(self) -> None:
        self.assertEqual(inline("a `b-c` **d** and *e f*"), "a \\fBb\\-c\\fR \\fBd\\fR and \\fIe f\\fR")

    def test_a_link_is_its_words(self) -> None:
        self.assertEqual(inline("see [the page](docs/PAGE.md)"), "see the page")

    def test_stars_and_backslashes_in_code_stand_as_they_are(self) -> None:
        self.assertEqual(inline("`x*` is `a\\b`"), "\\fBx*\\fR is \\fBa\\eb\\fR")

    def test_a_backtick_can_be_code(self) -> None:
        self.assertEqual(inline("`` ` `` alone"), "\\fB`\\fR alone")

    def test_a_text_that_begins_with_a_dot_is_no_macro(self) -> None:
        self.assertEqual(inline("..end"), "\\&..end")


class Lines(unittest.TestCase):
    def test_a_heading_is_a_section_or_a_part_of_one(self) -> None:
        self.assertEqual(lines_of([Heading(2, "Calls"), Heading(3, "More")]), [".SH CALLS", ".SS More"])

    def test_paragraphs_and_items(self) -> None:
        blocks = [Paragraph("p"), Items((("-", "a"), ("2.", "b")))]
        self.assertEqual(lines_of(list(blocks)), [".PP", "p", ".IP \\(bu 4", "a", ".IP 2. 4", "b"])

    def test_a_row_stands_under_its_first_cell(self) -> None:
        self.assertEqual(lines_of([Table(("A", "B"), (("x", "y"),))]), [".TP", "x", "y"])

    def test_more_cells_stand_with_their_heads(self) -> None:
        self.assertEqual(lines_of([Table(("A", "B", "C"), (("x", "y", "z"),))]), [".TP", "x", "B: y", ".br", "C: z"])

    def test_code_is_left_as_it_is(self) -> None:
        self.assertEqual(lines_of([Code((".x", "", "  -y"))]), [".PP", ".RS 4", ".nf", "\\&.x", "", "  \\-y", ".fi", ".RE"])
