"""Which blocks a page has."""
import unittest

from manual_page.markdown import Code, Heading, Items, NoSection, Paragraph, Table, blocks_of, section_of

PAGE = """# Page

Words that
go on.

- one
- two

1. first
2. second

## Other

| A | B |
|---|---|
| `x \\| y` | z |

```sh
# no heading

- no item
```
"""


class Blocks(unittest.TestCase):
    def test_a_page_is_its_blocks_in_order(self) -> None:
        wanted = [
            Heading(1, "Page"),
            Paragraph("Words that go on."),
            Items((("-", "one"), ("-", "two"))),
            Items((("1.", "first"), ("2.", "second"))),
            Heading(2, "Other"),
            Table(("A", "B"), (("`x | y`", "z"),)),
            Code(("# no heading", "", "- no item")),
        ]
        self.assertEqual(list(blocks_of(PAGE)), wanted)

    def test_the_empty_heading_is_what_stands_before_the_first_section(self) -> None:
        self.assertEqual(len(section_of(list(blocks_of(PAGE)), "")), 3)

    def test_a_section_ends_at_the_next_one_and_has_those_below_it(self) -> None:
        blocks = list(blocks_of("# P\n\n## A\n\na\n\n### B\n\nb\n\n## C\n\nc\n"))
        self.assertEqual(section_of(blocks, "A"), [Paragraph("a"), Heading(3, "B"), Paragraph("b")])

    def test_a_section_that_is_not_there_is_told(self) -> None:
        with self.assertRaises(NoSection):
            section_of(list(blocks_of(PAGE)), "Gone")
