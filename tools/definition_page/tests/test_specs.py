"""Which definitions a file has, and what they rest on."""
import pathlib
import tempfile
import unittest
from typing import List

from definition_page.specs import Specs, comment_above, uses

LOW = """-- Low things.
use Rattle.std.specs.Prelude.{List, Option as Maybe}

-- ---- colours
-- A colour. There are two.
pub data Colour : Type 0 where
  Red : Colour
  Blue : Colour

-- the other one
abbrev pub other : Colour → Colour
other Red = Blue
other Blue = Red

abbrev pub all : List Colour
all = []
"""
HIGH = """use Rattle.high.specs.Low.{Red, other}
use Rattle.low.specs.Low as low
use Rattle.low.specs.Low.{other as turned}

module _ (c : low.Colour) where
  -- It is turned.
  abbrev pub IsTurned : Type 0
  IsTurned = turned c ≡ low.Blue

abbrev pub Alone : Type 0
Alone = Unit {0} -- turned
"""
LOW_MODULE, HIGH_MODULE = "Rattle.low.specs.Low", "Rattle.high.specs.High"


class Folder(unittest.TestCase):
    def setUp(self) -> None:
        folder = tempfile.TemporaryDirectory()
        self.addCleanup(folder.cleanup)
        for name, text in (("low/specs/Low.antt", LOW), ("high/specs/High.antt", HIGH), ("high/specs/Lib.antt", "abbrev pub no : Type 0\n")):
            path = pathlib.Path(folder.name, name)
            path.parent.mkdir(parents=True, exist_ok=True)
            path.write_text(text, encoding="utf-8")
        self.specs = Specs(pathlib.Path(folder.name))


class Definitions(Folder):
    def names(self, module: str) -> List[str]:
        return [name for where, name in self.specs.definitions if where == module]

    def test_each_definition_of_each_file_is_found_but_those_of_the_table_of_contents(self) -> None:
        self.assertEqual((self.names(LOW_MODULE), self.names(HIGH_MODULE)), (["Colour", "other", "all"], ["IsTurned", "Alone"]))
        self.assertEqual(len(self.specs.files), 2)

    def test_a_definition_has_its_lines_and_the_comment_above_it(self) -> None:
        found = self.specs.definitions[LOW_MODULE, "other"]
        self.assertEqual((found.comment, found.line, len(found.text.split("\n"))), ("the other one", 11, 3))

    def test_a_heading_is_no_comment(self) -> None:
        self.assertEqual(comment_above(LOW.split("\n"), 5), "A colour. There are two.")

    def test_a_constructor_is_of_its_type(self) -> None:
        self.assertEqual(self.specs.resolve(LOW_MODULE, "Red"), (LOW_MODULE, "Colour"))


class Rests(Folder):
    def test_names_may_be_brought_under_other_names(self) -> None:
        names, aliases = uses(HIGH, "use")
        self.assertEqual(names["turned"], (LOW_MODULE, "other"))
        self.assertEqual(aliases, {"low": LOW_MODULE})

    def test_a_name_that_another_crate_passes_on_is_brought_from_its_own_module(self) -> None:
        names, aliases = uses("use Rattle.high.specs.low.Low.{other}\nuse Rattle.high.specs.low.declared.file.Kind.{Kind}\n"
                              "use Rattle.high.specs.low.Low as under\n", "use")
        self.assertEqual(names, {"other": (LOW_MODULE, "other"), "Kind": ("Rattle.low.specs.declared.file.Kind", "Kind")})
        self.assertEqual(aliases, {"under": LOW_MODULE})

    def test_one_line_may_bring_names_of_several_modules(self) -> None:
        names, _ = uses("ghost use Rattle.high.specs.{low.Low.{other as turned, all}, High.{Alone}};", "ghost use")
        self.assertEqual(names, {"turned": (LOW_MODULE, "other"), "all": (LOW_MODULE, "all"), "Alone": (HIGH_MODULE, "Alone")})

    def test_a_definition_rests_on_all_that_it_names_and_so_on(self) -> None:
        keys, _ = self.specs.closure([(HIGH_MODULE, "IsTurned")])
        self.assertEqual(keys, {(HIGH_MODULE, "IsTurned"), (LOW_MODULE, "other"), (LOW_MODULE, "Colour")})

    def test_comments_name_nothing(self) -> None:
        self.assertEqual(self.specs.below((HIGH_MODULE, "Alone")), set())

    def test_names_of_elsewhere_are_told(self) -> None:
        _, elsewhere = self.specs.closure([(LOW_MODULE, "all")])
        self.assertEqual(elsewhere, {("Rattle.std.specs.Prelude", "List")})

    def test_files_stand_after_those_on_which_they_rest(self) -> None:
        self.assertEqual(self.specs.in_order(set(self.specs.definitions)), [LOW_MODULE, HIGH_MODULE])
