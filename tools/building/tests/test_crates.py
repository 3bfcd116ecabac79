"""What crates.txt and the sources of crates say."""
import os
import pathlib
import tempfile
import unittest

from building.crates import Crates

LIST = """# A comment: not a crate.

low:
mid: indexmap low
top: mid low
part_c staticlib: top
"""


class Repository(unittest.TestCase):
    """A repository of four crates, all of whose files are of the second 100."""

    def setUp(self) -> None:
        folder = tempfile.TemporaryDirectory()
        self.addCleanup(folder.cleanup)
        self.top = pathlib.Path(folder.name)
        (self.top / "crates.txt").write_text(LIST)
        for name in ("low", "mid", "top", "part_c"):
            self.write("crates/%s/src/lib.rt" % name, "")
        self.write("crates/top/src/main.rt", "")
        self.write("crates/low/specs/Lib.antt", "")
        self.write("crates/low/must-fail/one.edit", "")
        for path in [self.top / "crates.txt", *self.top.rglob("crates/**/*")]:
            os.utime(path, (100, 100))
        self.crates = Crates(self.top)

    def write(self, name: str, text: str) -> pathlib.Path:
        path = self.top / name
        path.parent.mkdir(parents=True, exist_ok=True)
        path.write_text(text)
        return path

    def made_at(self, seconds: int) -> pathlib.Path:
        path = self.write("made", "")
        os.utime(path, (seconds, seconds))
        return path


class Lists(Repository):
    def test_a_line_names_crates_and_libraries_of_the_toolchain(self) -> None:
        mid = self.crates.by_name["mid"]
        self.assertEqual((mid.crates, mid.of_kit), (("low",), ("indexmap",)))

    def test_a_library_for_c_is_static(self) -> None:
        self.assertEqual([crate.name for crate in self.crates.by_name.values() if crate.is_static], ["part_c"])

    def test_crates_stand_after_those_that_they_stand_on(self) -> None:
        self.assertEqual([crate.name for crate in self.crates.whole("part_c")], ["low", "mid", "top", "part_c"])

    def test_a_crate_with_a_main_file_is_a_program(self) -> None:
        self.assertEqual([name for name, crate in self.crates.by_name.items() if crate.is_program], ["top"])

    def test_a_crate_has_tests_where_a_source_marks_one(self) -> None:
        self.write("crates/low/src/words.rt", "#[test]\nfn a_word() {}\n")
        self.assertTrue(self.crates.by_name["low"].has_tests())
        self.assertFalse(self.crates.by_name["mid"].has_tests())


class Ages(Repository):
    def test_what_is_as_old_as_its_sources_is_made(self) -> None:
        self.assertTrue(self.crates.is_made(self.made_at(100), "top"))

    def test_a_missing_file_is_not_made(self) -> None:
        self.assertFalse(self.crates.is_made(self.top / "missing", "top"))

    def test_a_newer_source_of_a_crate_far_below_counts(self) -> None:
        os.utime(self.top / "crates/low/src/lib.rt", (101, 101))
        self.assertFalse(self.crates.is_made(self.made_at(100), "top"))

    def test_a_proof_does_not_count_for_what_is_made_of_the_code_alone(self) -> None:
        os.utime(self.top / "crates/low/specs/Lib.antt", (101, 101))
        self.assertTrue(self.crates.is_made(self.made_at(100), "top", "src"))
        self.assertFalse(self.crates.is_made(self.made_at(100), "top"))

    def test_a_source_that_is_gone_counts(self) -> None:
        made = self.made_at(100)
        self.assertTrue(self.crates.is_made(made, "top"))
        (self.top / "crates/top/src/main.rt").unlink()
        self.assertFalse(self.crates.is_made(made, "top"))

    def test_an_edit_that_has_to_fail_does_not_count(self) -> None:
        os.utime(self.top / "crates/low/must-fail/one.edit", (101, 101))
        self.assertTrue(self.crates.is_made(self.made_at(100), "top"))

    def test_another_list_of_crates_counts(self) -> None:
        os.utime(self.top / "crates.txt", (101, 101))
        self.assertFalse(self.crates.is_made(self.made_at(100), "top"))
