"""What is installed, and that no file is installed in half."""
import os
import pathlib
import tempfile
import unittest
from typing import List
from unittest import mock

from building import installing
from building.crates import Crates
from building.installing import Built, CannotWrite, Entry, NotBuilt

TOP = installing.TOP


class Folder(unittest.TestCase):
    def setUp(self) -> None:
        folder = tempfile.TemporaryDirectory()
        self.addCleanup(folder.cleanup)
        self.prefix = pathlib.Path(folder.name) / "usr"

    def files(self) -> List[str]:
        return sorted(str(path.relative_to(self.prefix)) for path in self.prefix.rglob("*") if not path.is_dir())


class Putting(Folder):
    def test_files_programs_and_links_are_put(self) -> None:
        installing.put([Entry("share/x", b"x"), Entry("bin/p", b"p", is_program=True), Entry("bin/l", leads_to="p")], self.prefix)
        self.assertEqual(self.files(), ["bin/l", "bin/p", "share/x"])
        self.assertEqual((self.prefix / "bin/l").read_bytes(), b"p")
        self.assertTrue(os.access(self.prefix / "bin/p", os.X_OK))
        self.assertFalse(os.access(self.prefix / "share/x", os.X_OK))

    def test_what_was_there_is_replaced(self) -> None:
        installing.put([Entry("a", b"old"), Entry("l", leads_to="a")], self.prefix)
        installing.put([Entry("a", b"new"), Entry("l", leads_to="a")], self.prefix)
        self.assertEqual((self.files(), (self.prefix / "l").read_bytes()), (["a", "l"], b"new"))

    def test_where_one_file_cannot_be_written_none_is(self) -> None:
        installing.put([Entry("a", b"old")], self.prefix)
        (self.prefix / "b").mkdir()
        with self.assertRaises(CannotWrite):
            installing.put([Entry("a", b"new"), Entry("b", b"new")], self.prefix)
        self.assertEqual((self.files(), (self.prefix / "a").read_bytes()), (["a"], b"old"))

    def test_a_full_disk_leaves_nothing_beside(self) -> None:
        with mock.patch("pathlib.Path.chmod", side_effect=OSError(28, "No space left on device")):
            with self.assertRaises(CannotWrite):
                installing.put([Entry("a", b"new")], self.prefix)
        self.assertEqual(self.files(), [])


class Choosing(Folder):
    def setUp(self) -> None:
        super().setUp()
        self.crates = Crates(TOP)
        self.built: List[str] = []
        made = mock.patch.object(Crates, "is_made", lambda _, path, name, *parts: path.name in self.built)
        made.start()
        self.addCleanup(made.stop)

    def test_a_program_that_is_not_proved_is_refused_with_what_to_run(self) -> None:
        with self.assertRaisesRegex(NotBuilt, "run ./prove and ./library first"):
            installing.program_to_install(self.crates, False)

    def test_a_library_that_is_not_built_is_refused_or_left_out(self) -> None:
        self.built = []
        with self.assertRaisesRegex(NotBuilt, "run ./library first"):
            installing.library_to_install(self.crates, False)
        self.assertEqual(installing.library_to_install(self.crates, True), Built((), False))

    def test_an_unproved_library_is_taken_where_it_is_there(self) -> None:
        self.built = ["libgenreq.a"]
        library = installing.library_to_install(self.crates, True)
        self.assertEqual({path.parent.name for path in library.paths}, {"unproved"})
        self.assertFalse(library.is_proved)

    def test_the_proved_program_is_taken_where_it_is_there(self) -> None:
        self.built = ["genreq"]
        self.assertTrue(installing.program_to_install(self.crates, True).is_proved)

    def test_an_unproved_program_is_built_where_it_may_be(self) -> None:
        with mock.patch.object(installing.unproved, "ensure", return_value=pathlib.Path("built")):
            self.assertEqual(installing.program_to_install(self.crates, True), Built((pathlib.Path("built"),), False))

    def test_it_is_told_what_is_not_proved(self) -> None:
        program, library = Built((pathlib.Path("p"),), True), Built((pathlib.Path("l"),), True)
        self.assertEqual(len(installing.said_of(self.crates, self.prefix, program, library)), 1)
        lines = installing.said_of(self.crates, self.prefix, Built(program.paths, False), Built(library.paths, False))
        self.assertEqual(["NOT proved" in line for line in lines], [False, True, True])
        self.assertIn("without the library", installing.said_of(self.crates, self.prefix, program, Built((), False))[1])


class Entries(Folder):
    def setUp(self) -> None:
        super().setUp()
        self.program = pathlib.Path(self.prefix.parent, "program")
        self.program.write_bytes(b"#!/bin/sh\n")

    def entries(self, *libraries: pathlib.Path) -> List[Entry]:
        return installing.entries_of(TOP, Built((self.program,), True), Built(libraries, True))

    def test_each_place_is_taken_once_and_the_program_comes_last(self) -> None:
        places = [entry.place for entry in self.entries(self.program)]
        self.assertEqual(len(places), len(set(places)))
        self.assertEqual(places[-1], "bin/genreq")

    def test_tools_reach_the_program_by_a_link(self) -> None:
        installing.put(self.entries(), self.prefix)
        tool = (self.prefix / "bin/genreq-at").resolve()
        self.assertEqual((tool.parent.parent / "genreq").resolve(), (self.prefix / "bin/genreq").resolve())

    def test_without_the_library_nothing_of_it_is_there(self) -> None:
        places = [entry.place for entry in self.entries()]
        self.assertFalse([place for place in places if place.startswith(("lib/", "include/"))])

    def test_pkg_config_is_told_the_release(self) -> None:
        told = next(entry for entry in self.entries(self.program) if entry.place.endswith(".pc"))
        self.assertIn(b"\nVersion: %s\n" % (TOP / "VERSION").read_bytes().strip(), told.content)


class Words(unittest.TestCase):
    def test_one_prefix_is_wanted(self) -> None:
        for words in ([], ["--unproved"], ["a", "b"], ["--fly"], ["--fly", "a"], [""]):
            self.assertIsNone(installing.prefix_in(words), words)
        self.assertEqual(installing.prefix_in(["--unproved", "/usr"]), pathlib.Path("/usr"))
