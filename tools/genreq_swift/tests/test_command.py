"""The commands of the reader, run as a user runs them."""
import json
import os
from pathlib import Path
import random
import subprocess
import sys
import tempfile
import unittest

TOOL = Path(__file__).resolve().parent.parent.parent / "genreq-swift"
SAMPLE = """protocol P {
  associatedtype A: P
}
struct S<T: P> {
  func first<U>(_: U) where U == T.A, T.A: P {}
}
func second<T: P & ~Copyable>(_: T) {}
func third<T: P>(_: T) where T.A == Int {}
"""
TEXT = """protocol P {
  associatedtype A: P
}
func S_1<T>() where T : P
func first_2<T, U>() where T : P, U == T.A, T.A : P
func second_3<T>() where T : P
func third_4<T>() where T : P
"""


PIECES = ["(", ")", "{", "}", "<", ">", '"', '"""', "#/", "/*", "@", "&", ":", "==", "~", "#if", "protocol ", "where ", "some ", "\x00", "\U0001f600"]


def edited(text, chance):
    """The text cut off, or with some characters gone and something put in."""
    at = chance.randrange(len(text))
    if chance.random() < 0.3:
        return text[:at]
    return text[:at] + chance.choice(PIECES) + text[at + chance.choice([0, 1, 3, 20]) :]


class Commands(unittest.TestCase):
    def setUp(self):
        folder = tempfile.TemporaryDirectory()
        self.addCleanup(folder.cleanup)
        self.folder = Path(folder.name)
        self.file = self.folder / "sample.swift"
        self.file.write_text(SAMPLE)

    def run_tool(self, *words, environment=None):
        command = [sys.executable, str(TOOL), *map(str, words)]
        done = subprocess.run(command, stdout=subprocess.PIPE, stderr=subprocess.PIPE, env=environment, check=False)
        told = done.stderr.decode("utf-8")
        self.assertNotIn("Traceback", told)
        return done.returncode, done.stdout.decode("utf-8"), told

    def test_text_prints_what_genreq_reads_and_tells_what_is_left_out(self):
        status, printed, told = self.run_tool("text", self.file)
        self.assertEqual((status, printed), (0, TEXT))
        self.assertIn("4 signatures: 2 whole, 1 without ~Copyable, 0 over incomplete protocols, 1 incomplete", told)

    def test_strict_text_has_whole_signatures_alone(self):
        self.assertEqual(self.run_tool("text", "--strict", self.file)[1], "".join(TEXT.splitlines(True)[:5]))

    def test_the_map_leads_from_the_text_to_the_source(self):
        self.run_tool("text", "--map", self.folder / "map", self.file)
        found = json.loads((self.folder / "map").read_text())
        self.assertEqual([each["label"] for each in found], ["P", "S_1", "first_2", "second_3", "third_4"])
        first = found[2]
        self.assertEqual((first["name"], first["line"], first["column"]), ("S.first", 5, 8))
        self.assertEqual(TEXT.encode()[first["offset"] :].split(b"<")[0], b"func first_2")
        self.assertEqual([p.name for p in self.folder.iterdir() if p.name.startswith("map")], ["map"])

    def test_a_file_that_cannot_be_read_is_told_and_the_rest_is_read(self):
        (self.folder / "bad.swift").write_text("struct { }")
        (self.folder / "worse.swift").write_text("func f<T>() { /*")
        (self.folder / "bytes.swift").write_bytes(b"\xff")
        status, printed, told = self.run_tool("text", self.folder, self.folder / "none.swift")
        self.assertEqual((status, printed), (3, TEXT))
        self.assertIn("bad.swift:1:8: error: a name is wanted, and not '{'; this declaration is left out", told)
        self.assertIn("worse.swift:1:15: error: the comment is not closed; this file is left out", told)
        self.assertIn("bytes.swift: error: not UTF-8 at byte 0", told)
        self.assertIn("none.swift: error: No such file or directory", told)

    def test_the_standard_library_is_read_beside(self):
        self.file.write_text("func f<S: Sequence, T>(_: S, _: Set<T>) where S.Element == T {}")
        printed = self.run_tool("text", "--with", "standard", self.file)[1]
        self.assertIn("protocol IteratorProtocol<Element> {\n  associatedtype Element\n}\n", printed)
        self.assertIn("func f_1<S, T>() where S : Sequence, S.Element == T, T : Hashable\n", printed)
        self.assertNotIn("protocol Collection", printed)

    def test_an_outline_has_types_and_no_functions(self):
        self.file.write_text("/* */ public struct S<T>: P where T: Q { let x = 1; func f() {}; typealias A = [T: (Int) -> T?] }\nextension S { init() {} }")
        self.assertEqual(self.run_tool("outline", self.file)[1], "struct S<T>: P where T : Q {\n  typealias A = [T: (Int) -> T?]\n}\n")

    def test_a_spoilt_source_ends_with_a_status_and_is_told_by_its_place(self):
        chance = random.Random(1)
        for _ in range(25):
            self.file.write_text(edited(edited(SAMPLE, chance), chance), encoding="utf-8")
            status, _, told = self.run_tool("text", self.file)
            self.assertIn(status, (0, 3))
            errors = [line for line in told.splitlines() if "error:" in line]
            self.assertEqual(status == 3, bool(errors), told)
            self.assertTrue(all(line.startswith(str(self.file)) for line in errors), told)

    def test_wrong_words_have_status_2_and_an_output_that_cannot_be_written_5(self):
        self.assertEqual(self.run_tool("text")[0], 2)
        self.assertEqual(self.run_tool("fly", self.file)[0], 2)
        status, printed, told = self.run_tool("text", "--map", self.folder / "none" / "map", self.file)
        self.assertEqual((status, printed), (5, ""))
        self.assertIn("No such file or directory", told)
        for words in (("--compiler", "abc"), ("--language", "5x")):
            self.assertEqual(self.run_tool("text", *words, self.file)[0], 2)

    def test_a_full_disk_is_told_in_one_line(self):
        with open("/dev/full", "wb") as full:
            for words in (("text",), ("signatures",), ("outline",)):
                done = subprocess.run([sys.executable, str(TOOL), *words, str(self.file)], stdout=full, stderr=subprocess.PIPE, check=False)
                lines = done.stderr.decode("utf-8").splitlines()
                self.assertEqual((done.returncode, lines[-1]), (5, "genreq-swift: the standard output: No space left on device"))
                self.assertEqual([line for line in lines[:-1] if "not proved" not in line], [])

    def test_what_is_no_file_in_a_folder_is_skipped_and_a_folder_that_cannot_be_read_is_told(self):
        os.mkfifo(self.folder / "pipe.swift")
        (self.folder / "dangling.swift").symlink_to("nowhere")
        locked = self.folder / "locked"
        locked.mkdir()
        (locked / "other.swift").write_text("protocol Q {}")
        locked.chmod(0)
        self.addCleanup(locked.chmod, 0o700)
        status, printed, told = self.run_tool("text", self.folder)
        self.assertEqual(status, 3)
        self.assertIn("dangling.swift: error: No such file or directory\n", told)
        if os.geteuid() != 0:  # who may read everything
            self.assertIn("locked: error: Permission denied\n", told)
            self.assertEqual(printed, TEXT)

    def test_a_type_that_is_nested_too_deeply_leaves_out_its_declaration_alone(self):
        deep = "(" * 5000 + ")" * 5000
        self.file.write_text("func a<T: P>(_: T, _: %s) {}\nprotocol P {}\nfunc b<T: P>(_: T) {}\nextension %s {}\n" % (deep, deep))
        status, printed, told = self.run_tool("text", self.file)
        self.assertEqual((status, printed.splitlines()[-1]), (3, "func b_1<T>() where T : P"))
        self.assertIn("sample.swift:1:1: error: nested too deeply; this declaration is left out\n", told)

    def test_a_line_feed_in_a_path_breaks_no_line(self):
        self.file = self.folder / "a\nb.swift"
        self.file.write_text("protocol P {}\nfunc f<T: P>(_: T) {}\n")
        printed = self.run_tool("signatures", self.file)[1]
        self.assertEqual(printed, "%s/a\\nb.swift:2:6: f: <T where T : P>\n" % self.folder)

    def answering(self, output):
        """A program in place of genreq, that prints this."""
        program = self.folder / "genreq"
        program.write_text("#!/bin/sh\ncat >/dev/null\ncat <<'END'\n%sEND\n" % output)
        program.chmod(0o755)
        return {**os.environ, "GENREQ": str(program)}

    def test_signatures_are_printed_by_place_in_own_names(self):
        self.file.write_text("protocol P { associatedtype A }\nstruct S<T> { func f<T: P, U: ~Copyable>(_: U) where U == T.A {} }")
        environment = self.answering("S_1: <τ_0_0>\nf_2: <τ_0_0, τ_0_1, τ_0_2 where τ_0_1 : P, τ_0_2 == τ_0_1.[P]A>\n")
        status, printed, _ = self.run_tool("signatures", self.file, environment=environment)
        wanted = [
            "%s:2:8: S: <T>" % self.file,
            "%s:2:20: S.f: <T, T_, U where T_ : P, U == T_.[P]A>  // without ~Copyable" % self.file,
        ]
        self.assertEqual((status, printed.splitlines()), (0, wanted))
        printed = self.run_tool("signatures", "--json", self.file, environment=environment)[1]
        found = json.loads(printed.splitlines()[1])
        self.assertEqual(found["canonical"], "<τ_0_0, τ_1_0, τ_1_1 where τ_1_0 : P, τ_1_1 == τ_1_0.[P]A>")
        self.assertEqual((found["kind"], found["status"], found["causes"]), ("func", "without ~Copyable", ["~Copyable"]))

    def test_requirement_signatures_are_printed_by_place_in_own_names(self):
        self.file.write_text("struct S { protocol P {} }\nprotocol Q: S.P {}")
        environment = self.answering("S_P: <Self>\nQ: <Self where Self : S_P>\n")
        status, printed, _ = self.run_tool("requirements", self.file, environment=environment)
        self.assertEqual((status, printed.splitlines()), (0, ["%s:1:21: S.P: <Self>" % self.file, "%s:2:10: Q: <Self where Self : S.P>" % self.file]))

    def test_without_genreq_the_status_is_70(self):
        status, printed, told = self.run_tool("signatures", self.file, environment={**os.environ, "GENREQ": "/none"})
        self.assertEqual((status, printed, told), (70, "", "genreq-swift: /none: No such file or directory\n"))


if __name__ == "__main__":
    unittest.main()
