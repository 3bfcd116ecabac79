"""The commands that answer, run as a user runs them."""
from pathlib import Path
import json
import subprocess
import sys
import tempfile
import unittest

TOOL = Path(__file__).resolve().parent.parent.parent / "genreq-swift"
SAMPLE = """protocol P { associatedtype A: P }
extension P {
  func f<T: P>(_: T) where T.A == A {}
}
func g<T: P, U: P>(_: T, _: U) where T.A == Int {}
struct Int {}
"""


class Answers(unittest.TestCase):
    def setUp(self):
        folder = tempfile.TemporaryDirectory()
        self.addCleanup(folder.cleanup)
        self.file = Path(folder.name) / "sample.swift"
        self.file.write_text(SAMPLE)

    def run_tool(self, *words):
        """The status, the lines that are printed, without the folder, and what is told."""
        command = [sys.executable, str(TOOL), *map(str, words)]
        done = subprocess.run(command, stdout=subprocess.PIPE, stderr=subprocess.PIPE, check=False)
        told = done.stderr.decode("utf-8")
        self.assertNotIn("Traceback", told)
        return done.returncode, done.stdout.decode("utf-8").replace("%s/" % self.file.parent, "").splitlines(), told

    def ask(self, *words):
        return self.run_tool("ask", self.file, *words)[:2]

    def test_a_requirement_is_answered_with_yes_or_no_or_invalid(self):
        self.assertEqual(self.ask("f(T.A.A : P)"), (0, ["sample.swift:3:8: P.f(T.A.A : P): yes"]))
        self.assertEqual(self.ask("f(T == Self)"), (1, ["sample.swift:3:8: P.f(T == Self): no"]))
        self.assertEqual(self.ask("f(T.B : P)"), (1, ["sample.swift:3:8: P.f(T.B : P): invalid"]))

    def test_a_type_and_a_signature_are_answered_in_own_names(self):
        self.assertEqual(self.ask("3(T.A)"), (0, ["sample.swift:3:8: P.f(T.A): Self.[P]A"]))
        self.assertEqual(self.ask("f()"), (0, ["sample.swift:3:8: P.f(): <Self, T where Self : P, T : P, Self.[P]A == T.[P]A>"]))

    def test_a_protocol_is_asked_of_what_conforms_to_it(self):
        self.assertEqual(self.ask("1(Self.A.A : P)"), (0, ["sample.swift:1:10: P(Self.A.A : P): yes"]))

    def test_an_incomplete_signature_is_told_where_that_could_turn_the_answer(self):
        self.assertEqual(self.ask("g(U.A : P)"), (0, ["sample.swift:5:6: g(U.A : P): yes"]))
        self.assertEqual(self.ask("g(T.A == T)"), (1, ["sample.swift:5:6: g(T.A == T): no, as far as was read: concrete type at sample.swift:5:38"]))

    def ask_folder(self, query, **texts):
        """What is printed of a folder with these files."""
        self.file.write_text("")
        for name, text in texts.items():
            (self.file.parent / (name + ".swift")).write_text(text)
        return self.run_tool("ask", self.file.parent, query)

    def test_of_two_private_protocols_that_of_the_file_is_asked(self):
        files = {"a": "private protocol Key {}; private func f<T: Key>(_: T) {}\n", "b": "private protocol Key: Hashable {}\nprotocol Hashable {}\n", "c": "protocol Z {}\n"}
        self.assertEqual(self.ask_folder("f(T : Key)", **files)[:2], (0, ["a.swift:1:39: f(T : Key): yes"]))
        status, _, told = self.run_tool("ask", self.file.parent, "Z(Self : Key)")
        self.assertEqual((status, told.count("is named Key")), (2, 0))
        self.assertIn("several protocols are named Key, and none is seen there: ", told)

    def test_of_two_declarations_of_one_name_each_is_asked_of_what_it_sees(self):
        one = "public protocol Key: Text {}\npublic struct Box<K: Key> {}\npublic protocol Text {}\n"
        other = "public protocol Key {}\npublic struct Box<K: Key> {}\n"
        wanted = ["a.swift:2:15: Box(K : Key): yes", "b.swift:2:15: Box(K : Key): yes"]
        self.assertEqual(self.ask_folder("Box(K : Key)", a=one, b=other)[:2], (0, wanted))
        wanted = ["a.swift:2:15: Box(K : Text): yes", "b.swift:2:15: Box(K : Text): no"]
        self.assertEqual(self.ask_folder("Box(K : Text)", a=one, b=other)[1], wanted)

    def test_an_alias_that_lacks_a_name_leads_to_its_type(self):
        self.file.write_text("protocol P {}\nstruct Flat<Base: P> {}\ntypealias Old<T: P> = Flat<T>\n")
        self.assertEqual(self.ask("Old(Base : P)"), (0, ["sample.swift:2:8: Flat(Base : P): yes"]))
        self.assertEqual(self.ask("Old(T : P)"), (0, ["sample.swift:3:11: Old(T : P): yes"]))

    def test_a_protocol_that_no_declaration_needs_can_be_asked(self):
        self.file.write_text("func f<T: BinaryInteger>(_: T) {}\nstruct S { protocol P {}\n func g<T: P>(_: T) {} }\n")
        self.assertEqual(self.ask("--with", "standard", "f(T : Identifiable)")[1][0][:42], "sample.swift:1:6: f(T : Identifiable): no,")
        self.assertEqual(self.ask("--with", "standard", "f(T : Swift.Hashable)"), (0, ["sample.swift:1:6: f(T : Swift.Hashable): yes"]))
        self.assertEqual(self.ask("g(T : P)"), (0, ["sample.swift:3:7: S.g(T : P): yes"]))
        self.assertEqual(self.ask("g(T : S.P)"), (0, ["sample.swift:3:7: S.g(T : S.P): yes"]))

    def test_a_no_over_an_incomplete_protocol_says_so(self):
        self.file.write_text("func f<T: BinaryInteger>(_: T) {}\nfunc g<T: BinaryInteger>(_: T) where T.Words: P {}\nprotocol P: SetAlgebra {}\n")
        lack = "as far as was read: BinaryInteger says Self.Words.Element == UInt"
        for protocol in ("FixedWidthInteger", "Equatable"):
            query = "f(T.Words.Element : %s)" % protocol
            self.assertEqual(self.ask("--with", "standard", query), (1, ["sample.swift:1:6: %s: no, %s" % (query, lack)]))
        self.assertEqual(self.ask("--with", "standard", "f(T.Words.Index : Comparable)"), (0, ["sample.swift:1:6: f(T.Words.Index : Comparable): yes"]))
        self.assertEqual(self.ask("--with", "standard", "f(T.Words)"), (0, ["sample.swift:1:6: f(T.Words): T.[BinaryInteger]Words, %s" % lack]))
        self.assertEqual(self.ask("--with", "standard", "P(Self == Self.Element)"), (1, ["sample.swift:3:10: P(Self == Self.Element): no"]))
        status, printed = self.ask("--with", "standard", "--json", "f(T.Magnitude == T)")
        self.assertEqual((status, json.loads(printed[0])["status"]), (1, "over incomplete protocols"))
        self.assertEqual(self.ask("--with", "standard", "--strict", "f(T.Words)"), (3, []))

    def test_a_signature_over_an_incomplete_protocol_says_so(self):
        self.file.write_text("extension StringProtocol { func lineRange<R: RangeExpression>(_: R) where R.Bound == Index {} }\n")
        status, printed, told = self.run_tool("signatures", "--with", "standard", self.file)
        end = ", Self.[Collection]Index == R.[RangeExpression]Bound>  // over incomplete protocols: StringProtocol says Self.Element == Character"
        self.assertEqual((status, printed[0].endswith(end)), (0, True), printed)
        self.assertIn("1 signatures: 0 whole, 0 without ~Copyable, 1 over incomplete protocols, 0 incomplete\n  1 over StringProtocol\n", told)
        self.assertEqual(self.run_tool("signatures", "--strict", "--with", "standard", self.file)[:2], (0, []))
        self.assertEqual(self.run_tool("text", "--strict", "--with", "standard", self.file)[1][-1], "}")

    def test_why_prints_the_derivation_with_places(self):
        wanted = [
            "sample.swift:5:6: g(U.A : P): yes",
            "  1. U : P by CONF 2 (sample.swift:5:17)",
            "  2. U.A : P by ASSOCCONF P 1 from 1 (sample.swift:1:32)",
        ]
        self.assertEqual(self.ask("--why", "g(U.A : P)"), (0, wanted))

    def test_answers_are_objects_for_tools(self):
        found = json.loads(self.ask("--json", "f(T.A : P)")[1][0])
        wanted = {"file": "sample.swift", "line": 3, "column": 8, "declaration": "P.f", "query": "T.A : P", "answer": "yes", "status": "whole", "causes": []}
        self.assertEqual(found, wanted)

    def test_a_query_of_another_form_has_status_2(self):
        status, printed, told = self.run_tool("ask", self.file, "f(T : Z)")
        self.assertEqual((status, printed, told), (2, [], "genreq-swift: no protocol is named Z\n"))

    def test_the_lint_has_status_1_where_something_is_redundant(self):
        self.assertEqual(self.run_tool("redundant", self.file)[:2], (0, []))
        self.file.write_text("protocol P {}\nprotocol Q: P {}\nfunc f<T: P & Q>(_: T) {}\n")
        self.assertEqual(
            self.run_tool("redundant", self.file)[:2], (1, ["sample.swift:3:11: warning: requirement 'T : P' is redundant: it follows from 'T : Q'"])
        )

    def test_what_could_not_be_asked_is_told_by_the_lint(self):
        self.file.write_text("protocol P { associatedtype A }\nfunc f<T>(_: T) where T.A: P {}\nfunc g<T: P>(_: T) where T: P {}\n")
        status, printed, told = self.run_tool("redundant", self.file)
        self.assertEqual((status, printed), (4, ["sample.swift:3:29: warning: requirement 'T : P' is redundant: it is written at sample.swift:3:11"]))
        self.assertIn("sample.swift:2:6: error: f is left out: not a type parameter", told)


if __name__ == "__main__":
    unittest.main()
