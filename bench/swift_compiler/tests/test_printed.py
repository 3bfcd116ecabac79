"""What the compiler prints, read."""
import unittest

from swift_compiler.comparing import Pair, pairs
from swift_compiler.forms import Likeness
from swift_compiler.ours import Own
from swift_compiler.printed import read

PRINTED = """\
Main.(file).P@/a/b.swift:1:10
Requirement signature: <Self where Self.[P]A : P>

Main.(file).S@/a/b.swift:3:8
Generic signature: <T where T : P>
Canonical generic signature: <τ_0_0 where τ_0_0 : P>

Main.(file).S.init()@/a/b.swift:3:8
Generic signature: <T where T : Q>
Canonical generic signature: <τ_0_0 where τ_0_0 : Q>
/a/b.swift:7:4: error: cannot find type 'X' in scope
 6 | func
   | `- error: cannot find type 'X' in scope

0x5555 Module name=Main
  0x5555 FileUnit file="/a/b.swift"
    0x5555 ExtensionDecl line=9 base=S
Generic signature: <T where T : P>
Canonical generic signature: <τ_0_0 where τ_0_0 : P, τ_0_0 : ~Copyable>

0x5555 Module name=Main
  0x5555 FileUnit file="/a/b.swift"
    0x5555 ExtensionDecl line=9 base=S
(normal_conformance type="S<T>" protocol="P"
  (requirement "T" conforms_to "P"))
"""


def own(kind: str, line: int, column: int, text: str, status: str = "whole") -> Own:
    return Own("/a/b.swift", line, column, kind, "S", status, text)


def pair(one: Own, printed: str = PRINTED) -> Pair:
    return pairs([one], read(printed.split("\n")))[0]


class Read(unittest.TestCase):
    def test_what_is_declared_at_a_place_counts_and_not_what_the_compiler_makes_of_it(self) -> None:
        self.assertEqual(read(PRINTED.split("\n")).signatures[("/a/b.swift", 3, 8)], "<τ_0_0 where τ_0_0 : P>")

    def test_an_error_counts_once(self) -> None:
        self.assertEqual(read(PRINTED.split("\n")).errors, ["/a/b.swift:7:4: error: cannot find type 'X' in scope"])

    def test_a_signature_is_found_by_its_place(self) -> None:
        self.assertIs(pair(own("struct", 3, 8, "<τ_0_0 where τ_0_0 : P>")).likeness(), Likeness.SAME)
        self.assertFalse(pair(own("struct", 3, 9, "<τ_0_0 where τ_0_0 : P>")).is_compared)

    def test_an_extension_is_found_by_its_line(self) -> None:
        found = pair(own("extension", 9, 11, "<τ_0_0 where τ_0_0 : P>", "without ~Copyable"))
        self.assertIs(found.likeness(), Likeness.SAME)

    def test_what_is_whole_is_compared_with_what_is_suppressed(self) -> None:
        self.assertIs(pair(own("extension", 9, 11, "<τ_0_0 where τ_0_0 : P>")).likeness(), Likeness.OTHER)

    def test_two_extensions_of_one_line_are_doubtful(self) -> None:
        twice = PRINTED + PRINTED.replace("τ_0_0 : P,", "τ_0_0 : Q,")
        self.assertFalse(pair(own("extension", 9, 11, "<τ_0_0 where τ_0_0 : P>"), twice).is_compared)

    def test_a_requirement_signature_is_found_by_the_place_of_its_protocol(self) -> None:
        self.assertIs(pair(own("protocol", 1, 10, "<Self where Self.[P]A : P>")).likeness(), Likeness.SAME)

    def test_what_is_incomplete_is_not_compared(self) -> None:
        self.assertFalse(pair(own("struct", 3, 8, "<τ_0_0>", "incomplete")).is_compared)


if __name__ == "__main__":
    unittest.main()
