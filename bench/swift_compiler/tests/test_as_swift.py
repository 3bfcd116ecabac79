"""A text for genreq as Swift."""
import unittest

from swift_compiler.as_swift import Untranslated, as_swift, function


class AsSwift(unittest.TestCase):
    def test_a_function_uses_its_generic_parameters(self) -> None:
        self.assertEqual(function("func f<T, U>() where T : P, U == T.A"), "func f<T, U>(_: T.Type, _: U.Type) where T : P, U == T.A {}")

    def test_a_function_without_generic_parameters(self) -> None:
        self.assertEqual(function("func f()"), "func f() {}")

    def test_each_protocol_and_function_is_known_by_its_line(self) -> None:
        made = as_swift(["protocol P {\n  associatedtype A\n}", "protocol Q: P { }"], ["func f<T>() where T : Q"])
        self.assertEqual(made.label_at, {2: "P", 5: "Q", 6: "f"})
        lines = made.content.split("\n")
        self.assertEqual([lines[line - 1].split(" ")[1].rstrip(":")[:1] for line in made.label_at], ["P", "Q", "f"])

    def test_what_the_compiler_has_itself_is_left_out(self) -> None:
        self.assertEqual(as_swift(["protocol Copyable { }", "protocol CopyableToo { }"], []).label_at, {2: "CopyableToo"})

    def test_a_protocol_with_the_name_of_something_nearer_has_an_alias(self) -> None:
        made = as_swift(["protocol Digest { }", "protocol Hash: Digest {\n  associatedtype Digest: Digest\n}"], ["func f<Hash>() where Hash : Hash"])
        wanted = """typealias Digest_protocol = Digest
typealias Hash_protocol = Hash
protocol Digest { }
protocol Hash: Digest_protocol {
  associatedtype Digest: Digest_protocol
}
func f<Hash>(_: Hash.Type) where Hash : Hash_protocol {}
"""
        self.assertEqual(made.content.partition("\n")[2], wanted)
        self.assertEqual(made.label_at, {4: "Digest", 5: "Hash", 8: "f"})

    def test_a_function_with_something_else(self) -> None:
        with self.assertRaises(Untranslated):
            function("func f<T: P>()")


if __name__ == "__main__":
    unittest.main()
