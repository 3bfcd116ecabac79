"""Declarations as they are written."""
import unittest

from ..read.conditions import Configuration
from ..read.declarations import read_declarations
from ..read.model import DeclarationKind
from ..read.tokens import Source, SourceError
from ..read.type_syntax import spelled
from .samples import declared


def one(text):
    (declaration,) = declared(text)
    return declaration


class Types(unittest.TestCase):
    def test_every_form_is_read(self):
        for text in [
            "A", "A.B<C, D>.E", "[A]", "[A: B]", "A?", "A??", "(A, B)", "(A) -> B", "(A) -> (B) -> C", "A.Type", "A & B & C", "~A", "some A & B",
            "any A", "each A", "[A].B", "[A: B].C<D>", "(A) throws(E) -> B", "A<B<C>>", "(A) -> ()?",
        ]:
            self.assertEqual(spelled(one("typealias X = " + text).target), text)

    def test_labels_attributes_and_specifiers_are_gone_past(self):
        for written, text in [
            ("(a: A, _ b: inout B...) async throws -> C", "(A, B) -> C"),
            ("@escaping @Sendable (isolated A) -> sending B", "(A) -> B"),
            ("@convention(c) () -> ()", "() -> ()"),
            ("A!", "A?"),
            ("nonisolated(nonsending) () async -> A", "() -> A"),
        ]:
            self.assertEqual(spelled(one("typealias X = " + written).target), text)


class Declarations(unittest.TestCase):
    def test_a_function_has_parameters_types_and_conditions(self):
        found = one("public static func f<T: P, each U>(_ x: T = { a }(), y z: [T]...) async throws(E) -> T? where T.A == Int, T: Q { }")
        self.assertEqual([(p.name, p.is_pack) for p in found.parameters], [("T", False), ("U", True)])
        self.assertEqual([spelled(each) for each in found.types], ["T", "[T]", "T?"])
        self.assertEqual(spelled(found.thrown), "E")
        self.assertEqual([(spelled(c.left), c.is_equation, spelled(c.right)) for c in found.conditions], [("T.A", True, "Int"), ("T", False, "Q")])

    def test_a_parameter_of_an_opaque_type_is_a_generic_one(self):
        found = one("func f(_ x: some P, y: [some Q & R]) -> some S")
        self.assertEqual([(p.name, spelled(p.bound)) for p in found.parameters], [("some_1", "P"), ("some_2", "Q & R")])
        self.assertEqual([spelled(each) for each in found.types], ["some_1", "[some_2]", "some S"])

    def test_operators_are_functions(self):
        self.assertEqual([found.name for found in declared("func ==<T: P>(a: T, b: T) {}; prefix func - (a: A) {}; func <<T>(a: T) {}")], ["==", "-", "<"])

    def test_a_protocol_has_primaries_members_and_conditions(self):
        found = one("@objc protocol P<A>: AnyObject, Q where A: R { associatedtype A: S = Int where A.B == Self; init(); var x: A { get } }")
        self.assertEqual(found.primaries, ("A",))
        self.assertEqual([spelled(each.bound) for each in found.inherited], ["AnyObject", "Q"])
        associated, init = found.members
        self.assertEqual((associated.kind, init.kind), (DeclarationKind.ASSOCIATED_TYPE, DeclarationKind.INITIALISER))
        self.assertEqual([spelled(c.left) for c in associated.conditions], ["A.B"])

    def test_what_holds_no_signature_is_gone_past(self):
        text = """
        import struct A.B
        @main struct S { }
        infix operator <=> : Precedence
        precedencegroup Precedence { associativity: left }
        let x = a ? { b }() : c.map { $0 }
          .filter { "}" == $0 }
        var y: Int { get { 1 } set { } }
        #warning("nothing")
        enum E: Int { case a = 1, b; indirect case c(Int) }
        final class C { class func f() {}; class var v: Int { 1 }; deinit { } }
        @freestanding(expression) macro m<T>(_ x: T) -> T = #external(module: "A", type: "B")
        for i in 0..<3 { func inner() {} }
        actor A { }
        actor.run()
        extension [Int] { }
        """
        self.assertEqual([found.name for found in declared(text)], ["S", "E", "C", "A", ""])

    def test_contextual_words_are_names_too(self):
        self.assertEqual([found.name for found in declared("struct actor {}; func async() {}; func open(actor: Int, extension: Int) {}; typealias some = A")], ["actor", "async", "open", "some"])

    def test_a_file_that_cannot_be_read_is_told_with_its_place(self):
        for text, line, column in [("func f(", 1, 8), ("struct {", 1, 8), ("\n}", 2, 1), ("protocol P: { }", 1, 13), ("func f<T(x: T)", 1, 9), ("extension A", 1, 12)]:
            with self.subTest(text), self.assertRaises(SourceError) as raised:
                declared(text)
            self.assertEqual((raised.exception.place.line, raised.exception.place.column), (line, column), text)

    def test_what_cannot_be_read_is_left_out_and_the_rest_is_read(self):
        text = """
        struct A {
          func bad(a: #x, b: [Int]) -> Int { return 1 }
          func good() {}
          init<T: where>() {}
        }
        protocol P {
          #if os(Linux)
          associatedtype B: ]
          #endif
        }
        struct C {}
        protocol D"""
        errors = []
        found = read_declarations(Source("f", text), Configuration(), errors)
        self.assertEqual([declaration.name for declaration in found], ["A", "C"])
        self.assertEqual([member.name for member in found[0].members], ["good"])
        self.assertEqual([error.place.line for error in errors], [3, 5, 9, 13])

    def test_every_front_of_a_source_is_read_or_told(self):
        text = """@available(*, unavailable) public protocol P<A>: Q where A: R<[Int: T?]> { associatedtype A: S = Int where A.B == Self }
        #if os(Linux) && !DEBUG
        extension A.B<(C, inout D) throws(E) -> F> : @retroactive G { static func == <T>(l: some H, r: T = "\\(x)") async {} }
        #else
        let s = #"/* "# + /[}"]/ // }
        #endif
        final class K<each T, let n: Int>: L where repeat each T: ~Copyable { subscript(`in` i: Int...) -> any M { get } }
        """
        for end in range(len(text)):
            errors = []
            try:
                read_declarations(Source("f", text[:end]), Configuration(), errors)
            except SourceError as error:
                errors.append(error)
            self.assertTrue(all(str(error.place).startswith("f:") for error in errors))
        self.assertEqual([found.name for found in declared(text)], ["P", "", "K"])

    def test_deep_nesting_is_told(self):
        with self.assertRaises(SourceError):
            declared("typealias A = " + "[" * 100000)
        with self.assertRaises(SourceError):
            declared("struct A { " * 100000)


if __name__ == "__main__":
    unittest.main()
