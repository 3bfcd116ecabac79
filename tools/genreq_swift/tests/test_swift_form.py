import unittest

from genreq_swift.ask.printed import PrintedMember, PrintedType, Unreadable, read_signature, read_type
from genreq_swift.ask.swift_form import as_genreq, as_swift, compiler_form

# What genreq prints of a signature, and what swift-frontend 6.0.3 prints with -debug-generic-signatures, of these declarations:
#     protocol P { associatedtype A; associatedtype B }
#     protocol Q { }
#     func order<E, S: P>(_: E.Type, _: S.Type) where E == S.A
#     func layout<T: P & Q & AnyObject>(_: T.Type) where T.A: Q, T.A: AnyObject
#     func chain<T: P, U: P, V: P>(_: T.Type, _: U.Type, _: V.Type) where V.A == T.A, U.A == T.A, T.B: Q
#     func mixed<T: P, U: P>(_: T.Type, _: U.Type) where T.B == U, U.A == T.A, T.A: Q, U.B == T.A
#     func loop<T: P>(_: T.Type) where T.A == T
PAIRS = {
    "order": ("τ_0_1 : P, τ_0_0 == τ_0_1.[P]A", "τ_0_0 == τ_0_1.[P]A, τ_0_1 : P"),
    "layout": (
        "τ_0_0 : P, τ_0_0 : Q, τ_0_0 : AnyObject, τ_0_0.[P]A : Q, τ_0_0.[P]A : AnyObject",
        "τ_0_0 : AnyObject, τ_0_0 : P, τ_0_0 : Q, τ_0_0.[P]A : AnyObject, τ_0_0.[P]A : Q",
    ),
    "chain": (
        "τ_0_0 : P, τ_0_1 : P, τ_0_2 : P, τ_0_0.[P]B : Q, τ_0_0.[P]A == τ_0_1.[P]A, τ_0_0.[P]A == τ_0_2.[P]A",
        "τ_0_0 : P, τ_0_1 : P, τ_0_2 : P, τ_0_0.[P]A == τ_0_1.[P]A, τ_0_0.[P]B : Q, τ_0_1.[P]A == τ_0_2.[P]A",
    ),
    "mixed": (
        "τ_0_0 : P, τ_0_1 : P, τ_0_0.[P]A : Q, τ_0_1 == τ_0_0.[P]B, τ_0_0.[P]A == τ_0_1.[P]A, τ_0_0.[P]A == τ_0_1.[P]B",
        "τ_0_0 : P, τ_0_1 : P, τ_0_1 == τ_0_0.[P]B, τ_0_0.[P]A : Q, τ_0_0.[P]A == τ_0_1.[P]A, τ_0_1.[P]A == τ_0_1.[P]B",
    ),
    "loop": ("τ_0_0 : P, τ_0_0 == τ_0_0.[P]A", "τ_0_0 : P, τ_0_0 == τ_0_0.[P]A"),
}


def signature(requirements):
    return "<τ_0_0, τ_0_1, τ_0_2 where %s>" % requirements


class SwiftForm(unittest.TestCase):
    def test_is_what_the_compiler_prints(self):
        for name, (genreq, swift) in PAIRS.items():
            with self.subTest(name):
                self.assertEqual(as_swift(signature(genreq)), signature(swift))

    def test_leads_back(self):
        for name, (genreq, swift) in PAIRS.items():
            with self.subTest(name):
                self.assertEqual(as_genreq(signature(swift)), signature(genreq))

    def test_is_left_as_it_is(self):
        for name, (genreq, swift) in PAIRS.items():
            with self.subTest(name):
                self.assertEqual(as_swift(signature(swift)), signature(swift))
                self.assertEqual(as_genreq(signature(genreq)), signature(genreq))

    def test_has_no_requirements(self):
        for text in ("<>", "<τ_0_0>", "<Self>"):
            self.assertEqual(as_swift(text), text)

    def test_parameters_of_depth_one_come_after_those_of_depth_zero(self):
        self.assertEqual(as_swift("<τ_0_10, τ_1_0 where τ_1_0 : P, τ_0_10 == τ_1_0.[P]A>"), "<τ_0_10, τ_1_0 where τ_0_10 == τ_1_0.[P]A, τ_1_0 : P>")

    def test_nested_protocols_come_last(self):
        # swift-frontend prints `<T where T : Q, T : Outer.Inner>` of `<T: Q & Outer.Inner>`.
        self.assertEqual(as_swift("<T where T : Outer.Inner, T : Q>"), "<T where T : Q, T : Outer.Inner>")

    def test_protocols_of_other_modules_go_by_the_given_key(self):
        modules = {"A": "Swift", "B": "Main"}
        made = compiler_form(read_signature("<T where T : A, T : B>"), lambda protocol: (modules[protocol], protocol))
        self.assertEqual(str(made), "<T where T : B, T : A>")


class Printed(unittest.TestCase):
    def test_types_are_read(self):
        self.assertEqual(read_type("τ_0_0.[P]A.B"), PrintedType("τ_0_0", (PrintedMember("A", "P"), PrintedMember("B"))))

    def test_other_texts_are_unreadable(self):
        for text in ("", "<T", "<T where >", "<T where T>", "<T where T : >", "<T where U : P>", "<T where T : P, >", "<T where T.[P : Q>", "<T where T == >"):
            with self.subTest(text), self.assertRaises(Unreadable):
                read_signature(text)


if __name__ == "__main__":
    unittest.main()
