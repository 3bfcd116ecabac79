"""Printed signatures taken apart and compared."""
import unittest

from swift_compiler.forms import Form, Likeness, Malformed, form_of, likeness


def alike(ours: str, theirs: str) -> Likeness:
    return likeness(form_of(ours), form_of(theirs))


class TakenApart(unittest.TestCase):
    def test_parameters_and_requirements(self) -> None:
        self.assertEqual(form_of("<T, U where T : P, U == T.[P]A>"), Form(("T", "U"), ("T : P", "U == T.[P]A")))

    def test_without_requirements(self) -> None:
        self.assertEqual(form_of("<T>"), Form(("T",), ()))
        self.assertEqual(form_of("<>"), Form((), ()))

    def test_commas_and_arrows_inside_a_concrete_type(self) -> None:
        found = form_of("<T where T == Dictionary<Int, (Int) -> Set<Int>>, T : P>")
        self.assertEqual(found.requirements, ("T == Dictionary<Int, (Int) -> Set<Int>>", "T : P"))

    def test_what_is_no_signature(self) -> None:
        for text in ("", "T : P", "<T where T : P where T : Q>"):
            with self.assertRaises(Malformed):
                form_of(text)

    def test_without_what_is_suppressed(self) -> None:
        found = form_of("<T where T : P, T : ~Copyable, T : ~Escapable>").without_suppressed()
        self.assertEqual(str(found), "<T where T : P>")


class Alike(unittest.TestCase):
    def test_the_same_text(self) -> None:
        self.assertIs(alike("<T where T : P>", "<T where T : P>"), Likeness.SAME)

    def test_another_order(self) -> None:
        self.assertIs(alike("<T where T : P, T : AnyObject>", "<T where T : AnyObject, T : P>"), Likeness.ORDER)

    def test_other_sides(self) -> None:
        self.assertIs(alike("<T where T == T.A>", "<T where T.A == T>"), Likeness.SIDES)

    def test_a_star_and_a_chain(self) -> None:
        self.assertIs(alike("<T, U, V where T == U, T == V>", "<T, U, V where T == U, U == V>"), Likeness.CHAINS)

    def test_another_class_of_equal_types(self) -> None:
        self.assertIs(alike("<T, U, V where T == U, T == V>", "<T, U, V where T == U>"), Likeness.OTHER)

    def test_a_requirement_more(self) -> None:
        self.assertIs(alike("<T where T : P>", "<T where T : P, T : Q>"), Likeness.OTHER)

    def test_other_parameters(self) -> None:
        self.assertIs(alike("<T where T : P>", "<T, U where T : P>"), Likeness.OTHER)


if __name__ == "__main__":
    unittest.main()
