import unittest

from ..ask.query import Labelled, Query, QueryError, declarations_of, labelled, read_query
from .samples import reading

SOURCE = """protocol P {
  associatedtype `Type`
}
enum Outer {
  protocol Inner {}
}
extension P {
  func f<T>(_: T) {
  }
  func g<T: Outer.Inner>(_: T) where T: P {
    print(1)
  }
}
struct S<T> {
  func f<T>(_: T) {}
}
"""


class Reading(unittest.TestCase):
    def test_queries_have_a_context_and_what_is_asked(self):
        self.assertEqual(read_query("P.f( T : P )"), Query("P.f", "T : P"))
        self.assertEqual(read_query("a b.swift:12()"), Query("a b.swift:12", ""))

    def test_other_texts_are_refused(self):
        for text in ("", "f", "f(", "(T)", "f(T) g", "f(T))"):
            with self.subTest(text), self.assertRaises(QueryError):
                read_query(text)


class Contexts(unittest.TestCase):
    def found(self, context):
        return [(one.name, one.place.line) for one in declarations_of(Query(context, ""), reading(SOURCE))]

    def test_a_name_is_that_of_declarations_or_their_last_one(self):
        self.assertEqual(self.found("P.f"), [("P.f", 8)])
        self.assertEqual(self.found("f"), [("P.f", 8), ("S.f", 15)])
        self.assertEqual(self.found("Inner"), [("Outer.Inner", 5)])

    def test_a_line_is_that_of_the_innermost_declaration(self):
        self.assertEqual(self.found("11"), [("P.g", 10)])
        self.assertEqual(self.found("sample.swift:14"), [("S", 14)])
        self.assertEqual(self.found("2"), [("P", 1)])

    def test_a_context_without_declarations_is_refused(self):
        for context in ("h", "4", "other.swift:10", "swift:10"):
            with self.subTest(context), self.assertRaises(QueryError):
                self.found(context)


class OwnNames(unittest.TestCase):
    def labelled(self, name, asked):
        found = reading(SOURCE)
        return labelled(asked, next(one for one in found.signatures if one.name == name), found)

    def test_become_labels(self):
        self.assertEqual(self.labelled("P.g", "T : Outer.Inner"), Labelled("T : Outer_Inner", frozenset(["Outer_Inner"])))
        self.assertEqual(self.labelled("P.g", "T.`Type`==Self . Type"), Labelled("T.Type_ == Self_.Type_"))
        self.assertEqual(self.labelled("P.g", "T.[P]Type: AnyObject"), Labelled("T.[P]Type_ : AnyObject", frozenset("P")))
        self.assertEqual(self.labelled("P.g", ""), Labelled(""))

    def test_are_those_of_the_innermost_parameter_or_of_a_member_of_self(self):
        self.assertEqual(self.labelled("S.f", "T"), Labelled("T_"))
        self.assertEqual(self.labelled("P.g", "Type"), Labelled("Self_.Type_"))

    def test_that_are_not_there_are_refused(self):
        for asked in ("U", "T : Z", "T.[Z]A", "T.", "T..A", "T : P : P", "T == ", "== T", "T : ", "T == T == T", "T P"):
            with self.subTest(asked), self.assertRaises(QueryError):
                self.labelled("S.f", asked)


if __name__ == "__main__":
    unittest.main()
