import unittest

from ..say.command_redundant import as_lines, as_object, findings_of
from ..ask.own_names import own_names
from ..ask.program import LEVELS, Command, Ended, Program, ProgramFailed, default_program
from .samples import reading

PROTOCOLS = """
protocol P { associatedtype A }
protocol Q: P { }
protocol R<B>: AnyObject { associatedtype B: P }
"""


class Lying(Program):
    """The program, with another derivation."""

    def run(self, command, text, limits=LEVELS[0]):
        ended = super().run(command, text, limits)
        return Ended(ended.status, ended.output.replace(" by CONF 1", " by CONF 2")) if command is Command.EXPLAIN else ended


def warnings(text, why=False, program=None, concrete=False):
    """The lines of the lint, of declarations after the protocols above."""
    found = reading(PROTOCOLS + text, concrete=concrete)
    findings, left_out = findings_of(found, program or Program(default_program()))
    assert not left_out
    return [line for finding in findings for line in as_lines(finding, own_names(found), why)]


class OfSignatures(unittest.TestCase):
    def test_what_follows_from_inheritance_is_told(self):
        self.assertEqual(
            warnings("func f<T: P & Q>(_: T) {}"),
            ["sample.swift:5:11: warning: requirement 'T : P' is redundant: it follows from 'T : Q'"],
        )

    def test_what_follows_through_an_equation_is_told_with_both(self):
        self.assertEqual(
            warnings("func f<T: R, U>(_: T, _: U) where T.B == U, U: P {}"),
            ["sample.swift:5:48: warning: requirement 'U : P' is redundant: it follows from 'T : R' and 'T.B == U'"],
        )

    def test_of_one_that_is_written_twice_the_second_is_told(self):
        self.assertEqual(
            warnings("func f<T: P>(_: T) where T: P {}"),
            ["sample.swift:5:29: warning: requirement 'T : P' is redundant: it is written at sample.swift:5:11"],
        )

    def test_all_that_is_told_can_be_taken_out_together(self):
        self.assertEqual(
            warnings("func f<T: P & Q & P>(_: T) {}"),
            [
                "sample.swift:5:11: warning: requirement 'T : P' is redundant: it follows from 'T : Q'",
                "sample.swift:5:19: warning: requirement 'T : P' is redundant: it follows from 'T : Q'",
            ],
        )
        self.assertEqual(
            warnings("func f<T: P, U: P, V: P>(_: T) where T.A == U.A, U.A == V.A, T.A == V.A {}"),
            ["sample.swift:5:62: warning: requirement 'T.A == V.A' is redundant: it follows from 'T.A == U.A' and 'U.A == V.A'"],
        )

    def test_a_requirement_around_a_declaration_need_not_be_written_again(self):
        self.assertEqual(
            warnings("struct S<T: Q> {\n  func f<U>(_: U) where T: P {}\n}\nextension S where T: Q {}"),
            [
                "sample.swift:6:28: warning: requirement 'T : P' is redundant: it follows from 'T : Q'",
                "sample.swift:8:22: warning: requirement 'T : Q' is redundant: it is written at sample.swift:5:13",
            ],
        )

    def test_without_which_another_side_is_no_type_is_needed(self):
        # By rules without a guard T : P follows from T.A : R and T.A.B == T. But T.A is no type without it.
        self.assertEqual(warnings("func f<T: P>(_: T) where T.A: R, T.A.B == T {}"), [])
        self.assertEqual(
            warnings("func f<T: P, U: R>(_: T) where T.A: P, U.B == T {}"),
            ["sample.swift:5:11: warning: requirement 'T : P' is redundant: it follows from 'U : R' and 'U.B == T'"],
        )

    def test_what_no_minimised_signature_lacks_is_told(self):
        # Here genreq keeps T : X, since T.[X]B is no type without it, and swift-frontend prints <T where T : Y, T == T.[X]B>.
        protocols = "protocol X { associatedtype B: X }\nprotocol Y { associatedtype B: X }\n"
        self.assertEqual(
            warnings(protocols + "func f<T: Y>(_: T) where T: X, T == T.B {}"),
            ["sample.swift:7:29: warning: requirement 'T : X' is redundant: it follows from 'T : Y' and 'T == T.B'"],
        )

    def test_a_constraint_with_arguments_is_one(self):
        self.assertEqual(
            warnings("func f<T: R, U>(_: T) where T: R<U> {}"),
            ["sample.swift:5:11: warning: requirement 'T : R' is redundant: it is written at sample.swift:5:32"],
        )
        self.assertEqual(
            warnings("func f<T: R<U>, U>(_: T) where T: R<U> {}"),
            [
                "sample.swift:5:35: warning: requirements 'T : R' and 'T.B == U' are redundant: they follow from 'T : R' and 'T.B == U'",
            ],
        )

    def test_a_constraint_of_which_a_part_is_left_out_is_not_told(self):
        self.assertEqual(
            warnings("func f<T: R<Int>>(_: T) where T: R {}"),
            ["sample.swift:5:34: warning: requirement 'T : R' is redundant: it is written at sample.swift:5:11"],
        )
        self.assertEqual(warnings("func f<T: R>(_: T) where T: R<Int> {}"), ["sample.swift:5:11: warning: requirement 'T : R' is redundant: it is written at sample.swift:5:29"])

    def test_what_the_type_of_a_parameter_needs_may_be_written(self):
        self.assertEqual(warnings("struct S<T: P> {}\nfunc f<T: P>(_: S<T>) {}"), [])
        self.assertEqual(
            warnings("struct S<T: P> {}\nfunc f<T>(_: S<T>) where T.A: P & Q {}"),
            ["sample.swift:6:31: warning: requirement 'T.A : P' is redundant: it follows from 'T.A : Q'"],
        )

    def test_what_always_holds_is_told(self):
        self.assertEqual(warnings("func f<T: P>(_: T) where T == T {}"), ["sample.swift:5:26: warning: requirement 'T == T' is redundant: it holds of itself"])

    def test_what_a_concrete_type_declares_is_known_where_that_is_wanted(self):
        text = "struct X: P { struct A {} }\nfunc f<T: P>(_: T) where T.A == X, T.A: P {}"
        self.assertEqual(warnings(text), [])
        self.assertEqual(
            warnings(text, concrete=True),
            ["sample.swift:6:41: warning: requirement 'T.A : P' is redundant: it follows from 'T.A == X' and 'X : P'"],
        )

    def test_nothing_else_is_told(self):
        self.assertEqual(warnings("func f<T: Q, U: R>(_: T, _: U) where T.A: R, T.A.B == U.B {}\nstruct S<T> where T: R<Int> {}"), [])


class OfProtocols(unittest.TestCase):
    def test_what_follows_from_another_requirement_is_told(self):
        self.assertEqual(
            warnings("protocol X { associatedtype C: R<D>; associatedtype D: P }"),
            ["sample.swift:5:56: warning: requirement 'Self.D : P' is redundant: it follows from 'Self.C : R' and 'Self.C.B == Self.D'"],
        )

    def test_of_one_that_is_written_twice_the_second_is_told(self):
        self.assertEqual(
            warnings("protocol X { associatedtype C: P where C: P }"),
            ["sample.swift:5:43: warning: requirement 'Self.C : P' is redundant: it is written at sample.swift:5:32"],
        )

    def test_all_that_is_told_can_be_taken_out_together(self):
        self.assertEqual(
            warnings("protocol X: P, Q, P { }"),
            [
                "sample.swift:5:13: warning: requirement 'Self : P' is redundant: it follows from 'Self : Q'",
                "sample.swift:5:19: warning: requirement 'Self : P' is redundant: it follows from 'Self : Q'",
            ],
        )

    def test_what_swift_wants_to_be_inherited_by_name_is_not_told(self):
        # swift-frontend says of it without P: protocol 'X' should be declared to refine 'P' due to a same-type constraint on 'Self'.
        self.assertEqual(warnings("protocol X: R, P where B == Self { }"), [])
        self.assertEqual(
            warnings("protocol X: R, Q, P where B == Self { }"),
            ["sample.swift:5:19: warning: requirement 'Self : P' is redundant: it follows from 'Self : Q'"],
        )

    def test_protocols_beside_are_not_told(self):
        found = reading("protocol X: Y { }", "protocol Z { }\nprotocol Y: Z { }\nprotocol W: Y, Z { }")
        self.assertEqual(findings_of(found, Program(default_program())), ([], []))


class Derivations(unittest.TestCase):
    def test_stand_under_the_warning_with_places(self):
        self.assertEqual(
            warnings("func f<T: P & Q>(_: T) {}", why=True)[1:],
            ["  1. T : Q by CONF 1 (sample.swift:5:15)", "  2. T : P by ASSOCCONF Q 1 from 1 (sample.swift:3:13)"],
        )
        self.assertEqual(
            warnings("protocol X: P, Q { }", why=True)[1:],
            ["  1. Self : X by CONF 1", "  2. Self : Q by ASSOCCONF X 1 from 1 (sample.swift:5:16)", "  3. Self : P by ASSOCCONF Q 1 from 2 (sample.swift:3:13)"],
        )

    def test_that_verify_does_not_accept_are_no_warnings(self):
        for text in ("func f<T: P & Q>(_: T) {}", "protocol X: P, Q { }"):
            with self.subTest(text), self.assertRaisesRegex(ProgramFailed, "`verify` says"):
                warnings(text, program=Lying(default_program()))

    def test_are_objects_for_tools(self):
        found = reading(PROTOCOLS + "func f<T: P & Q>(_: T) {}")
        findings, _ = findings_of(found, Program(default_program()))
        wanted = (
            '{"file": "sample.swift", "line": 5, "column": 11, "declaration": "f", "requirements": ["T : P"], '
            '"message": "requirement \'T : P\' is redundant: it follows from \'T : Q\'", '
            '"follows_from": [{"file": "sample.swift", "line": 5, "column": 15, "requirement": "T : Q"}], '
            '"derivations": [["1. T : Q by CONF 1 (sample.swift:5:15)", "2. T : P by ASSOCCONF Q 1 from 1 (sample.swift:3:13)"]]}'
        )
        self.assertEqual([as_object(finding, own_names(found)) for finding in findings], [wanted])


if __name__ == "__main__":
    unittest.main()
