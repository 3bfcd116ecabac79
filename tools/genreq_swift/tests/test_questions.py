import pathlib
import unittest

from genreq_swift.ask.program import LEVELS, Answer, Command, Ended, Part, Program, ProgramFailed, Status, answers_of, default_program
from genreq_swift.ask.asking import Questions, requirement_signatures
from genreq_swift.ask.closure import Closure, LeftOut

P = Part("P", "protocol P { associatedtype A }")
Q = Part("Q", "protocol Q: P { }", frozenset(["P"]))
LIST = Part("List", "protocol List { associatedtype Head; associatedtype Rest: List }", frozenset(["List"]))
# A completion of it has a rule for each further rest, and so no end.
SORTED = Part("Sorted", "protocol Sorted: List where Rest.Head: Sorted, Rest.Head.Rest == Rest.Rest { }", frozenset(["List", "Sorted"]))
HEIR = Part("Heir", "protocol Heir: Sorted { }", frozenset(["Sorted"]))


def function(label, requirements, needs, *queries):
    return Part(label, "func %s<T>() where %s" % (label, requirements), frozenset(needs), queries)


class Counting(Program):
    """The program, which counts its runs."""

    runs = 0

    def run(self, *words):
        self.runs += 1
        return super().run(*words)


def ask(command, protocols, functions):
    """The answers, what is left out, and the number of runs."""
    program = Counting(default_program())
    questions = Questions(program, protocols)
    found = questions.ask(command, functions)
    return found.answers, questions.protocols_left_out + found.left_out, program.runs


class Asking(unittest.TestCase):
    def test_each_query_is_answered(self):
        asked = [function("f", "T: Q", "Q", "T : P", "T.A : P"), function("g", "T: P", "P", "T.A")]
        found, left_out, runs = ask(Command.ANSWER, [P, Q], asked)
        self.assertEqual(found, {"f": (Answer("yes"), Answer("no")), "g": (Answer("τ_0_0.[P]A"),)})
        self.assertEqual((left_out, runs), ([], 1))

    def test_a_refused_function_is_left_out_and_told(self):
        asked = [function("f", "T: P", "P"), function("g", "T.A: P", "P"), function("h", "T: P, T: Q", "PQ")]
        found, left_out, _ = ask(Command.SIGNATURES, [P, Q], asked)
        self.assertEqual(found, {"f": (Answer("<τ_0_0 where τ_0_0 : P>"),), "h": (Answer("<τ_0_0 where τ_0_0 : Q>"),)})
        self.assertEqual(left_out, [LeftOut("g", False, "not a type parameter", len("func g<T>() where "))])

    def test_a_refused_protocol_is_left_out_with_what_needs_it(self):
        wrong = Part("Wrong", "protocol Wrong { associatedtype B where B.A: P }", frozenset("P"))
        heir = Part("Heir", "protocol Heir: Wrong { }", frozenset(["Wrong"]))
        asked = [function("f", "T: Heir", ["Heir"]), function("g", "T: P", "P")]
        found, left_out, _ = ask(Command.SIGNATURES, [heir, wrong, P], asked)
        self.assertEqual(found, {"g": (Answer("<τ_0_0 where τ_0_0 : P>"),)})
        self.assertEqual(
            left_out,
            [
                LeftOut("Wrong", True, "not a type parameter", len("protocol Wrong { associatedtype B where ")),
                LeftOut("Heir", True, "it needs Wrong, which is left out"),
                LeftOut("f", False, "it needs Heir, which is left out"),
            ],
        )

    def test_a_protocol_that_passes_all_limits_is_left_out_with_what_needs_it(self):
        asked = [function("f", "T: Heir", ["Heir"]), function("g", "T: List", ["List"])]
        found, left_out, _ = ask(Command.SIGNATURES, [P, LIST, SORTED, HEIR], asked)
        self.assertEqual(found, {"g": (Answer("<τ_0_0 where τ_0_0 : List>"),)})
        self.assertEqual([(one.label, one.reason) for one in left_out[1:]], [("Heir", "it needs Sorted, which is left out"), ("f", "it needs Heir, which is left out")])
        self.assertEqual(left_out[0].label, "Sorted")
        self.assertRegex(left_out[0].reason, "^(rule longer than|it takes more than)")

    def test_limits_are_raised_for_what_passes_them(self):
        path = "T" + ".Rest" * 70
        asked = [function("f", "T: List", ["List"]), function("g", "T: List, %s == T" % path, ["List"])]
        found, left_out, _ = ask(Command.SIGNATURES, [LIST], asked)
        self.assertEqual(found["f"], (Answer("<τ_0_0 where τ_0_0 : List>"),))
        self.assertEqual(found["g"], (Answer("<τ_0_0 where τ_0_0 : List, τ_0_0 == τ_0_0%s>" % (".[List]Rest" * 70)),))
        self.assertEqual(left_out, [])

    def test_functions_without_room_stand_in_several_texts(self):
        padding = " // " + "x" * 400000
        asked = [Part(label, "func %s<T: P>()%s" % (label, padding), frozenset("P")) for label in ("f", "g", "h")]
        asked.append(Part("long", "func long<T: P>()" + 3 * padding, frozenset("P")))
        found, left_out, runs = ask(Command.SIGNATURES, [P], asked)
        self.assertEqual(found, {label: (Answer("<τ_0_0 where τ_0_0 : P>"),) for label in ("f", "g", "h")})
        self.assertEqual(left_out, [LeftOut("long", False, "text longer than 1048576 bytes")])
        self.assertEqual(runs, 2)

    def test_derivations_are_verified(self):
        asked = [function("f", "T: Q", "Q", "T : P", "T.A : P"), function("g", "T: Q, T: P", "PQ", "T : P")]
        questions = Questions(Program(default_program()), [P, Q])
        explained = questions.ask(Command.EXPLAIN, asked).answers
        self.assertEqual(questions.verify(asked, explained), {"f": ("ok", "skipped"), "g": ("ok",)})
        wrong = dict(explained, g=(Answer("yes", ("  1. τ_0_0 : P by CONF 1",)),))
        self.assertEqual(questions.verify(asked, wrong)["g"], ("bad line 1",))


class RequirementSignatures(unittest.TestCase):
    def test_those_of_the_others_are_answered(self):
        double = Part("Double", "protocol Double: Q, P { }", frozenset("PQ"))
        found = requirement_signatures(Program(default_program()), [SORTED, double, HEIR, LIST, P, Q], levels=LEVELS[:1])
        wanted = {"Double": "<Self where Self : Q>", "List": "<Self where Self.Rest : List>", "P": "<Self>", "Q": "<Self where Self : P>"}
        self.assertEqual({label: answer.line for label, answer in found.signatures.items()}, wanted)
        self.assertEqual([one.label for one in found.left_out], ["Sorted", "Heir"])

    def test_those_that_are_wanted_are_asked_with_what_they_need(self):
        many = [Part("P%d" % number, "protocol P%d: P { }" % number, frozenset("P")) for number in range(40)]
        found = requirement_signatures(Program(default_program()), [P, Q, *many], {"P7", "Q"}).signatures
        self.assertEqual(found, {"P": Answer("<Self>"), "P7": Answer("<Self where Self : P>"), "Q": Answer("<Self where Self : P>")})
        covers = Closure([P, Q, *many]).covers({"P", "Q", *(one.label for one in many)})
        self.assertEqual([len(cover) for cover in covers], [16, 16, 12])
        self.assertTrue(all("P" in cover for cover in covers))


class Ending(unittest.TestCase):
    def test_lines_under_an_answer_are_its_own(self):
        self.assertEqual(answers_of("yes\n  1. a\n  2. b\nno\n"), [Answer("yes", ("  1. a", "  2. b")), Answer("no")])

    def test_a_refusal_has_a_reason_and_a_place(self):
        ended = Ended(Status.REFUSED, "error: not a type parameter at 17\n")
        self.assertEqual((ended.reason, ended.offset), ("not a type parameter", 17))
        self.assertIsNone(Ended(Status.LIMIT, "error: more than 4000 rules\n").offset)

    def test_a_program_that_is_not_there_is_told(self):
        with self.assertRaisesRegex(ProgramFailed, "No such file"):
            Program(pathlib.Path("/nothing")).run(Command.ANSWER, b"")

    def test_a_program_that_ends_in_another_way_is_told(self):
        with self.assertRaisesRegex(ProgramFailed, "ended with status 1"):
            Program(pathlib.Path("/bin/false")).run(Command.ANSWER, b"")


if __name__ == "__main__":
    unittest.main()
