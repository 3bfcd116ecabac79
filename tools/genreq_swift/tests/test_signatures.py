"""How declarations become signatures and protocols."""
import unittest

from ..read.conditions import Configuration
from ..read.declarations import read_declarations
from ..read.model import Cause, Origin, Place, Status, label_of
from ..mean.reader import reading_of
from ..mean.standing import Standing
from ..read.tokens import Source
from .samples import omissions, reading, shown, signatures

PROTOCOLS = """
protocol P { associatedtype A }
protocol Q: P { associatedtype B: P }
"""


class Contexts(unittest.TestCase):
    """What stands around a declaration comes first."""

    def test_a_function_of_a_nested_type_has_the_parameters_of_all_around(self):
        text = PROTOCOLS + "struct S<T: P> { struct Plain { struct In<U> where U: Q { func f<V>(v: V) where V == T.A {} } } }"
        self.assertEqual(
            signatures(text),
            [
                "S <T where T : P>",
                "S.Plain.In <T, U where T : P, U : Q>",
                "S.Plain.In.f <T, U, V where T : P, U : Q, V == T.A>",
            ],
        )
        self.assertEqual([(p.depth, p.index) for p in reading(text).signatures[2].parameters], [(0, 0), (1, 0), (2, 0)])

    def test_members_of_protocols_and_of_their_extensions_have_self(self):
        text = PROTOCOLS + "extension Q where B: Q { init<T>(_: T) where T == A {} }; protocol R { func f<T: P>(_: T) where T.A == Self }"
        self.assertEqual(
            signatures(text),
            ["Q <Self where Self : Q, Self.B : Q>", "Q.init <Self, T where Self : Q, Self.B : Q, T == Self.A>", "R.f <Self, T where Self : R, T : P, T.A == Self>"],
        )

    def test_extensions_have_the_parameters_of_what_they_extend(self):
        text = PROTOCOLS + "enum E<T, U: P> { class C {} }; extension E.C where T == U.A { subscript<V: P>(v: V) -> T { get } }"
        self.assertEqual(signatures(text)[1:], ["E.C <T, U where U : P, T == U.A>", "E.C.subscript <T, U, V where U : P, T == U.A, V : P>"])

    def test_only_declarations_with_parameters_or_conditions_of_their_own_have_signatures(self):
        found = reading(PROTOCOLS + "struct S<T> { func f() {}; var x: T }; func g() {}; extension S {}; extension Unknown { func h<T>() {} }")
        self.assertEqual([signature.name for signature in found.signatures], ["S"])
        counts = found.counts
        self.assertEqual((counts.not_generic, counts.as_around, counts.of_unknown_types), (1, 2, 1))

    def test_an_inner_parameter_hides_one_around_it(self):
        (_, inner) = reading(PROTOCOLS + "struct S<T> { func f<T: P>(_: T) {} }").signatures
        self.assertEqual([parameter.label for parameter in inner.parameters], ["T", "T_"])
        self.assertEqual([requirement.labelled for requirement in inner.requirements], ["T_ : P"])


class Requirements(unittest.TestCase):
    def test_a_composition_and_its_alias_are_several_requirements(self):
        text = PROTOCOLS + "typealias Both = P & Q; func f<T: P & AnyObject & Q, U: Both>() {}"
        self.assertEqual(signatures(text), ["f <T, U where T : P, T : AnyObject, T : Q, U : P, U : Q>"])
        first, last = reading(text).signatures[0].requirements[2:4]
        self.assertEqual((first.place.column, last.place.column, last.clause), (51, 57, last.place))

    def test_arguments_of_a_bound_are_equations_of_its_primary_associated_types(self):
        text = "struct Int {}; protocol C<E, I> { associatedtype E; associatedtype I }; func f<T: C<U, T.E>, U>() {}; extension C<Int, Int> {}"
        self.assertEqual(signatures(text), ["f <T, U where T : C, T.E == U, T.I == T.E>", "C <Self where Self : C>"])
        conformance, first, _ = reading(text).signatures[0].requirements
        self.assertEqual((first.clause, first.argument, conformance.argument), (conformance.place, True, False))
        self.assertEqual(omissions(text), ["Self.E == Int: concrete type", "Self.I == Int: concrete type"])

    def test_an_extension_states_the_arguments_of_what_it_extends(self):
        text = PROTOCOLS + """
        struct Array<E> {}; struct Int {}; struct S<T, U> {}; typealias Ints = Array<Int>; typealias Of<V, W> = S<W, V> where V: P
        protocol C<E> { associatedtype E }; typealias IntC = C<Int>
        extension [Int] {}; extension Ints {}; extension S<Int, S<Int, Int>> {}; extension IntC {}; extension Of {}
        """
        wanted = ["E == Int", "E == Int", "T == Int", "U == S<Int, Int>", "Self.E == Int"]
        self.assertEqual([line.split(":")[0] for line in omissions(text)], wanted)
        self.assertEqual(signatures(text)[-1], "S <T, U where U : P>")

    def test_some_parameters_follow_the_written_ones(self):
        self.assertEqual(signatures(PROTOCOLS + "protocol C<E> { associatedtype E }; func g(_: some C<some P>) {}")[0], "g <some_1, some_2 where some_1 : C, some_1.E == some_2, some_2 : P>")
        self.assertEqual(signatures(PROTOCOLS + "func f<T>(_ a: some P, _ b: T, _ c: [some Q]) {}"), ["f <T, some_1, some_2 where some_1 : P, some_2 : Q>"])

    def test_members_of_a_type_and_its_aliases_are_found(self):
        text = PROTOCOLS + """
        struct S<T: P> { typealias Member = T.A; typealias Of<U> = U; struct In {} }
        extension S { func f<U: P>(_: U) where U.A == Member, U == Of<T> {} }
        func g<T: P, U>(_: U) where U == S<T>.Member {}
        extension P { typealias Same = A; func h<T>(_: T) where T == Same {} }
        func k<T: P, U>(_: U) where U == T.Same {}
        """
        self.assertEqual(
            [line for line in signatures(text) if "where" in line][1:],
            [
                "S.Of <T, U where T : P>",
                "S.f <T, U where T : P, U : P, U.A == T.A, U == T>",
                "g <T, U where T : P, U == T.A>",
                "P.h <Self, T where Self : P, T == Self.A>",
                "k <T, U where T : P, U == T.A>",
            ],
        )

    def test_of_aliases_of_one_name_that_of_the_conformance_is_meant(self):
        text = """
        protocol P1 { associatedtype A; typealias X = A }
        protocol P2 { associatedtype B; typealias X = B; typealias Y = B }
        protocol P3: P2 { associatedtype C: P1 where D: P2; associatedtype D }
        protocol P4 { associatedtype Y }
        func f<T: P1, U: P3>(_: T, _: U) where T.X == U.X, U.C.X == U.D.X, U.Y == T {}
        func g<T, U>(_: T, _: U) where T.X == U.Y, T: P2, U: P4 {}
        """
        self.assertEqual(
            signatures(text),
            ["f <T, U where T : P1, U : P3, T.A == U.B, U.C.A == U.D.B, U.B == T>", "g <T, U where T.B == U.Y, T : P2, U : P4>"],
        )

    def test_aliases_of_protocols_are_members_of_the_types_that_conform(self):
        text = PROTOCOLS + "protocol N { associatedtype M; typealias X = M }; struct S<T>: N { typealias M = T; func f<U: P>(_: U) where U.A == X {} }"
        self.assertEqual(signatures(text)[1], "S.f <T, U where U : P, U.A == T>")

    def test_a_generic_alias_without_arguments_has_no_meaning(self):
        text = PROTOCOLS + "struct S<T> { typealias M = T; typealias N<U> = U }; func f<T: P>(_: T) where T.A == S.M, T.A == S<T>.N {}"
        self.assertEqual(omissions(text), ["T.A == S.M: unknown name", "T.A == S<T>.N: unknown name"])

    def test_members_of_a_superclass_are_found(self):
        text = PROTOCOLS + "class Base<T> { typealias M = T }; class Sub<U: P>: Base<U.A> { func f<V: P>(_: V) where V.A == M {} }"
        self.assertEqual(signatures(text)[2:], ["Sub.f <U, V where U : P, V : P, V.A == U.A>"])

    def test_a_name_means_what_an_imported_module_declares(self):
        modules = [("A", "protocol P {}"), ("B", "struct P {}; struct Q {}"), ("C", "public protocol Q {}")]
        text = "import B\n@testable import struct C.Q\nfunc f<T: Q, U: A.P>(_: T) {}\n"
        sources = [Source("f", text, "M")] + [Source(module, declared, module) for module, declared in modules]
        files = [(source, read_declarations(source, Configuration())) for source in sources]
        (found,) = reading_of(files[:1], files[1:]).signatures
        self.assertEqual([omission.cause for omission in found.omissions], [Cause.BOUND])
        self.assertEqual(shown(found), "<T, U where U : P>")
        sources[0].imports.remove("B")
        self.assertEqual(shown(reading_of(files[:1], files[1:]).signatures[0]), "<T, U where T : Q, U : P>")

    def test_a_type_in_two_files_of_a_module_has_all_extensions(self):
        texts = ["extension E { typealias A = P }; protocol P {}", "enum E {}", "enum E {}; func f<T: E.A>() {}"]
        files = [(source, read_declarations(source, Configuration())) for source in (Source(text, text, "M") for text in texts)]
        self.assertEqual([shown(signature) for signature in reading_of(files, []).signatures], ["<T where T : P>"])

    def test_a_private_name_of_another_file_is_not_seen(self):
        self.assertEqual(signatures("func f<T: P>() {}", "private protocol P {}; public private(set) var x = 1"), ["f <T>"])
        self.assertEqual(omissions("func f<T: P>(_: some P) {}", "fileprivate protocol P {}"), ["T: P: unknown name", "some_1: P: unknown name"])

    def test_a_name_means_what_its_own_file_and_module_declare(self):
        text = PROTOCOLS + "func f<T: P>() {}; func g<T: Beside.P>() {}"
        one, other = reading(text, "protocol P {}").signatures
        self.assertEqual([requirement.protocol.label for requirement in one.requirements + other.requirements], ["P", "P_2"])


class Inferred(unittest.TestCase):
    """What the types of a declaration need."""

    BESIDE = """
    protocol Equatable {}; protocol Hashable: Equatable {}; protocol Error {}
    struct Set<E: Hashable> {}; struct Dictionary<K: Hashable, V> {}; struct Array<E> {}
    extension Array: Equatable where E: Equatable {}; extension Array: Hashable where E: Hashable {}
    extension Set: Hashable {}
    typealias Table<K> = Dictionary<K, Int> where K: Error
    """

    def inferred(self, text):
        found = reading(text, self.BESIDE).signatures[0]
        return [str(requirement) for requirement in found.requirements if requirement.origin is Origin.INFERRED], found.own_status

    def test_generic_types_need_what_they_require(self):
        for text, wanted in [
            ("func f<T>(_: Set<T>) {}", ["T : Hashable"]),
            ("func f<T>() -> [T: Int] {}", ["T : Hashable"]),
            ("func f<T: Hashable>(_: Set<T>) {}", []),
            ("func f<T>(_: Set<Int>, _: T) {}", []),
            ("func f<T, U>(_: (Set<T>?) -> [Set<U>]) {}", ["T : Hashable", "U : Hashable"]),
            ("func f<T>(_: Table<T>) {}", ["T : Error", "T : Hashable"]),
            ("extension Array where E == Int { func g<T>(_: Set<T>) {} }", []),
        ]:
            self.assertEqual(sorted(self.inferred(text)[0]), wanted, text)

    def test_what_is_thrown_is_an_error(self):
        self.assertEqual(self.inferred("func f<T, U>(_: () throws(T) -> ()) throws(U) {}")[0], ["T : Error", "U : Error"])

    def test_a_conformance_of_a_concrete_type_needs_its_conditions(self):
        self.assertEqual(self.inferred("func f<T>(_: Set<[T]>) {}"), (["T : Hashable"], Status.WHOLE))
        self.assertEqual(self.inferred("func f<T>(_: Set<Set<T>>) {}"), (["T : Hashable"], Status.WHOLE))
        self.assertEqual(self.inferred("struct S<U> {}; func f<T>(_: Set<S<T>>) {}")[0], [])

    def test_what_grows_without_end_is_given_up(self):
        text = "struct B<T> {}; extension B: Hashable where B<B<T>>: Hashable {}; func f<T>(_: Set<B<T>>) {}"
        self.assertEqual(reading(text, self.BESIDE).signatures[-1].own_status, Status.INCOMPLETE)
        doubling = "typealias A<T> = (T, T);" + "".join("typealias A%d<T> = A%s<A%s<T>>;" % (n, n - 1 or "", n - 1 or "") for n in range(1, 9))
        self.assertEqual(len(reading(doubling + "func f<T>(_: A8<T>) {}").signatures), 10)

    def test_nothing_is_inferred_of_a_declaration_without_generics_of_its_own(self):
        self.assertEqual(signatures("struct S<T> { func f(_: Set<T>) {} }", self.BESIDE), ["S <T>"])

    def test_an_extension_of_an_alias_has_its_requirements(self):
        text = "typealias L<T> = S<T> where T: Hashable; struct S<U> {}; extension L { func f<V>(_: V) {} }"
        self.assertEqual(signatures(text, self.BESIDE)[-1], "S.f <U, V where U : Hashable>")

    def test_a_generic_type_that_is_not_known_leaves_a_signature_incomplete(self):
        self.assertEqual(omissions("func f<T>(_: Other<T>, _: Other<Int>) {}"), ["Other<T>: unknown name"])
        self.assertEqual(omissions("func f<T>(_: [T: Int], _: [T], _: T?) {}"), ["[T: Int]: unknown name"])


class Omissions(unittest.TestCase):
    def test_each_cause_is_told(self):
        for text, wanted in [
            ("func f<T: P>() where T.A == Int {}", [Cause.CONCRETE]),
            ("struct X {}; func f<T: P>() where T.A == X {}", [Cause.CONCRETE]),
            ("func f<T: P>() where T.A == (T, T) {}", [Cause.CONCRETE]),
            ("func f<T: ~Copyable>() {}", [Cause.SUPPRESSED]),
            ("func f<T: Copyable>() {}", [Cause.SUPPRESSED]),
            ("class C {}; func f<T: C>() {}", [Cause.SUPERCLASS]),
            ("func f<each T: P>(_: repeat each T) {}", [Cause.PACK, Cause.PACK]),
            ("struct X<let n: Int> {}", [Cause.VALUE]),
            ("func f<T: Unknown>() {}", [Cause.UNKNOWN]),
            ("struct X {}; func f<T: X>() {}", [Cause.BOUND]),
        ]:
            text = PROTOCOLS + "struct Int {};" + text
            causes = [omission.cause for signature in reading(text).signatures for omission in signature.omissions]
            self.assertEqual(causes, wanted, text)

    def test_a_status_says_what_is_left_out(self):
        found = reading(PROTOCOLS + "struct Int {}\nstruct S<T: ~Copyable> {\n  func f<U: P>(_: U) where U.A == Int {} }\nfunc g<T>() {}").signatures
        self.assertEqual([Standing(()).line(signature) for signature in found], ["without ~Copyable", "incomplete: concrete type at sample.swift:6:28", "whole"])
        self.assertEqual([omission.origin for omission in found[1].omissions], [Origin.CONTEXT, Origin.OWN])


class ConcreteTypes(unittest.TestCase):
    """With --concrete."""

    BESIDE = "protocol Named {}; protocol Hashable {}; struct Key: Hashable {}; extension Key: Named {}; class Base: Named {}; class Sub: Base {}"

    def concrete(self, text):
        found = reading(PROTOCOLS + text, self.BESIDE, concrete=True).signatures[-1]
        return shown(found), found.own_status

    def test_one_stands_as_a_parameter_with_its_declared_conformances(self):
        self.assertEqual(
            self.concrete("struct S<T: P> where T.A == Key { func f<U: Q>(_: U) where U.A == Key {} }"),
            ("<T, U, Key where T : P, T.A == Key, U : Q, U.A == Key, Key : Hashable, Key : Named>", Status.WITH_CONCRETE),
        )

    def test_a_class_is_an_object_and_conforms_as_its_superclass_does(self):
        self.assertEqual(self.concrete("func f<T: P>() where T.A == Sub {}")[0], "<T, Sub where T : P, T.A == Sub, Sub : AnyObject, Sub : Named>")

    def test_an_unavailable_conformance_is_none(self):
        text = "@available(*, unavailable)\nextension Key: Q {}\n@available(macOS 13, *) extension Key: P {}; func f<T: P>() where T.A == Key {}"
        self.assertEqual(self.concrete(text)[0], "<T, Key where T : P, T.A == Key, Key : Hashable, Key : P, Key : Named>")

    def test_what_has_generic_arguments_or_is_not_declared_is_left_out_still(self):
        for text in ["func f<T: P>() where T.A == [Key] {}", "func f<T: P>() where T.A == Unknown {}", "func f<T: P>() where T.A == (Key, Key) {}"]:
            self.assertEqual(self.concrete(text), ("<T where T : P>", Status.INCOMPLETE), text)


class Protocols(unittest.TestCase):
    def protocol(self, text, name):
        return next(protocol for protocol in reading(text).protocols if protocol.name == name)

    def test_requirements_stand_where_they_are_written(self):
        found = self.protocol(PROTOCOLS + "protocol R: P, AnyObject where A: Q, Self: Q { associatedtype C: P where C.A == A; associatedtype C }", "R")
        self.assertEqual([str(each) for each in found.inherited], ["Self : P", "Self : AnyObject"])
        self.assertEqual([str(each) for each in found.conditions], ["Self.A : Q", "Self : Q"])
        (member,) = found.associated_types
        self.assertEqual([str(each) for each in member.requirements], ["Self.C : P", "Self.C.A == Self.A"])

    def test_an_alias_is_equal_to_an_associated_type_of_its_name(self):
        found = self.protocol(PROTOCOLS + "protocol R: Q { typealias A = B }; protocol S: R { associatedtype A }", "R")
        self.assertEqual([str(each) for each in found.conditions], ["Self.A == Self.B"])

    def test_aliases_of_one_name_in_inherited_protocols_are_equal(self):
        text = """
        struct G<T> {}
        protocol P1 { typealias T = G<X>; associatedtype X }
        protocol P2 { typealias T = G<Y>; associatedtype Y }
        protocol R: P1, P2 {}
        protocol Both: R {}
        func f<T: P1 & P2>(_: T) {}
        func g<T: R>(_: T) where T: P1 {}
        """
        self.assertEqual([str(each) for each in self.protocol(text, "R").conditions], ["Self.X == Self.Y"])
        self.assertEqual([str(each) for each in self.protocol(text, "Both").requirements], ["Self : R"])
        self.assertEqual(omissions(text), ["T.T: alias that meets a member"])

    def test_equal_generic_types_have_equal_arguments(self):
        text = PROTOCOLS + "struct G<T, U> {}; func f<T: P, U: P>(_: T, _: U) where G<T.A, U> == G<U, U> {}"
        self.assertEqual(signatures(text)[-1], "f <T, U where T : P, U : P, T.A == U>")

    def test_names_of_inherited_protocols_are_found_through_aliases(self):
        found = self.protocol(PROTOCOLS + "typealias Both = Q & P; protocol R: Both where A == B.A { }", "R")
        self.assertEqual([str(each) for each in found.requirements], ["Self : Q", "Self : P", "Self.A == Self.B.A"])

    def test_of_protocols_beside_those_are_there_that_are_needed(self):
        found = reading("protocol P: X {}; func f<T: Y>() {}", "protocol W {}; protocol X: W {}; protocol Y {}; protocol Z {}")
        self.assertEqual([protocol.name for protocol in found.protocols], ["P", "W", "X", "Y"])
        self.assertEqual([protocol.name for protocol in found.own_protocols], ["P"])

    def test_circles_end(self):
        found = reading("protocol P: Q {}; protocol Q: P { associatedtype A }; typealias X = Y; typealias Y = X; func f<T: P>() where T.A == X, T: Y {}")
        self.assertEqual(shown(found.signatures[0]), "<T where T : P>")
        self.assertEqual(len(found.signatures[0].omissions), 2)


class Labels(unittest.TestCase):
    def test_different_names_have_different_labels_that_genreq_can_read(self):
        names = ["A", "Self", "Self_", "Self__", "Type", "Type_", "_", "__", "_1", "🦊", "a🦊", "init", "where"]
        labels = [label_of(name) for name in names]
        self.assertEqual(len(set(labels)), len(names))
        self.assertTrue(all(label.isidentifier() for label in labels))

    def test_protocols_of_one_name_have_different_labels(self):
        found = reading("struct S { protocol P {} }; protocol S_P {}; protocol Self_ {}")
        self.assertEqual([(p.name, p.label) for p in found.protocols], [("S.P", "S_P"), ("S_P", "S_P_2"), ("Self_", "Self__")])


class Places(unittest.TestCase):
    def test_places_are_those_of_names_and_bounds(self):
        (found,) = reading(PROTOCOLS + "/* é */ func f<T: P>(\n  _: T) where\n  T: Q {\n}").signatures
        self.assertEqual((found.place, found.last_line), (Place("sample.swift", 4, 15), 7))
        self.assertEqual([requirement.place for requirement in found.requirements], [Place("sample.swift", 4, 20), Place("sample.swift", 6, 6)])


if __name__ == "__main__":
    unittest.main()
