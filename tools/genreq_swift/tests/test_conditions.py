"""Conditions of #if, and which branches are read."""
import unittest

from ..read.conditions import DARWIN_MODULES, Configuration, condition
from ..read.tokens import Source, SourceError
from .samples import declared

MAC = Configuration(system="macOS", processor="arm64", compiler=(5, 9), language=(5,), defined=frozenset(("DEBUG",)), modules=DARWIN_MODULES)


def is_true(text, configuration=Configuration()):
    return condition(Source("f", text), 0, configuration)[0]


def names(text, configuration=Configuration()):
    return [declaration.name for declaration in declared(text, configuration)]


class Conditions(unittest.TestCase):
    def test_each_test_asks_the_configuration(self):
        for text in ["os(Linux)", "arch(x86_64)", "compiler(>=6.0)", "swift(>=5.9)", "canImport(Glibc)", "_runtime(_Native)", "true", "!DEBUG"]:
            self.assertTrue(is_true(text), text)
        for text in ["os(macOS)", "compiler(>=6.2)", "compiler(<6)", "canImport(Darwin)", "hasFeature(Embedded)", "$NonescapableTypes", "$Embedded", "targetEnvironment(simulator)"]:
            self.assertFalse(is_true(text), text)
        for text in ["os(macOS)", "os(OSX)", "arch(arm64)", "compiler(>=5.9)", "compiler(<5.9.1)", "DEBUG", "canImport(Darwin)"]:
            self.assertTrue(is_true(text, MAC), text)

    def test_and_binds_more_than_or(self):
        self.assertTrue(is_true("true || false && false"))
        self.assertFalse(is_true("(true || false) && false"))
        self.assertTrue(is_true("!(os(macOS) || os(iOS)) && os(Linux)"))

    def test_a_bad_condition_is_told(self):
        for text in ["", "&& a", "(a", "os("]:
            with self.subTest(text), self.assertRaises(SourceError):
                is_true(text)


class Branches(unittest.TestCase):
    TEXT = """
    #if os(macOS)
    struct A {}
    #elseif DEBUG
    struct B { let s = "#else" }
    #else
      #if os(Linux) // nested
      struct C {}
      #endif
    #endif
    struct D {}
    """

    def test_the_first_true_branch_is_read(self):
        self.assertEqual(names(self.TEXT, MAC), ["A", "D"])
        self.assertEqual(names(self.TEXT), ["C", "D"])
        self.assertEqual(names(self.TEXT, Configuration(system="Windows", defined=frozenset(("DEBUG",)))), ["B", "D"])

    def test_branches_of_attributes_and_bodies_are_gone_past(self):
        self.assertEqual(names("#if true\n@inlinable\n#endif\nfunc f() {\n#if os(macOS)\n x()\n#endif\n}\nstruct A {}"), ["f", "A"])

    def test_what_is_not_closed_is_told(self):
        for text in ["#if true\nstruct A {}", "#endif", "#if false\nstruct A {}", "#else\n#endif"]:
            with self.subTest(text), self.assertRaises(SourceError):
                names(text)


if __name__ == "__main__":
    unittest.main()
