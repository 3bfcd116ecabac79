"""The words that name modules."""
from pathlib import Path
import tempfile
import unittest

from swift_compiler.compiler import Compiler
from swift_compiler.modules import Module, NoModule, beside, module_of

HEADER = "// swift-module-flags: -swift-version 5 -module-name Swift\n"


class Modules(unittest.TestCase):
    def setUp(self) -> None:
        made = tempfile.TemporaryDirectory()
        self.addCleanup(made.cleanup)
        self.folder = Path(made.name).resolve()
        self.compiler = Compiler(self.folder / "root")
        self.standard = self.written("root/usr/libexec/swift/lib/swift/linux/Swift.swiftmodule/x86_64-pc-linux-gnu.swiftinterface", HEADER)

    def written(self, name: str, text: str = "") -> Path:
        path = self.folder / name
        path.parent.mkdir(parents=True, exist_ok=True)
        path.write_text(text, encoding="utf-8")
        return path

    def named(self, word: str) -> Module:
        return module_of(word, ["-O"], self.compiler)

    def test_the_interface_of_the_standard_library_with_its_flags(self) -> None:
        module = self.named("standard")
        self.assertEqual((module.name, module.files, module.flags), ("Swift", (self.standard,), ("-swift-version", "5", "-module-name", "Swift")))

    def test_a_folder_is_named_as_its_module(self) -> None:
        files = self.written("My-Module/b/c.swift"), self.written("My-Module/a.swift")
        self.written("My-Module/a.txt")
        module = self.named(str(self.folder / "My-Module"))
        self.assertEqual((module.name, module.files), ("My_Module", tuple(sorted(files))))
        self.assertEqual(module.flags, ("-module-name", "My_Module", "-O"))

    def test_a_list_keeps_its_order(self) -> None:
        files = self.written("b.swift"), self.written("a.swift")
        self.written("list", "b.swift\na.swift\n")
        self.assertEqual(self.named("Swift=%s" % (self.folder / "list")).files, files)

    def test_what_is_no_module(self) -> None:
        self.written("empty/a.txt")
        for word in ("NoSuch", str(self.folder / "empty")):
            with self.assertRaises(NoModule):
                self.named(word)

    def test_a_module_imports_the_standard_library_and_those_before_it(self) -> None:
        self.written("A/a.swift")
        self.written("B/b.swift")
        one, other = self.named(str(self.folder / "A")), self.named(str(self.folder / "B"))
        self.assertEqual(beside(other, [self.named("standard"), one]), ["standard", str(self.folder / "A/a.swift")])
        self.assertEqual(beside(self.named("standard"), []), [])


if __name__ == "__main__":
    unittest.main()
