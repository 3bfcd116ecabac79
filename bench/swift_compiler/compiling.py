"""Modules compiled: what the compiler prints of their signatures."""
from dataclasses import dataclass
from pathlib import Path
from typing import List, Tuple

from swift_compiler.compiler import Compiler, Run, timed
from swift_compiler.modules import Module
from swift_compiler.printed import Printed, read

ALWAYS = ["-suppress-warnings", "-debug-generic-signatures"]


@dataclass(frozen=True)
class Workshop:
    """Where modules are compiled: the compiler, and a folder in which each module finds those that were compiled before it."""

    compiler: Compiler
    folder: Path

    @property
    def text(self) -> Path:
        """Where a text stands while it is checked."""
        return self.folder / "text.swift"

    def arguments(self, module: Module) -> List[str]:
        """An interface is checked alone, since the compiler has its module already. Of sources a module is left, even where they have errors."""
        if module.is_interface or self.compiler.interface(module.name):
            task = ["-typecheck"]
        else:
            made = self.folder / (module.name + ".swiftmodule")
            task = ["-emit-module", "-emit-module-path", str(made), "-experimental-allow-module-with-compiler-errors", "-I", str(self.folder)]
        return task + ALWAYS + list(module.flags) + [str(file) for file in module.files]

    def compile(self, module: Module) -> Tuple[Run, Printed]:
        with timed(self.compiler.command(self.arguments(module))) as (run, printed):
            return run, read(line.decode("utf-8", "replace") for line in printed)

    def check_text(self, text: str) -> Tuple[Run, Printed]:
        """The signatures of a Swift text that stands by itself, without a standard library."""
        self.text.write_text(text, encoding="utf-8")
        arguments = ["-typecheck", "-parse-stdlib", "-module-name", "Main", *ALWAYS, str(self.text)]
        with timed(self.compiler.command(arguments)) as (run, printed):
            return run, read(line.decode("utf-8", "replace") for line in printed)
