"""The command line of `bench/swift`."""
import argparse
from dataclasses import dataclass, field
from pathlib import Path
import sys
import tempfile
from typing import List, Optional, Sequence

from genreq_swift.ask.program import ProgramFailed

from swift_compiler.as_swift import Untranslated
from swift_compiler.comparing import Pair, files_named, pairs
from swift_compiler.compiler import Compiler, NoCompiler, set_up
from swift_compiler.compiling import Workshop
from swift_compiler.forms import Likeness
from swift_compiler.modules import Module, NoModule, beside, module_of
from swift_compiler.ours import Unreadable, asked
from swift_compiler.same_text import SameText, same_text
from swift_compiler.table import differences, row, seconds_table, table, text_table

DIFFERS = 1
FAILED = 70
DESCRIPTION = """Lays the signatures and requirement signatures that genreq-swift prints of Swift modules beside those of the Swift compiler: each
by its place in the sources, and then those of the text for genreq, which the compiler reads as Swift. It prints tables, and each difference."""
EPILOGUE = """A MODULE is `standard`, the interface of the standard library; the name of another module of the compiler that has an interface; a
folder with sources, whose name is that of the module; or NAME=PATH, where PATH is a folder, a source, or a text that lists sources, a path in
each line. Each module imports those named before it. Without any, the modules of the compiler are compared. The status is 1 where something
differs by more than its form, and 70 where a program fails."""
OWN_MODULES = ["standard", "_Concurrency", "_StringProcessing", "RegexBuilder", "_Differentiation", "Synchronization", "Observation", "Distributed"]
COMPILER = Path(__file__).resolve().parent.parent / "out" / "swift"


def parser() -> argparse.ArgumentParser:
    made = argparse.ArgumentParser(prog="bench/swift", description=DESCRIPTION, epilog=EPILOGUE)
    made.add_argument("--compiler", metavar="FOLDER", type=Path, default=COMPILER, help="where the compiler is set up (bench/out/swift)")
    made.add_argument("--set-up", action="store_true", help="set the compiler up there where it is not yet: 540 MB to fetch, 2.4 GB of files")
    made.add_argument("--flag", metavar="FLAG", action="append", default=[], help="a further flag for the compiler, as --flag=-DDEBUG")
    made.add_argument("--language", metavar="VERSION", default="5", help="the language mode in which sources are read and compiled (5)")
    made.add_argument("--form", action="store_true", help="print the differences of form too, and not only those of content")
    made.add_argument("--no-sources", action="store_true", help="compare by the texts for genreq alone, for sources that do not compile")
    made.add_argument("modules", metavar="MODULE", nargs="*")
    return made


@dataclass
class Found:
    """What was found of a module by the places of its sources, and what of its text."""

    module: Module
    signatures: List[Pair] = field(default_factory=list)
    requirements: List[Pair] = field(default_factory=list)
    seconds: Sequence[float] = ()
    text: Optional[SameText] = None

    @property
    def pairs(self) -> List[Pair]:
        """All pairs that were found, by place and of the text."""
        return self.signatures + self.requirements + (self.text.signatures + self.text.requirements if self.text else [])


def by_place(workshop: Workshop, found: Found, read: Sequence[str], language: str) -> None:
    """Compares a module by the places of its sources."""
    module = found.module
    compiled, printed = workshop.compile(module)
    if printed.errors:
        tell("%s: the compiler tells %d errors, the first is %s" % (module.name, len(printed.errors), printed.errors[0]))
    if compiled.status < 0:
        tell("%s: the compiler ended by signal %d" % (module.name, -compiled.status))
    words = ["--as", "swift", "--language", language, "--module", module.name]
    signed, signatures = asked("signatures", words, module.files, read)
    required, requirements = asked("requirements", words, module.files, read)
    found.signatures = pairs(signatures, printed)
    found.requirements = pairs(files_named(requirements, module.files), printed)
    found.seconds = (compiled.seconds, signed.seconds, required.seconds)


def tell(line: str) -> None:
    print("swift: " + line, file=sys.stderr, flush=True)


def compared(options: argparse.Namespace, compiler: Compiler) -> List[Found]:
    flags = ["-swift-version", options.language, *options.flag]
    modules = [module_of(word, flags, compiler) for word in options.modules or OWN_MODULES]
    everything = []
    with tempfile.TemporaryDirectory() as folder:
        workshop = Workshop(compiler, Path(folder))
        for at, module in enumerate(modules):
            tell(module.name)
            found = Found(module)
            read = beside(module, modules[:at])
            if not options.no_sources:
                by_place(workshop, found, read, options.language)
            found.text = same_text(workshop, module, read, options.language)
            everything.append(found)
    return everything


def report(everything: Sequence[Found], with_sources: bool, kinds: Sequence[Likeness]) -> List[str]:
    """The tables, and the differences of these kinds."""
    lines: List[str] = []
    if with_sources:
        lines += table("signatures", [row(one.module.name, one.signatures) for one in everything]) + [""]
        lines += table("requirement signatures", [row(one.module.name, one.requirements) for one in everything]) + [""]
        lines += seconds_table([(one.module.name, one.seconds) for one in everything]) + [""]
    texts = [(one.module.name, one.text) for one in everything if one.text]
    lines += table("signatures of the text", [row(name, text.signatures) for name, text in texts]) + [""]
    lines += table("requirement signatures of the text", [row(name, text.requirements) for name, text in texts]) + [""]
    lines += text_table([(name, text.times) for name, text in texts])
    return lines + differences((pair for one in everything for pair in one.pairs), kinds)


def run(arguments: Sequence[str]) -> int:
    options = parser().parse_args(arguments)
    if options.set_up:
        set_up(options.compiler)
    compiler = Compiler(options.compiler.resolve() / "root")
    tell(compiler.check())
    everything = compared(options, compiler)
    kinds = list(Likeness)[1:] if options.form else [Likeness.OTHER]
    print("\n".join(report(everything, not options.no_sources, kinds)))
    return DIFFERS if any(pair.differs for one in everything for pair in one.pairs) else 0


def main(arguments: Sequence[str]) -> int:
    try:
        return run(arguments)
    except (NoCompiler, NoModule, ProgramFailed, Unreadable, Untranslated) as failure:
        print("swift: %s" % failure, file=sys.stderr)
        return FAILED
    except OSError as error:
        print("swift: %s: %s" % (error.filename, error.strerror), file=sys.stderr)
        return FAILED
