"""Prints docs/DEFINITIONS.md: what the contract of `run` rests on. What its sentence on `yes` rests on is explained, and the rest is named."""
import pathlib
import re
import sys
from typing import Dict, List, Optional, Set, Tuple

from definition_page.contract import CONTRACT, RUN, Clause, clauses_of_run, fields_of_contract, sentence_of
from definition_page.specs import Definition, Key, Specs, uses

TOP = pathlib.Path(__file__).resolve().parent.parent.parent
PROGRAM = "swreq_top/src/program.rt"
# What each clause cites: definitions, and names of elsewhere.
Cited = Dict[str, Tuple[Set[Key], Set[Key]]]

INTRODUCTION = (
    "What a reader has to believe in order to believe the contract of `run`: the record `IsRun` of `crates/swreq_top/specs/Contract.antt`, and what "
    "`crates/swreq_top/src/program.rt` says of the source. This page is made by `tools/definitions`, which reads it off the sources: a definition rests "
    "on each definition that it names. The gate checks that the page is what the script prints. Files are in reading order, each after those on which it "
    "rests; all paths are below `crates/`."
)
ON_YES = (
    "The last of these is the sentence itself: of the lines that a command prints, over the world of a text. A definition without a comment is shown as it "
    "is declared."
)
ON_THE_REST = "Each file with the definitions that count. The comment above each of them says what it is."
ON_TYPES = "A definition sees a struct by its fields, an enum by its variants, and a type with a `Model` by the value that this gives."


class NoSentence(Exception):
    """The contract has no sentence on `yes`."""


def marked(text: str) -> str:
    """A sentence for Markdown, in which what stands between backticks is left as it is."""
    parts = text.split("`")
    parts[::2] = [part.replace("<", "&lt;").replace("*", "\\*") for part in parts[::2]]
    return "`".join(parts)


def sentence(definition: Definition) -> str:
    """The first sentence of the comment of a definition, or where there is none how it is declared."""
    if definition.comment:
        first = re.match(r".*?\.(?=\s+[A-Z`\[]|$)|.*", definition.comment)
        return marked(first[0] if first else "")
    declared = re.sub(r"^\s*(abbrev|unfoldable)? ?(pub )?(record|data)? ?", "", definition.text.split("\n")[0])
    return "`%s`" % re.sub(r" (where|=)$", "", declared).strip()


def explained(specs: Specs, keys: Set[Key]) -> List[str]:
    """These definitions, in reading order, each with what it says."""
    lines: List[str] = []
    for module in specs.in_order(keys):
        lines += ["", "### " + specs.files[module], ""]
        lines += ["- `%s`: %s" % (it.name, sentence(it)) for it in specs.here(keys, module)]
    return lines


def coded(names: List[str]) -> str:
    return ", ".join("`%s`" % name for name in names)


def named_by_file(specs: Specs, keys: Set[Key]) -> List[str]:
    """A line for each file, in reading order, with the names of these definitions."""
    return ["- `%s`: %s" % (specs.files[module], coded([it.name for it in specs.here(keys, module)])) for module in specs.in_order(keys)]


def source_of(crates: pathlib.Path, module: str) -> Optional[Tuple[str, str]]:
    """The source file and the name of an item that a specification sees as `Rattle.CRATE.specs.declared.FILE.ITEM`, or None."""
    begin = re.match(r"Rattle\.(\w+)\.specs\.declared\.(.*)$", module)
    if not begin or not (crates / begin[1]).exists():
        return None
    parts = [part for part in begin[2].split(".") if part not in ("TheVariants", "TheConstants")]
    for length in range(len(parts), 0, -1):
        path = crates / begin[1] / "src" / ("/".join(parts[:length]) + ".rt")
        if path.exists():
            return str(path.relative_to(crates)), ".".join(parts[length:])
    return begin[1], ".".join(parts)


def elsewhere_lines(crates: pathlib.Path, names: Set[Key]) -> List[str]:
    """The types of the program and the definitions of the toolchain's libraries that are named, by their files."""
    types: Dict[str, Set[str]] = {}
    standard: Dict[str, Set[str]] = {}
    for module, name in names:
        source = source_of(crates, module)
        if source:
            types.setdefault(source[0], set()).add(source[1].split(".")[0] or name)
        else:
            crate, _, rest = module.replace("Rattle.", "").partition(".specs.")
            standard.setdefault("%s, specs.%s" % (crate, rest), set()).add(name)
    lines = ["", "## Types of the program", "", ON_TYPES, ""]
    lines += ["- `%s`: %s" % (path, coded(sorted(types[path]))) for path in sorted(types)]
    lines += ["", "## Of the toolchain's libraries", ""]
    return lines + ["- `%s`: %s" % (module, coded(sorted(standard[module]))) for module in sorted(standard)]


def trait_lines(crates: pathlib.Path, source: str) -> List[str]:
    """The ghost members of the traits of `run`, from which its clauses read what a stream or a watcher tells."""
    bounds = re.search(r"pub fn run<([^>]*)>", source)
    lines = ["", "## What streams and watchers tell", ""]
    texts = [(path, path.read_text(encoding="utf-8")) for path in sorted(crates.glob("*/src/**/*.rt"))]
    for trait in re.findall(r"\w+: (\w+)", bounds[1] if bounds else ""):
        for path, text in texts:
            begin = re.search(r"^pub trait %s\b.*?^}" % trait, text, re.M | re.S)
            for comment, name in re.findall(r"/// ([^\n]*)\n    ghost (\w+):", begin[0]) if begin else ():
                lines.append("- `%s::%s` of `%s`: %s" % (trait, name, path.relative_to(crates), marked(comment)))
    return lines


def table_lines(specs: Specs, clauses: List[Clause], cited: Cited) -> List[str]:
    """The table of the clauses, each with what it says and how many definitions it rests on."""
    lines = ["| Clause of `run` | What it says | Definitions |", "|---|---|---|"]
    for clause in clauses:
        said = marked(clause.comment).replace("|", "\\|")
        lines.append("| `%s` | %s | %d |" % (clause.name, said, len(specs.closure(cited[clause.name][0])[0])))
    return lines


def page(crates: pathlib.Path) -> str:
    """The page. NoSentence where the contract has none on `yes`."""
    specs = Specs(crates)
    source = (crates / PROGRAM).read_text(encoding="utf-8")
    specs.imports[RUN] = uses(source, "ghost use")
    clauses = fields_of_contract((crates / specs.files[CONTRACT]).read_text(encoding="utf-8")) + clauses_of_run(source)
    cited: Cited = {clause.name: specs.named(clause.text, clause.module, specs.imports[clause.module]) for clause in clauses}
    if "yes" not in cited:
        raise NoSentence("the contract of run has no clause `yes`")
    first, of_first = specs.closure(sentence_of("yes", {name: inner for name, (inner, _) in cited.items()}, specs))
    whole, of_whole = specs.closure(set().union(*(inner for inner, _ in cited.values())))
    elsewhere = of_first | of_whole.union(*(outer for _, outer in cited.values()))
    files = len({module for module, _ in whole})
    lines = ["# Definitions", "", INTRODUCTION, ""]
    lines.append(
        "The whole contract rests on %d definitions in %d files, and its sentence on `yes`, for the world of a text, on %d of them."
        % (len(whole), files, len(first))
    )
    lines += ["", *table_lines(specs, clauses, cited), "", "## What `yes` rests on", "", ON_YES, *explained(specs, first)]
    lines += ["", "## What the rest of the contract rests on", "", ON_THE_REST, "", *named_by_file(specs, whole - first)]
    lines += trait_lines(crates, source) + elsewhere_lines(crates, elsewhere)
    return "\n".join(lines) + "\n"


def main() -> int:
    try:
        sys.stdout.buffer.write(page(TOP / "crates").encode("utf-8"))
    except NoSentence as failure:
        print("definitions: %s" % failure, file=sys.stderr)
        return 1
    return 0
