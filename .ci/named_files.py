"""The files that a task of docs/CHANGING.md names. A task that adds a variant names in its numbered steps each file of code and of definitions
in which variants of that kind are named, and no other such file; what else changes stands in the paragraph after its steps.

A file names variants where the pattern of the task is found in it outside comments and strings. A step names a file between backticks, by its path
below crates/, or by its path in the crate that the step names before it. Proofs are not listed: the prover names each that no longer holds."""
import pathlib
import re
from dataclasses import dataclass
from typing import Iterator, List, Pattern, Set, Tuple


@dataclass(frozen=True)
class Task:
    """A task: its heading, and what a file has in it that names a variant."""

    heading: str
    variant: Pattern[str]


TASKS: Tuple[Task, ...] = (
    Task("Add a query form", re.compile(r"\b(?:Ask|Asks)(?:::|\.TheVariants| \{)|\bAsks[A-Z]")),
    Task("Add a command", re.compile(r"\b(?:Command|Content)(?:::[A-Z]|\.TheVariants| \{)")),
    # A new kind of requirement is named where `AnyObject` is, which is called the layout too.
    Task("Add a kind of requirement", re.compile(r"[Ll]ayout|AnyObject|any_object")),
)
# What is no code: a character or a string, and a comment.
NO_CODE = {".rt": re.compile(r"'(?:[^'\\\n]|\\.)'|\"(?:[^\"\\]|\\.)*\"|//[^\n]*", re.S), ".antt": re.compile(r"\"[^\"\n]*\"|--[^\n]*")}
CODED = re.compile(r"`([^`\s]+)`")
CRATE = re.compile(r"(?:swreq_\w+|genreq)\Z")
FILE = re.compile(r"(?:src|specs)/\S+\.(?:rt|antt)\Z")


def names_variant(task: Task, path: pathlib.Path) -> bool:
    """Whether a variant is named in the code of the file."""
    code = NO_CODE[path.suffix].sub(" ", path.read_text(encoding="utf-8"))
    return bool(task.variant.search(code))


def files_with_variants(task: Task, crates: pathlib.Path) -> Set[str]:
    """The files below crates/ that name a variant."""
    paths = [*crates.glob("*/src/**/*.rt"), *crates.glob("*/specs/**/*.antt")]
    return {str(path.relative_to(crates)) for path in paths if names_variant(task, path)}


def files_in(line: str) -> Iterator[str]:
    """The files of code and of definitions that a line of a page names."""
    crate = ""
    for word in CODED.findall(line):
        first, _, rest = word.partition("/")
        if CRATE.match(word):
            crate = word
        elif crate and FILE.match(word):
            yield "%s/%s" % (crate, word)
        elif CRATE.match(first) and FILE.match(rest):
            yield word


def steps_of(task: Task, page: str) -> List[str]:
    """The numbered steps of the task."""
    section = page.partition("\n## %s\n" % task.heading)[2].partition("\n## ")[0]
    return re.findall(r"^\d+\. .*", section, re.M)


def faults_of_task(task: Task, page: str, crates: pathlib.Path) -> List[str]:
    """What is wrong with the files that the task names."""
    named = {name for step in steps_of(task, page) for name in files_in(step)}
    found = files_with_variants(task, crates)
    faults = []
    if found - named:
        faults.append("%s: it lacks what names variants: %s" % (task.heading, ", ".join(sorted(found - named))))
    if named - found:
        faults.append("%s: it has what names no variant: %s" % (task.heading, ", ".join(sorted(named - found))))
    return faults


def faults_of_tasks(page: str, crates: pathlib.Path) -> List[str]:
    """What is wrong with the files that the tasks of a page name."""
    return [fault for task in TASKS for fault in faults_of_task(task, page, crates)]
