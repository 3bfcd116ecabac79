"""Checks the documents: docs/DEFINITIONS.md is what its script prints, each crate has its line, README.md has the sentences of the contract, statuses are
the same everywhere, VERSION is the newest release, paths and links lead to files, the tasks of docs/CHANGING.md name their files, pages stay readable, no
line of a definition, a proof or a clause is too wide, and what a command is said to print it prints. With --no-commands, which is for a program that is not
built, no command is run."""
import pathlib
import re
import subprocess
import sys
from typing import Iterator, List, Tuple

from named_files import files_in, faults_of_tasks
from widths import faults_of_widths

TOP = pathlib.Path(__file__).resolve().parent.parent
GREATEST_README = 9216
GREATEST_CELL = 300
GREATEST_LINE_OF_A_CRATE = 100
MADE = "docs/DEFINITIONS.md"
CONTRACT = "crates/swreq_top/specs/Contract.antt"
FOLDERS = "crates|docs|examples|tests|tools|bench|include|\\.ci"
# Between backticks: a path from the top, also one with words after it, or a path below crates/.
AT_TOP = re.compile(r"`((?:%s)/[\w/.\-]+|HANDLES|VERSION|[A-Z]+\.md|crates\.txt)(?: [^`]*)?`" % FOLDERS)
BELOW_CRATES = re.compile(r"`((?:swreq_\w+|genreq)/[\w/.]+)`")
# A file beside the page, or at the top. `NAME` stands for any name.
BESIDE = re.compile(r"`(?!NAME\b)([\w/]+\.(?:c|lines|py|rows|rs|sh|svg|swift|txt))`")
# A command at the top, and a program that a page builds there.
COMMAND_AT_TOP = re.compile(r"(?:^|[\s`(])\./([a-z]\w*)\b", re.M)
BUILT = re.compile(r" -o (\w+) ")
LINK = re.compile(r"\]\(([^)#\s]+)[^)]*\)")
# A block of `sh` with one command, and after it a block without a language, are the command and what it prints.
COMMAND = re.compile(r"^```sh\n([^\n]+)\n```\n\n```\n(.*?)^```$", re.M | re.S)
# Of all blocks of which the one follows the other: what the first of them has.
FOLLOWED = re.compile(r"^```sh\n((?:(?!```).*\n)*)```\n\n```$", re.M)


def pages(top: pathlib.Path) -> Iterator[Tuple[str, str]]:
    """The pages of the repository, each with its text."""
    for pattern in ("*.md", "docs/*.md", "bench/*.md", "examples/*.md"):
        for path in sorted(top.glob(pattern)):
            yield str(path.relative_to(top)), path.read_text(encoding="utf-8")


def written_pages(top: pathlib.Path) -> Iterator[Tuple[str, str]]:
    """The pages that are written by hand."""
    return ((page, text) for page, text in pages(top) if page != MADE)


def text_of(top: pathlib.Path, page: str) -> str:
    return (top / page).read_text(encoding="utf-8")


def faults_of_definitions(top: pathlib.Path) -> List[str]:
    made = subprocess.run([str(top / "tools/definitions")], stdout=subprocess.PIPE, check=True).stdout
    return [] if made == (top / MADE).read_bytes() else ["%s is not what tools/definitions prints: tools/definitions >%s" % (MADE, MADE)]


def faults_of_crates(top: pathlib.Path) -> List[str]:
    """Each crate has one line in the house, which is short, and its contracts on the page of what is proved."""
    crates = re.findall(r"^([a-z]\w*)", text_of(top, "crates.txt"), re.M)
    lines = re.findall(r"^- `\w+`: .*", text_of(top, "docs/HOUSE.md"), re.M)
    faults = ["docs/HOUSE.md: too long: %s" % line for line in lines if len(line) > GREATEST_LINE_OF_A_CRATE]
    if sorted(line.split("`")[1] for line in lines) != sorted(crates):
        faults.append("docs/HOUSE.md does not have one line for each crate of crates.txt")
    proved = text_of(top, "docs/PROVED.md")
    missing = [crate for crate in crates if not re.search(r"\b%s\b" % crate, proved)]
    return faults + ["docs/PROVED.md does not name %s" % crate for crate in missing]


def sentences_of_contract(text: str) -> List[Tuple[str, str]]:
    """The fields of the record of the contract, each with the comment above it."""
    found, comment = [], ""
    for line in text.partition("pub record IsRun")[2].splitlines():
        line = line.strip()
        if line.startswith("-- "):
            comment = (comment + " " + line[3:]).strip()
        elif line.startswith("pub "):
            found.append((line.split()[1], comment))
            comment = ""
    return found


def faults_of_contract(top: pathlib.Path) -> List[str]:
    """README.md has the sentences of the contract, word for word, in their order, and no others."""
    lines = re.findall(r"^- `(\w+)`: (.*)", text_of(top, "README.md").partition("\n## What is proved\n")[2].partition("\n## ")[0], re.M)
    wanted = sentences_of_contract(text_of(top, CONTRACT))
    return [] if lines == wanted else ["README.md does not have the sentences of %s as they are" % CONTRACT]


def faults_of_sizes(top: pathlib.Path) -> List[str]:
    faults = []
    if (top / "README.md").stat().st_size > GREATEST_README:
        faults.append("README.md has more than %d bytes" % GREATEST_README)
    for page, text in pages(top):
        rows = [line for line in text.splitlines() if line.startswith("|")]
        cells = [cell for row in rows for cell in re.split(r" (?<!\\)\| ", row.strip("| "))]
        faults += ["%s: a cell of %d characters: %s.." % (page, len(cell), cell[:60]) for cell in cells if len(cell) > GREATEST_CELL]
    return faults


def paths_in(text: str) -> Iterator[str]:
    """The paths from the top that a page names, but for those of what is built."""
    below = [*BELOW_CRATES.findall(text), *(path for line in text.splitlines() for path in files_in(line))]
    named = [*AT_TOP.findall(text), *("crates/" + path for path in below)]
    yield from (path for path in named if "/out/" not in path)
    yield from set(COMMAND_AT_TOP.findall(text)) - set(BUILT.findall(text))


def faults_of_paths(top: pathlib.Path) -> List[str]:
    """What a page names is there, and its links lead to files."""
    faults = []
    for page, text in written_pages(top):
        missing = {path for path in paths_in(text) if not (top / path).exists()}
        linked = {link for link in LINK.findall(text) if "://" not in link}
        beside = {path for path in BESIDE.findall(text) if not (top / path).exists()}
        missing |= {path for path in linked | beside if not (top / page).parent.joinpath(path).exists()}
        faults += ["%s: there is no %s" % (page, path) for path in sorted(missing)]
    return faults


def faults_of_tasks_in(top: pathlib.Path) -> List[str]:
    page = "docs/CHANGING.md"
    return ["%s: %s" % (page, fault) for fault in faults_of_tasks(text_of(top, page), top / "crates")]


def faults_of_blocks(top: pathlib.Path) -> List[str]:
    """Each command with a block of what it prints can be run: it stands alone on its line."""
    return [
        "%s: `%s` and the next lines are one block, of which the output cannot be checked" % (page, block.split("\n")[0])
        for page, text in written_pages(top)
        for block in FOLLOWED.findall(text)
        if block.count("\n") > 1
    ]


def faults_of_commands(top: pathlib.Path) -> List[str]:
    faults = []
    for page, text in written_pages(top):
        for command, wanted in COMMAND.findall(text):
            done = subprocess.run(["sh", "-c", command], cwd=top, stdout=subprocess.PIPE, check=False)
            if done.stdout.decode("utf-8", "replace") != wanted:
                faults.append("%s: `%s` prints something else" % (page, command))
    return faults


def rows_of_statuses(text: str) -> List[Tuple[str, str]]:
    """The statuses of the program in a table of a page, each with what it means."""
    return re.findall(r"^\| ([0-6]) \| ([^|]+) \|", text, re.M)


def faults_of_statuses(top: pathlib.Path) -> List[str]:
    """Each page that has the statuses says the same of them, and the header for C has no other ones."""
    wanted = rows_of_statuses(text_of(top, "README.md"))
    faults = []
    if rows_of_statuses(text_of(top, "docs/COMMAND_LINE.md")) != wanted or [number for number, _ in wanted] != list("0123456"):
        faults.append("README.md and docs/COMMAND_LINE.md do not say the same of the statuses")
    if re.findall(r"GENREQ_\w+ = (\d+)", text_of(top, "include/genreq.h")) != list("01236"):
        faults.append("include/genreq.h does not have the statuses 0, 1, 2, 3 and 6")
    return faults


def faults_of_release(top: pathlib.Path) -> List[str]:
    newest = re.search(r"^## (\S+), \d{4}-\d\d-\d\d$", text_of(top, "CHANGES.md"), re.M)
    return [] if newest and newest[1] + "\n" == text_of(top, "VERSION") else ["VERSION is not the newest release of CHANGES.md"]


CHECKS = (
    faults_of_definitions,
    faults_of_crates,
    faults_of_contract,
    faults_of_statuses,
    faults_of_release,
    faults_of_sizes,
    faults_of_paths,
    faults_of_tasks_in,
    faults_of_blocks,
    faults_of_widths,
)


def main(words: List[str]) -> int:
    checks = CHECKS if "--no-commands" in words else (*CHECKS, faults_of_commands)
    faults = [fault for check in checks for fault in check(TOP)]
    for fault in faults:
        print("documents: " + fault, file=sys.stderr)
    return 1 if faults else 0


if __name__ == "__main__":
    sys.exit(main(sys.argv[1:]))
