"""Runs all tests without a proof: every test of every crate, the worked texts and examples of the program, the tools and the documents.

usage: ./test [NAME..]    of these crates, and `worked`, `program`, `tools`, `documents` or `install`, alone; all where none is named

A program that the gate or ./prove has built, and no source is newer, is run; else one that is built unproved. The last line is `N passed, M failed`, and
the status is 0 if and only if none failed."""
import os
import pathlib
import re
import signal
import subprocess
import sys
import threading
import time
from concurrent.futures import FIRST_EXCEPTION, Future, ThreadPoolExecutor, wait
from dataclasses import dataclass
from typing import Dict, List, Tuple

from building import unproved
from building.crates import Crates
from building.toolchain import Missing, Toolchain

TOP = pathlib.Path(__file__).resolve().parent.parent.parent
PROGRAM = "genreq"
# What runs the program, by name. Each ends with status 0 if and only if it finds nothing wrong.
SCRIPTS: Dict[str, List[str]] = {
    "worked": ["python3", ".ci/worked.py"],
    "program": [".ci/program"],
    "tools": [".ci/tools"],
    "documents": [".ci/documents"],
    "install": [".ci/install"],
}
# A line of the toolchain's runner of tests, and the last line of a script that counts.
RESULT = re.compile(r"^test (\S+) \.\.\. (\w+)", re.M)
COUNTS = re.compile(r"^(\d+) passed, (\d+) failed$", re.M)
# What ./genreq says of each run of the unproved program, which says nothing of a failure.
UNPROVED = re.compile(r"^genreq: this run is not proved.*\n", re.M)
SECONDS_A_TEST = 60
# What building a program unproved takes of memory, in bytes.
MEMORY = 2_500_000_000


@dataclass(frozen=True)
class Outcome:
    """What came of the tests of one name: how many passed and failed, what was printed of those that failed, and the seconds that it took."""

    name: str
    passed: int
    failed: int
    said: str
    seconds: float

    def line(self) -> str:
        return "%s: %d passed%s (%.0f s)" % (self.name, self.passed, ", %d FAILED" % self.failed if self.failed else "", self.seconds)


def count_of_tests(name: str, status: int, printed: str, seconds: float) -> Outcome:
    """What came of a crate's tests, by what the toolchain's runner printed. A runner that fails without a failed test counts as one."""
    results = RESULT.findall(printed)
    passed = sum(word == "ok" for _, word in results)
    failed = len(results) - passed
    if status and not failed or not results:
        failed += 1
    return Outcome(name, passed, failed, printed if failed else "", seconds)


def count_of_script(name: str, status: int, printed: str, seconds: float) -> Outcome:
    """What came of a script: what its last line counts, or one for all that it does."""
    counts = COUNTS.findall(printed)
    passed, failed = map(int, counts[-1]) if counts else (int(status == 0), int(status != 0))
    if status and not failed:
        failed = 1
    return Outcome(name, passed, failed, UNPROVED.sub("", printed) if failed else "", seconds)


class Testing:
    """A run of tests: it builds what it runs, as many programs side by side as there are processors and memory."""

    def __init__(self, crates: Crates, names: List[str]) -> None:
        self.crates, self.toolchain, self.printing = crates, Toolchain(), threading.Lock()
        tested = [name for name, crate in crates.by_name.items() if crate.has_tests()]
        self.tested = [name for name in tested if not names or name in names]
        self.scripts = [name for name in SCRIPTS if not names or name in names]
        self.unknown = [name for name in names if name not in tested and name not in SCRIPTS]

    def say(self, text: str) -> None:
        with self.printing:
            print(text, flush=True)

    def ran(self, words: List[str]) -> Tuple[int, str]:
        """The status of a command at the top of the repository, and all that it prints."""
        done = subprocess.run(words, cwd=TOP, stdin=subprocess.DEVNULL, stdout=subprocess.PIPE, stderr=subprocess.STDOUT, check=False)
        return done.returncode, done.stdout.decode("utf-8", "replace")

    def built(self, name: str, tests: bool) -> pathlib.Path:
        """A program, or the tests of a crate, proved where they stand so, and else built unproved."""
        proved = self.crates.by_name[name].out / (name + ("_tests" if tests else ""))
        if self.crates.is_made(proved, name):
            return proved
        what = "the tests of %s" % name if tests else name
        return unproved.ensure(self.crates, name, tests, lambda step: self.say("building %s: %s" % (what, step)))

    def test(self, name: str) -> Outcome:
        """Runs the tests of a crate."""
        began = time.monotonic()
        program = self.built(name, True)
        status, printed = self.ran([self.toolchain.program("rattle-test"), "--seconds", str(SECONDS_A_TEST), str(program)])
        return count_of_tests(name, status, printed, time.monotonic() - began)

    def script(self, name: str) -> Outcome:
        """Runs a script on the program, which is built."""
        began = time.monotonic()
        status, printed = self.ran(SCRIPTS[name])
        return count_of_script(name, status, printed, time.monotonic() - began)

    def scripts_in_turn(self) -> List[Outcome]:
        """Builds the program, and runs each script on it."""
        if self.scripts:
            self.built(PROGRAM, False)
        return [self.told(self.script(name)) for name in self.scripts]

    def told(self, outcome: Outcome) -> Outcome:
        self.say(outcome.line() + ("\n" + outcome.said.rstrip() if outcome.failed else ""))
        return outcome

    def run(self) -> List[Outcome]:
        """Runs all, those that take longest first: the program stands on most crates."""
        order = sorted(self.tested, key=lambda name: -len(self.crates.below(name)))
        with ThreadPoolExecutor(lanes()) as pool:
            runs: List[Future[List[Outcome]]] = [pool.submit(self.scripts_in_turn)]
            runs += [pool.submit(lambda name=name: [self.told(self.test(name))]) for name in order]
            wait(runs, return_when=FIRST_EXCEPTION)
            for run in runs:
                if run.done() and run.exception():
                    for other in runs:
                        other.cancel()
                    run.result()
            return [outcome for run in runs for outcome in run.result()]


def lanes() -> int:
    """How many programs are built side by side."""
    count = os.cpu_count() or 1
    try:
        free = os.sysconf("SC_AVPHYS_PAGES") * os.sysconf("SC_PAGE_SIZE")
    except (OSError, ValueError):
        return count
    return max(1, min(count, free // MEMORY))


def main(names: List[str]) -> int:
    signal.signal(signal.SIGTERM, lambda number, _: sys.exit(128 + number))
    try:
        testing = Testing(Crates(TOP), names)
        if testing.unknown:
            print("test: %s has no tests\n%s" % (testing.unknown[0], __doc__.split("\n\n")[1]), file=sys.stderr)
            return 2
        outcomes = testing.run()
    except (unproved.Failed, Missing, OSError) as failure:
        print("test: %s" % failure, file=sys.stderr)
        return 1
    except KeyboardInterrupt:
        return 130
    failed = sum(outcome.failed for outcome in outcomes)
    print("%d passed, %d failed" % (sum(outcome.passed for outcome in outcomes), failed))
    return 1 if failed else 0
