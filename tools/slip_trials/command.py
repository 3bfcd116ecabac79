"""The command `slips`."""
import argparse
import os
import shutil
import signal
import sys
from collections import Counter
from pathlib import Path
from typing import List, Optional, Sequence, Tuple

from .applying import apply
from .copying import copy_with_slips
from .house import HouseFault, Slip, chosen, slips_of
from .trials import ToolchainMissing, Verdict, need_toolchain, tried

TOP = Path(__file__).resolve().parent.parent.parent
FAILED, STOPPED = 2, 130

DESCRIPTION = """Tries slips, which are wrong bodies and wrong definitions that the prover has to refuse: the files crates/CRATE/slips/NAME.edit.
They have the form of the edits of must-fail/, which the gate tries; the gate does not try slips. Try those of a crate when one of its contracts changes.
They are tried on a copy, and nothing here is changed. A slip is printed with `refused`; with `NOT REFUSED` where its crate is still proved with it; with `bad edit` where it
cannot be applied or read, as when the text that it names is gone; or with `not tried` where its check broke off."""
EPILOG = """The status is 0 if and only if each slip is refused, and 2 where nothing could be tried."""


def words_of(words: Optional[Sequence[str]]) -> argparse.Namespace:
    parser = argparse.ArgumentParser(prog="slips", description=DESCRIPTION, epilog=EPILOG)
    parser.add_argument("--list", action="store_true", help="prints the slips by CRATE/NAME, fails at one that cannot be applied, and tries none")
    parser.add_argument("crates", nargs="*", metavar="CRATE", help="a crate whose slips are tried; where none is named, those of all crates")
    return parser.parse_args(words)


def counted(counts: "Counter[Verdict]") -> str:
    """The last line: how many slips were refused, and how many not. Where none broke off it says nothing of such."""
    line = "%d slips refused, %d not refused, %d bad" % (counts[Verdict.REFUSED], counts[Verdict.NOT_REFUSED], counts[Verdict.BAD])
    return line + (", %d not tried" % counts[Verdict.NOT_TRIED] if counts[Verdict.NOT_TRIED] else "")


def try_all(slips: Sequence[Tuple[Slip, ...]]) -> int:
    """Tries slips, prints a line for each and the counts, and returns the status."""
    need_toolchain()
    counts: "Counter[Verdict]" = Counter()
    with copy_with_slips(TOP) as copy:
        for trial in tried(copy, slips):
            counts[trial.verdict] += 1
            print("%-11s  %s%s" % (trial.verdict.value, trial.slip, ": " + trial.reason if trial.reason else ""), flush=True)
        print(counted(counts), flush=True)
    return 0 if set(counts) == {Verdict.REFUSED} else 1


def run(given: argparse.Namespace) -> int:
    slips = chosen(slips_of(TOP), given.crates)
    if not given.list:
        return try_all(slips)
    for of_crate in slips:
        for slip in of_crate:
            apply(slip, TOP)
            print(slip)
    return 0


def main(words: Optional[List[str]] = None) -> int:
    """Runs the command, and returns its status."""
    signal.signal(signal.SIGTERM, lambda *_: sys.exit(128 + signal.SIGTERM))
    given = words_of(words)
    try:
        status = run(given)
        sys.stdout.flush()
        return status
    except BrokenPipeError:
        # Who reads the lines has enough of them. What is left of them goes nowhere.
        os.dup2(os.open(os.devnull, os.O_WRONLY), sys.stdout.fileno())
        return FAILED
    except (HouseFault, ToolchainMissing, OSError, shutil.Error) as fault:
        print("slips: %s" % fault, file=sys.stderr)
        return FAILED
    except KeyboardInterrupt:
        print("slips: stopped", file=sys.stderr)
        return STOPPED
