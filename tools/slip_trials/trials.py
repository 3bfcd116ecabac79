"""Tries the slips that stand in a copy of the repository, by `rt must-fail`, and reads what it says of each."""
import os
import shutil
import subprocess
from dataclasses import dataclass
from enum import Enum
from pathlib import Path
from typing import Iterator, List, Sequence, Tuple

from .house import EDIT, Slip


class ToolchainMissing(Exception):
    """There is no `rt`, so nothing can be tried."""


class Verdict(Enum):
    """What the try of a slip comes to: the prover refuses it; the crate is still proved with it; it cannot be applied or read; or nothing is known of it."""

    REFUSED = "refused"
    NOT_REFUSED = "NOT REFUSED"
    BAD = "bad edit"
    NOT_TRIED = "not tried"


@dataclass(frozen=True)
class Trial:
    """A slip, its verdict, and the reason, which is empty where it is refused."""

    slip: Slip
    verdict: Verdict
    reason: str


# How what `rt must-fail` says of an edit begins, after the edit's file name.
SAID = {"refused": Verdict.REFUSED, "NOT REFUSED": Verdict.NOT_REFUSED, "BAD EDIT": Verdict.BAD, "NOT TRIED": Verdict.NOT_TRIED}
LONGEST_REASON = 200


def said_of(slip: Slip, lines: Sequence[str]) -> str:
    """What stands after the slip's file name in the first line that names it, or nothing."""
    label = "/%s%s: " % (slip.name, EDIT)
    return next((line.split(label, 1)[1] for line in lines if label in line), "")


def trial_of(slip: Slip, lines: Sequence[str]) -> Trial:
    """The try of a slip, by the lines of a run that did not see all refused."""
    said = said_of(slip, lines)
    for words, verdict in SAID.items():
        if said.startswith(words):
            reason = "" if verdict is Verdict.REFUSED else said[len(words) :].lstrip(": ")
            return Trial(slip, verdict, reason[:LONGEST_REASON])
    # Nothing is said of it, so the run has not come so far: its last line says why.
    return Trial(slip, Verdict.NOT_TRIED, (said or lines[-1] if lines else "rt says nothing")[:LONGEST_REASON])


def trials_by(slips: Sequence[Slip], status: int, output: str) -> List[Trial]:
    """The tries of slips, by the status and the output of `rt must-fail`. The status is 0 if and only if each is refused."""
    if status == 0:
        return [Trial(slip, Verdict.REFUSED, "") for slip in slips]
    lines = [line for line in output.splitlines() if line.strip()]
    return [trial_of(slip, lines) for slip in slips]


def batches(slips: Sequence[Tuple[Slip, ...]], least: int) -> Iterator[List[Tuple[Slip, ...]]]:
    """The slips of crates in runs of whole crates, each run of this many slips at least, but perhaps the last."""
    batch: List[Tuple[Slip, ...]] = []
    for of_crate in slips:
        batch.append(of_crate)
        if sum(map(len, batch)) >= least:
            yield batch
            batch = []
    if batch:
        yield batch


def need_toolchain() -> None:
    """Raises ToolchainMissing where `rt` is not on the path."""
    if not shutil.which("rt"):
        raise ToolchainMissing("rt, the command of the Rattle toolchain, is not on the path")


def tried(copy: Path, slips: Sequence[Tuple[Slip, ...]]) -> Iterator[Trial]:
    """Tries the slips of crates in a copy. `rt` tries those of one run side by side, so each run has as many as there are processors."""
    for batch in batches(slips, os.cpu_count() or 1):
        names = [of_crate[0].crate for of_crate in batch]
        done = subprocess.run(["rt", "must-fail", *names], cwd=copy, stdin=subprocess.DEVNULL, stdout=subprocess.PIPE, stderr=subprocess.STDOUT, check=False)
        every = [slip for of_crate in batch for slip in of_crate]
        yield from trials_by(every, done.returncode, done.stdout.decode("utf-8", "replace"))
