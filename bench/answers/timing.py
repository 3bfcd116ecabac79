"""Prints the least processor time of some runs of two programs, in milliseconds: `timing.py TURNS TEXT FIRST SECOND WORD..`"""

import pathlib
import resource
import subprocess
import sys
from collections.abc import Sequence


def processor_time(command: Sequence[str], text: pathlib.Path) -> float:
    """The milliseconds of processor time that a run of a command on a text takes, its user time and its system time."""
    before = resource.getrusage(resource.RUSAGE_CHILDREN)
    with text.open("rb") as source:
        subprocess.run(command, stdin=source, stdout=subprocess.DEVNULL, check=True)
    after = resource.getrusage(resource.RUSAGE_CHILDREN)
    return 1000 * (after.ru_utime - before.ru_utime + after.ru_stime - before.ru_stime)


def least_times(turns: int, text: pathlib.Path, commands: Sequence[Sequence[str]]) -> list[float]:
    """The least times of the commands, which run in turn."""
    times = [[processor_time(command, text) for command in commands] for _ in range(turns)]
    return [min(column) for column in zip(*times)]


def main(words: Sequence[str]) -> None:
    """Prints the two times."""
    turns, text, programs, rest = int(words[0]), pathlib.Path(words[1]), words[2:4], words[4:]
    first, second = least_times(turns, text, [[program, *rest] for program in programs])
    print(f"{first:.1f} {second:.1f}")


if __name__ == "__main__":
    main(sys.argv[1:])
