"""The tables that are printed, and the differences under them."""
from collections import Counter
from dataclasses import dataclass
from typing import Counter as CounterType, Dict, Iterable, List, Sequence, Tuple

from swift_compiler.comparing import INCOMPLETE, Pair
from swift_compiler.forms import Likeness
from swift_compiler.same_text import Times

HEADINGS = ["of ours", "incomplete", "not printed", "compared"] + [kind.value for kind in Likeness]


@dataclass(frozen=True)
class Row:
    """A row of a table: what was compared, how many there are of ours, how many of them were left out, and how alike the others are."""

    name: str
    ours: int
    incomplete: int
    not_printed: int
    counts: Dict[Likeness, int]

    @property
    def compared(self) -> int:
        return sum(self.counts.values())

    @property
    def words(self) -> List[str]:
        numbers = [self.ours, self.incomplete, self.not_printed, self.compared] + [self.counts.get(kind, 0) for kind in Likeness]
        return [self.name] + ["%d" % number for number in numbers]


def row(name: str, pairs: Sequence[Pair]) -> Row:
    counts: CounterType[Likeness] = Counter(pair.likeness() for pair in pairs if pair.is_compared)
    incomplete = sum(pair.own.status.startswith(INCOMPLETE) for pair in pairs)
    return Row(name, len(pairs), incomplete, len(pairs) - incomplete - sum(counts.values()), dict(counts))


def total(rows: Sequence[Row]) -> Row:
    counts = {kind: sum(row.counts.get(kind, 0) for row in rows) for kind in Likeness}
    sums = [sum(numbers) for numbers in zip(*((row.ours, row.incomplete, row.not_printed) for row in rows))]
    return Row("all", sums[0], sums[1], sums[2], counts)


def aligned(rows: Sequence[Sequence[str]]) -> List[str]:
    """Rows of words as lines, the first word of each to the left and the others to the right of their columns."""
    widths = [max(len(row[at]) for row in rows) for at in range(len(rows[0]))]
    return [
        "  ".join(word.ljust(width) if at == 0 else word.rjust(width) for at, (word, width) in enumerate(zip(row, widths))).rstrip()
        for row in rows
    ]


def table(what: str, rows: Sequence[Row]) -> List[str]:
    """A table of what was compared, a row for each module and one for all."""
    shown = list(rows) + ([total(rows)] if len(rows) > 1 else [])
    return aligned([[what] + HEADINGS] + [row.words for row in shown])


def seconds_table(rows: Sequence[Tuple[str, Sequence[float]]]) -> List[str]:
    """The seconds of the processor for the sources of each module."""
    headings = ["seconds of the sources", "compiler", "signatures", "requirements"]
    return aligned([headings] + [[name] + ["%.2f" % seconds for seconds in times] for name, times in rows])


def text_table(rows: Sequence[Tuple[str, Times]]) -> List[str]:
    """The bytes of each text, and the seconds of the processor that both take of it."""
    headings = ["seconds of the text", "bytes", "signatures", "requirements", "compiler"]
    shown = [
        [name, "%d" % times.size, "%.2f" % times.signatures, "%.2f" % times.requirements, "%.2f" % times.compiler]
        for name, times in rows
    ]
    return aligned([headings] + shown)


def differences(pairs: Iterable[Pair], kinds: Sequence[Likeness]) -> List[str]:
    """Each pair of these kinds, as three lines behind an empty one."""
    lines = []
    for pair in pairs:
        kind = pair.likeness() if pair.is_compared else None
        if kind is not None and kind in kinds:
            lines += [
                "",
                "%s: %s: %s" % (pair.own.place, pair.own.name, kind.value),
                "  ours      %s" % pair.own.text,
                "  compiler  %s" % pair.theirs,
            ]
    return lines
