"""What is told on the standard error: what was not read or not answered, and how much of the rest is whole."""
from collections import Counter
from typing import Dict, Iterable, List, Sequence

from ..read.model import Declaration, Problem, Reading, Status
from ..ask.closure import LeftOut
from ..mean.standing import Standing
from .output import print_error


SOMETHING_FOUND = 1
SOMETHING_LEFT_OUT = 3
FOUND_AND_LEFT_OUT = 4


def tell(lines: Iterable[str]) -> None:
    """Writes lines to the standard error."""
    print_error("".join(line + "\n" for line in lines))


def told(reading: Reading) -> List[str]:
    """What is told of a reading: what could not be read, and how much of the rest is whole."""
    lines = [str(problem) for problem in reading.problems]
    standing = Standing(reading.protocols)
    lines += _count_lines("signatures", reading.signatures, standing)
    lines += _count_lines("protocols", reading.protocols, standing)
    if reading.counts.of_unknown_types:
        lines.append("%d extensions of types that are not declared here are left out" % reading.counts.of_unknown_types)
    return lines


def _count_lines(what: str, declarations: Sequence[Declaration], standing: Standing) -> List[str]:
    statuses = Counter(map(standing.status, declarations))
    by_status = ["%d %s" % (statuses[status], status.value) for status in Status if statuses[status] or status is not Status.WITH_CONCRETE]
    lines = ["%d %s: %s" % (len(declarations), what, ", ".join(by_status))]
    causes = Counter(cause for declaration in declarations for cause in {omission.cause for omission in declaration.omissions})
    lines += ["  %d with %s" % (count, cause.value) for cause, count in causes.most_common()]
    if statuses[Status.OVER_INCOMPLETE]:
        lines.append("  %d over %s" % (statuses[Status.OVER_INCOMPLETE], ", ".join(standing.needed(declarations))))
    return lines


def standing_object(declaration: Declaration, standing: Standing) -> Dict[str, object]:
    """How much of a declaration is there, with the causes of what was left out of it, and the incomplete protocol that is nearest to it."""
    lack = standing.lack(declaration)
    found: Dict[str, object] = {
        "status": standing.status(declaration).value,
        "causes": sorted({omission.cause.value for omission in declaration.omissions}),
    }
    if lack is not None and lack.protocol is not None:
        found["over"] = {"protocol": lack.protocol.name, "says": lack.omission.text, "cause": lack.omission.cause.value}
    return found


def time_up_lines(seconds: float, what: str, total: int, rest: Sequence[Declaration]) -> List[str]:
    """A line for what was not answered when the time was over."""
    if not rest:
        return []
    return ["%g seconds are over: %d of %d %s are not answered, from %s at %s on" % (seconds, len(rest), total, what, rest[0].name, rest[0].place)]


def left_out_lines(reading: Reading, left_out: Sequence[LeftOut]) -> List[str]:
    """A line for each declaration that genreq was not asked of, or did not answer."""
    by_label: "dict[tuple[bool, str], Declaration]" = {(True, protocol.label): protocol for protocol in reading.all_protocols}
    by_label.update({(False, signature.label): signature for signature in reading.signatures})
    lines = []
    for one in left_out:
        declaration = by_label[one.is_protocol, one.label]
        lines.append(str(Problem("%s is left out: %s" % (declaration.name, one.reason), declaration.place)))
    return lines


def status_of(reading: Reading, left_out: Sequence[object] = (), is_found: bool = False) -> int:
    """The status of a run: whether something redundant was found or a query not answered with yes, and whether something was left out."""
    if reading.problems or left_out:
        return FOUND_AND_LEFT_OUT if is_found else SOMETHING_LEFT_OUT
    return SOMETHING_FOUND if is_found else 0
