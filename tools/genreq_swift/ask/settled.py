"""Protocols over which genreq answers. One over which it does not is left out and told, with what needs it."""
from concurrent.futures import ThreadPoolExecutor
from typing import Dict, Iterator, List, Optional, Sequence, Set, Tuple

from .closure import FEW, SIDE_BY_SIDE, Closure, LeftOut, part_at
from .program import Answer, Command, Ended, Limits, Part, Program, ProgramFailed, Status, answers_of, written


class Settled:
    """Protocols, and those of them of which it is known under which limits genreq answers over them.

    `left_out` tells those that were left out. `levels` are the limits that are tried, the greater ones only while there is time for what is hard.
    """

    def __init__(self, program: Program, protocols: Sequence[Part], levels: Sequence[Limits]):
        self.program = program
        self.levels = levels
        self.closure = Closure(list(protocols))
        self.left_out: List[LeftOut] = []
        self._level_of: Dict[str, int] = {}

    @property
    def protocols(self) -> Sequence[Part]:
        """Those that are not left out."""
        return self.closure.protocols

    @property
    def labels(self) -> Set[str]:
        """Their labels."""
        return {protocol.label for protocol in self.protocols}

    def needed(self, labels: Set[str]) -> List[Part]:
        """The protocols that some protocols need, to whose answers the others add nothing."""
        return self.closure.restricted(self.closure.needed(labels))

    def level(self, protocols: Sequence[Part]) -> int:
        """The least level at which each of some protocols may be answered, as far as is known."""
        return max((self._level_of.get(protocol.label, 0) for protocol in protocols), default=0)

    def are_settled(self, labels: Set[str]) -> bool:
        """Whether it is known that genreq answers over these protocols."""
        return all(label in self._level_of for label in self.closure.needed(labels))

    def copy(self) -> "Settled":
        """The same protocols, and what is known of them."""
        made = Settled(self.program, self.protocols, self.levels)
        made._level_of.update(self._level_of)
        return made

    def note(self, protocols: Sequence[Part], level: int) -> None:
        """Takes up that genreq answered over some protocols."""
        for protocol in protocols:
            self._level_of.setdefault(protocol.label, level)

    def leave_out(self, label: str, reason: str, offset: Optional[int] = None) -> None:
        """Leaves out a protocol, and those that need it. What is left out already stays so."""
        if label not in self.labels:
            return
        self.left_out.append(LeftOut(label, True, reason, offset))
        protocols, needing = self.closure.without(label)
        self.closure = Closure(protocols)
        self.left_out += needing

    def leave_out_at(self, ended: Ended, protocols: Sequence[Part]) -> None:
        """Leaves out the one of the asked protocols that is refused."""
        if ended.offset is None:
            raise ProgramFailed(ended.reason)
        number, offset = part_at(protocols, ended.offset)
        self.leave_out(protocols[number].label, ended.reason, offset)

    def settle(self, labels: Set[str]) -> None:
        """Leaves out those of some protocols over which nothing can be answered."""
        for _ in self.each(Command.SIGNATURES, [labels]):
            pass

    def each(self, command: Command, lists: Sequence[Set[str]]) -> Iterator[Dict[str, Answer]]:
        """The answers of a command to some protocols, and to what they need, by labels, as soon as they are there. What passes all limits is left
        out. Of what passes one, halves are asked, those first that need less; some such lists side by side."""
        done: Set[str] = set(self._level_of) if command is Command.SIGNATURES else set()
        waiting = [self.closure.in_order(self.closure.needed(labels) & self.labels) for labels in reversed(lists)]
        while waiting:
            some = self._next(waiting, done)
            for labels, (protocols, level, ended) in zip(some, self._runs(command, some)):
                if ended.status is Status.ANSWERED:
                    self.note(protocols, level)
                    done.update(protocol.label for protocol in protocols)
                    if command is Command.REQUIREMENTS:
                        yield {protocol.label: answer for protocol, answer in zip(protocols, answers_of(ended.output))}
                else:
                    waiting += self._after(labels, protocols, ended, done)

    def _next(self, waiting: List[List[str]], done: Set[str]) -> List[List[str]]:
        """Takes the lists that are asked next, without what is done or left out."""
        found: List[List[str]] = []
        while waiting and len(found) < SIDE_BY_SIDE:
            there = self.labels
            some = [label for label in waiting.pop() if label in there and label not in done]
            if some:
                found.append(some)
        return found

    def _runs(self, command: Command, lists: Sequence[List[str]]) -> List[Tuple[List[Part], int, Ended]]:
        """Runs over lists of protocols and what they need, side by side."""
        if len(lists) < 2:
            return [self._run(command, some) for some in lists]
        with ThreadPoolExecutor(len(lists)) as pool:
            return list(pool.map(lambda some: self._run(command, some), lists))

    def _run(self, command: Command, some: Sequence[str]) -> Tuple[List[Part], int, Ended]:
        """A run over protocols and what they need, with greater limits where one alone passes the first ones."""
        protocols = self.needed(set(some))
        level = self.level(protocols)
        ended = self.program.run(command, written(protocols), self.levels[level].for_parts(len(some)))
        if ended.status is Status.LIMIT and len(some) == 1 and level + 1 < len(self.levels):
            level += 1
            ended = self.program.run_hard(command, written(protocols), self.levels[level], ended)
        return protocols, level, ended

    def _after(self, some: List[str], protocols: List[Part], ended: Ended, done: Set[str]) -> List[List[str]]:
        """What is to be asked after a run that has no answer, the first last."""
        half = len(some) // 2
        if ended.status is Status.REFUSED:
            self.leave_out_at(ended, protocols)
            return [some] if len(some) <= FEW else [some[half:], some[:half]]
        if half:
            return [some[half:], some[:half]]
        first = [label for label in self.closure.in_order(self.closure.needed(set(some))) if self._comes_before(label, some[0], done)]
        if first:
            return [some, first]
        self.leave_out(some[0], ended.reason)
        return []

    def _comes_before(self, label: str, other: str, done: Set[str]) -> bool:
        """Whether a protocol is not asked yet, and does not need another one, which needs it."""
        return label in self.labels and label not in done and other not in self.closure.needed({label})
