"""Asks genreq of many functions over the same protocols, and goes on where a text is refused.

genreq refuses a whole text for one protocol or function. Here that one is left out and told, with what needs it, and the rest is answered. Where
many pass a limit, or take too long, fewer are asked, and what does so alone is asked once more with greater limits while there is time for that.
Functions that have no room in one text stand in several, each after the same protocols.
"""
from concurrent.futures import ThreadPoolExecutor
from dataclasses import dataclass
import time
from typing import Dict, Iterator, List, Optional, Sequence, Set, Tuple, Union

from .closure import FEW, SIDE_BY_SIDE, SMALL_COVER, LeftOut, fitting, lacking, part_at
from .program import LEVELS, TEXT_LIMIT, Answer, Command, Ended, Limits, Part, Program, ProgramFailed, Status, answers_of, written
from .settled import Settled

Answers = Dict[str, Tuple[Answer, ...]]

# After a run that takes fewer seconds more is asked in the next one.
SOON = 0.5


@dataclass(frozen=True)
class Given:
    """The answers to one function: one for each query, or the one signature."""

    label: str
    answers: Tuple[Answer, ...]


@dataclass
class Answered:
    """The answers by functions, and the functions that are left out and have none."""

    answers: Answers
    left_out: List[LeftOut]


@dataclass(frozen=True)
class Run:
    """A run: the protocols over which it was asked, at which level, of what text, how it ended, and after how many seconds."""

    protocols: List[Part]
    level: int
    text: bytes
    ended: Ended
    seconds: float


@dataclass(frozen=True)
class Step:
    """What one run leads to: answers, functions that are left out, and how many are to be asked then."""

    done: Sequence[Union[Given, LeftOut]]
    most: int


class Questions:
    """Asks of functions over the same protocols."""

    def __init__(self, program: Program, protocols: Sequence[Part], levels: Sequence[Limits] = LEVELS):
        self.program = program
        self._settled = Settled(program, protocols, levels)

    @property
    def protocols(self) -> Sequence[Part]:
        """The protocols that are not left out."""
        return self._settled.protocols

    @property
    def settled(self) -> Settled:
        """The protocols, and what is known of them up to now."""
        return self._settled.copy()

    @property
    def protocols_left_out(self) -> List[LeftOut]:
        """The protocols that were left out up to now. What asks of them needs no answer."""
        return self._settled.left_out

    def settle(self) -> None:
        """Leaves out the protocols over which nothing can be answered. `ask` does so where it has to."""
        self._settled.settle(self._settled.labels)

    def ask(self, command: Command, functions: Sequence[Part]) -> Answered:
        """The answers to each function."""
        found = Answered({}, [])
        for one in self.each(command, functions):
            if isinstance(one, Given):
                found.answers[one.label] = one.answers
            else:
                found.left_out.append(one)
        return found

    def each(self, command: Command, functions: Sequence[Part]) -> Iterator[Union[Given, LeftOut]]:
        """The answers to each function as soon as they are there, in order. All are asked at once; after one that has no answer fewer, some such
        lists side by side."""
        found: Dict[str, Union[Given, LeftOut]] = {}
        waiting, told = list(functions), 0
        most = len(waiting)
        while waiting:
            most = self._go_on(command, waiting, most, found)
            waiting = [function for function in waiting if function.label not in found]
            while told < len(functions) and functions[told].label in found:
                yield found[functions[told].label]
                told += 1

    def _go_on(self, command: Command, waiting: Sequence[Part], most: int, found: Dict[str, Union[Given, LeftOut]]) -> int:
        """Takes up what is known of some functions, or asks of some of them. Answers of how many to ask then."""
        there = self._settled.labels
        lacked = [lacking(function, min(function.needs - there), False) for function in waiting if not function.needs <= there]
        found.update((one.label, one) for one in lacked)
        lists = self._lists([function for function in waiting if function.needs <= there], most)
        if lists and not lists[0]:
            first = next(function for function in waiting if function.needs <= there)
            found[first.label] = LeftOut(first.label, False, "text longer than %d bytes" % TEXT_LIMIT)
        elif lists:
            for some, run in zip(lists, self._runs(command, lists)):
                step = self._step(command, some, run)
                found.update((one.label, one) for one in step.done)
                most = max(1, step.most)
        return most

    def _lists(self, functions: Sequence[Part], most: int) -> List[List[Part]]:
        """Functions in lists that have room in a text each: one with all of them, or some from the front with no more than this many."""
        room = TEXT_LIMIT - len(written(self.protocols))
        lists: List[List[Part]] = []
        while functions and len(lists) < (SIDE_BY_SIDE if most < len(functions) or lists else 1) and (not lists or lists[-1]):
            front, _ = fitting(functions[:most], room)
            lists.append(front)
            functions = functions[len(front) :]
        return lists if len(lists) < 2 or lists[-1] else lists[:-1]

    def _runs(self, command: Command, lists: Sequence[List[Part]]) -> List[Run]:
        """Runs of lists of functions, side by side."""
        if len(lists) == 1:
            return [self._run(command, lists[0])]
        with ThreadPoolExecutor(len(lists)) as pool:
            return list(pool.map(lambda some: self._run(command, some), lists))

    def _run(self, command: Command, functions: Sequence[Part]) -> Run:
        protocols = self._needed(functions)
        level = self._settled.level(protocols)
        text, began = written([*protocols, *functions]), time.monotonic()
        ended = self.program.run(command, text, self._settled.levels[level].for_parts(len(functions)))
        return Run(protocols, level, text, ended, time.monotonic() - began)

    def _step(self, command: Command, functions: List[Part], run: Run) -> Step:
        """What a run leads to. Where it passed a limit it is seen first whether its protocols do so alone."""
        count, ended = len(functions), run.ended
        if ended.status is Status.ANSWERED:
            self._settled.note(run.protocols, run.level)
            return Step(list(given(command, functions, ended.output)), 2 * count if run.seconds < SOON else count)
        if ended.status is Status.REFUSED:
            return self._after_refusal(functions, run.protocols, ended)
        if not self._settled.are_settled(labels_needed(functions)):
            self._settled.settle(labels_needed(functions))
            return Step([], count if count == 1 else count // 2)
        if count > 1:
            return Step([], count // 4)
        if run.level + 1 < len(self._settled.levels):
            ended = self.program.run_hard(command, run.text, self._settled.levels[run.level + 1], ended)
        if ended.status is Status.ANSWERED:
            return Step(list(given(command, functions, ended.output)), 1)
        return Step([LeftOut(functions[0].label, False, ended.reason)], 1)

    def _after_refusal(self, functions: List[Part], protocols: Sequence[Part], ended: Ended) -> Step:
        """Leaves out what is refused. Where one is refused others may be too, so fewer are asked then."""
        if ended.offset is None:
            raise ProgramFailed(ended.reason)
        before, most = len(written(protocols)), max(FEW, len(functions) // 2)
        if ended.offset < before:
            self._settled.leave_out_at(ended, protocols)
            return Step([], most)
        number, offset = part_at(functions, ended.offset - before)
        return Step([LeftOut(functions[number].label, False, ended.reason, offset)], most)

    def _needed(self, functions: Sequence[Part]) -> List[Part]:
        """The protocols that functions need, to which their answers are the same as to all."""
        return self._settled.needed(labels_needed(functions))

    def together(self, functions: Sequence[Part]) -> Iterator[List[Part]]:
        """The functions in lists of those that need few protocols more together than alone: `explain` takes longer where there are many."""
        some: List[Part] = []
        needed: Set[str] = set()
        most = 0
        for function in functions:
            alone = self._settled.closure.needed(function.needs)
            most = max(most, len(alone), SMALL_COVER)
            if some and len(needed | alone) > most:
                yield some
                some, needed, most = [], set(), max(len(alone), SMALL_COVER)
            some.append(function)
            needed |= alone
        if some:
            yield some

    def verify(self, functions: Sequence[Part], answers: Answers) -> Dict[str, Tuple[str, ...]]:
        """What `verify` says of the answers of `explain`, by functions."""
        found: Dict[str, Tuple[str, ...]] = {}
        for together in self._verifiable(functions, answers):
            explained = [answer for function in together for answer in answers[function.label]]
            verdicts = iter(self.program.verify(written([*self._needed(together), *together]), explained))
            found.update((function.label, tuple(next(verdicts) for _ in function.queries)) for function in together)
        return found

    def _verifiable(self, functions: Sequence[Part], answers: Answers) -> List[List[Part]]:
        """The functions in lists that have room in one input together with their answers."""
        room = TEXT_LIMIT - len(written(self.protocols)) - len("%%\n")
        lists: List[List[Part]] = []
        left = 0
        for function in functions:
            size = len(function.written) + sum(len(line.encode("utf-8")) + 1 for answer in answers[function.label] for line in answer.lines)
            if size > left:
                lists.append([])
                left = room
            lists[-1].append(function)
            left -= size
        return lists


def labels_needed(functions: Sequence[Part]) -> Set[str]:
    """The labels of the protocols that functions name."""
    return {label for function in functions for label in function.needs}


def given(command: Command, functions: Sequence[Part], output: str) -> Iterator[Given]:
    """The answers of each function, without its name before its signature."""
    answers = iter(answers_of(output))
    for function in functions:
        if command is Command.SIGNATURES:
            yield Given(function.label, (without_name(next(answers)),))
        else:
            yield Given(function.label, tuple(next(answers) for _ in function.queries))


def without_name(answer: Answer) -> Answer:
    """An answer without the name that stands before it."""
    return Answer(answer.line.partition(": ")[2], answer.under)


@dataclass(frozen=True)
class RequirementSignatures:
    """The requirement signatures of protocols by their labels, and the protocols that have none here."""

    signatures: Dict[str, Answer]
    left_out: List[LeftOut]


def requirement_signatures(
    program: Program, protocols: Sequence[Part], wanted: Optional[Set[str]] = None, levels: Sequence[Limits] = LEVELS
) -> RequirementSignatures:
    """The requirement signatures of protocols, of all or of those with these labels, of which `requirements` is answered.

    What is kept of a protocol depends on those alone that it needs, so one can be left out with those that need it, and one is asked with these
    alone: the time of `requirements` grows with the square of the text. What passes a limit without it is left out first, which is found sooner.
    """
    settled = Settled(program, protocols, levels)
    signatures: Dict[str, Answer] = {}
    for found in each_requirement_signature(settled, settled.labels if wanted is None else wanted):
        signatures.update(found)
    return RequirementSignatures(signatures, settled.left_out)


def each_requirement_signature(settled: Settled, wanted: Set[str]) -> Iterator[Dict[str, Answer]]:
    """The same, some at a time as soon as they are there."""
    settled.settle(wanted)
    for answers in settled.each(Command.REQUIREMENTS, settled.closure.covers(settled.labels & wanted)):
        yield {label: without_name(answer) for label, answer in answers.items()}
