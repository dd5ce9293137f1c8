"""How far a processor goes after a beginning, found with few starts of the program."""

from __future__ import annotations

from bisect import bisect_left, bisect_right, insort
from collections import defaultdict
from collections.abc import Mapping
from dataclasses import dataclass
from enum import Enum
from typing import Protocol

from program import End, Run
from shared import CREATE_SC, ROOT, SM_CTRL, Kind, Report, Settings, read_report
from turns import Block, Blocks, turns_of, turns_on

# What a line `ec` has of a thread that waits at a semaphore with a deadline: the arguments of its call stay in its registers.
WITH_DEADLINE = " x11=00000002"
# Where nothing is known of a processor, it is tried with so many turns first.
FIRST_GUESS = 16


def sure_to_be_idle(report: Report, settings: Settings) -> frozenset[int]:
    """Processors of which the report shows that they are idle at its end: nothing is to come there, and no scheduling context is there, or nobody
    there can act.

    Who is dead, blocked or parked does not act. Of an execution context without an event it is not known where it runs. To come are the
    firings of a source that has not fired as often as it will, and deadlines.
    """
    if report.quiet:
        return frozenset(range(settings.cpus))
    homes = {ROOT: 0} | {event.context: event.cpu for event in report.events if event.kind is not Kind.IRQ}
    paid = {payer.cpu for payer in report.payers}
    ticking = {source.cpu for source, line in zip(settings.sources, report.sources) if line.fired < source.count}
    ticking |= {homes[one.number] for one in report.contexts if one.state == "blocked" and WITH_DEADLINE in one.line}
    quiet = frozenset(range(settings.cpus)) - ticking
    active = [context.number for context in report.contexts if context.state not in ("dead", "blocked", "parked")]
    if any(number not in homes for number in active):
        return quiet - paid
    return quiet - (paid & {homes[number] for number in active})


@dataclass(frozen=True, slots=True)
class Reach:
    """How many turns a processor has after a beginning, at most as many as were asked for, and the run to there, if one was made."""

    count: int
    run: Run | None


class Last(Enum):
    """What a turn leaves to do for its processor."""

    STEP = "more, certainly"
    EVENT = "perhaps nothing"
    STOP = "nothing, certainly"


@dataclass(slots=True)
class Bracket:
    """A search for the greatest lawful count: `low` is lawful, or 0, and `high` is too many, or is not asked for. From the last count that
    was tried it goes in steps that double."""

    low: int
    high: int
    step: int = 1

    @property
    def is_done(self) -> bool:
        """Whether the greatest lawful count is found."""
        return self.low + 1 >= self.high

    def clamp(self, count: int) -> int:
        """The count that is next to this one among those that are open."""
        return max(self.low + 1, min(count, self.high - 1))

    def too_many(self, count: int) -> int:
        """That count was too many. What to try next."""
        self.high = count
        return self._next(max(count - self.step, (self.low + count) // 2))

    def lawful(self, count: int, is_last: bool) -> int:
        """That count was lawful, and the processor is idle then, or may be not. What to try next."""
        self.low = count
        if is_last:
            self.high = count + 1
        return self._next(min(count + self.step, (count + self.high) // 2))

    def _next(self, count: int) -> int:
        self.step *= 2
        return count


class Runs(Protocol):
    """What runs orders, and counts the runs."""

    starts: int

    def run(self, blocks: Blocks) -> Run:
        """The run over an order."""


class Scout:
    """Finds reaches. What it learns of some makes the next ones cheaper, and never other."""

    def __init__(self, program: Runs, settings: Settings) -> None:
        self.program = program
        self.settings = settings
        self.cpus = settings.cpus
        self._ends: dict[int, list[int]] = defaultdict(list)

    def stops(self) -> dict[int, tuple[int, ...]]:
        """After how many turns of its own each processor was found idle, in rising order."""
        return {cpu: tuple(sorted(set(ends))) for cpu, ends in self._ends.items()}

    def learn(self, stops: Mapping[int, tuple[int, ...]]) -> None:
        """Takes over what another one has found out."""
        for cpu, ends in stops.items():
            for turns in ends:
                self._learn(cpu, turns)

    def idle_of(self, report: Report) -> frozenset[int]:
        """Processors that are sure to be idle at the end of a report."""
        return sure_to_be_idle(report, self.settings)

    def idle_after(self, run: Run) -> frozenset[int]:
        """Processors that are sure to be idle after the run."""
        return self.idle_of(read_report(run.report))

    def reach(self, before: Blocks, cpu: int, most: int, least: int = 0, guess: int | None = None) -> Reach:
        """How many of at most `most` turns the processor has after the beginning, which is of another one last.

        It is known that `least` turns are lawful. Where the processor is idle after fewer than `most`, that is tried out or follows from
        the report.
        """
        search = Bracket(least, most + 1)
        best: Run | None = None
        had = turns_on(before, cpu)
        at = self._likely(cpu, had, search) if guess is None else search.clamp(guess)
        while not search.is_done:
            run = self.program.run((*before, Block(cpu, at)))
            if run.end is End.IDLE:
                at = search.too_many(at)
                continue
            best = run
            last = self._last_turn(run, cpu)
            at = search.lawful(at, last is Last.STOP)
            if last is Last.STEP and not search.is_done:
                at = self._likely(cpu, had, search, at)
        if search.low < most:
            self._learn(cpu, had + search.low)
        return Reach(search.low, best)

    def _last_turn(self, run: Run, cpu: int) -> Last:
        """What the last turn of the run leaves to do for the processor that had it. A turn without an event, be it an instruction or a tick,
        leaves something to do."""
        if run.end is End.QUIET:
            return Last.STOP
        start = run.report.rfind("\nat ")
        if start < 0 or int(run.report[start + 4 :].split(" ", 1)[0]) != turns_of(run.blocks):
            return Last.STEP
        return Last.STOP if cpu in self.idle_after(run) else Last.EVENT

    def _likely(self, cpu: int, had: int, search: Bracket, otherwise: int | None = None) -> int:
        """A count to try: up to the next number of turns after which the processor was idle before."""
        ends = self._ends[cpu]
        following = bisect_right(ends, had + search.low)
        if following < len(ends) and ends[following] - had < search.high:
            return ends[following] - had
        return search.clamp(search.low + FIRST_GUESS) if otherwise is None else otherwise

    def _learn(self, cpu: int, turns: int) -> None:
        ends = self._ends[cpu]
        at = bisect_right(ends, turns)
        if at == 0 or ends[at - 1] != turns:
            insort(ends, turns)


def waits_at(report: Report, place: int) -> bool:
    """Whether a thread began to wait at a semaphore in that turn."""
    at = bisect_left(report.events, place, key=lambda event: event.place)
    if at == len(report.events) or report.events[at].place != place:
        return False
    return report.events[at].kind is Kind.BEGIN and report.events[at].a == SM_CTRL


def may_wake(report: Report, after: int) -> int | None:
    """The first turn after that one in which something may have come to do for a processor that was idle: an up, of a source as well, or a new
    scheduling context."""
    for event in report.events:
        if event.place <= after:
            continue
        if event.kind is Kind.IRQ or (event.kind is Kind.ANSWER and event.a in (CREATE_SC, SM_CTRL) and event.b == 0):
            return event.place
    return None
