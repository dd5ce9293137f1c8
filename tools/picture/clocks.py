"""What a run tells of time: which turns without an event are ticks, and when a source was due that fires in a turn."""

from __future__ import annotations

from bisect import bisect_left
from collections import Counter, defaultdict
from collections.abc import Iterable
from dataclasses import dataclass
from itertools import accumulate

from history import Doing, History
from objects import ROOT
from order import Order
from report import UNPAID, Kind, Report, Source
from scenario import Settings


class Ticks:
    """The ticks among turns without an event, where that is told.

    A tick changes nothing, so such turns of a processor are all ticks or all instructions, from one event of the run to the next. They
    are ticks where nobody on the processor can execute one.
    """

    def __init__(self, report: Report, history: History, order: Order | None) -> None:
        self.order = order
        self.most = _unpaid(report) - sum(event.kind in UNPAID for event in report.events)
        self.cpus = sorted({payer.cpu for payer in report.payers} | {source.cpu for source in report.sources})
        runs: dict[Doing, dict[int, list[tuple[int, int]]]] = {doing: defaultdict(list) for doing in (Doing.RUNS, Doing.UNTOLD)}
        began = _began(report)
        for span in history.spans:
            cpu = history.processors.get(span.context)
            start = max(span.start, began.get(span.context, span.end))
            if span.doing in runs and cpu is not None and start < span.end:
                runs[span.doing][cpu].append((start, span.end))
        self.runs, self.untold = ({cpu: _joined(spans) for cpu, spans in runs[doing].items()} for doing in runs)

    def within(self, first: int, last: int) -> int | None:
        """How many of these turns, of which none has an event, are ticks; None where that is not told."""
        if self.most <= 0:
            return 0
        turns = self._turns(first, last)
        busy = [cpu for cpu in turns or self.cpus if _has(self.runs, cpu, first)]
        untold = [cpu for cpu in turns or self.cpus if cpu not in busy and _has(self.untold, cpu, first)]
        if untold or (turns is None and busy):
            return None
        return last - first + 1 if turns is None else sum(count for cpu, count in turns.items() if cpu not in busy)

    def _turns(self, first: int, last: int) -> Counter[int] | None:
        """How many of these turns each processor has, where that is told."""
        if self.order is None:
            return Counter({self.cpus[0]: last - first + 1}) if len(self.cpus) == 1 else None
        found: Counter[int] = Counter()
        for cpu, start, end in self.order.within(first, last):
            found[cpu] += end - start + 1
        return found


def _has(stretches: dict[int, tuple[list[int], list[int]]], cpu: int, turn: int) -> bool:
    """Whether a turn is in one of the stretches of a processor."""
    starts, ends = stretches.get(cpu, ([], []))
    at = bisect_left(ends, turn)
    return at < len(ends) and starts[at] < turn


def _unpaid(report: Report) -> int:
    """How many turns no scheduling context was charged for."""
    return report.turns - sum(payer.ticks for payer in report.payers)


def _began(report: Report) -> dict[int, int]:
    """From which turn on each execution context may execute instructions: one that a program made acts first in a turn with an event."""
    began = {context.number: 0 for context in report.contexts if context.sort == "local" or context.number == ROOT}
    for event in report.events:
        if event.kind is not Kind.IRQ:
            began.setdefault(event.context, event.place)
    return began


def _joined(spans: list[tuple[int, int]]) -> tuple[list[int], list[int]]:
    """The starts and the ends of the stretches that the spans make up together, in order."""
    starts: list[int] = []
    ends: list[int] = []
    for start, end in sorted(spans):
        if ends and start <= ends[-1]:
            ends[-1] = max(ends[-1], end)
        else:
            starts.append(start)
            ends.append(end)
    return starts, ends


class Clock:
    """The clock of a processor: how many turns it has taken. Without an order all turns are its own."""

    def __init__(self, order: Order | None, cpu: int) -> None:
        self.order = order
        if order is not None:
            starts = (0, *order.lasts)
            own = (last - start if of == cpu else 0 for of, start, last in zip(order.cpus, starts, order.lasts))
            self.had = list(accumulate(own))
            self.cpu = cpu

    def at(self, place: int) -> int:
        """The clock before the turn at that place."""
        if self.order is None:
            return place - 1
        block = bisect_left(self.order.lasts, place)
        after = self.order.lasts[block] - place + 1 if self.order.cpus[block] == self.cpu else 0
        return self.had[block] - after

    def place(self, clock: int) -> int:
        """The place of the turn that begins at that clock."""
        if self.order is None:
            return clock + 1
        block = bisect_left(self.had, clock + 1)
        return self.order.lasts[block] - (self.had[block] - clock - 1)


@dataclass(frozen=True, slots=True)
class Firing:
    """A firing: the clock at which it was due, the turn that began then, and how many turns of its processor later it came."""

    moment: int
    place: int
    delay: int


def find_firings(
    settings: Settings, sources: list[Source], fired: Iterable[tuple[int, int]], order: Order | None
) -> dict[int, Firing]:
    """By its turn each firing, of which `fired` has turn and source. None, where the clocks are not told: there are several processors and no
    order."""
    if order is None and settings.cpus > 1:
        return {}
    clocks = {source.cpu: Clock(order, source.cpu) for source in sources}
    counts: Counter[int] = Counter()
    found: dict[int, Firing] = {}
    for place, number in fired:
        clock = clocks[sources[number].cpu]
        moment = settings.sources[number].moment(counts[number])
        counts[number] += 1
        delay = max(0, clock.at(place) - moment)
        found[place] = Firing(moment, clock.place(moment) if delay else place, delay)
    return found


def misfit(settings: Settings, report: Report) -> bool:
    """Whether a scenario is not that of a report, by its processors, and by its sources: where they are and how often they fire. A run that came to
    rest has had all firings."""
    if [one.cpu for one in settings.sources] != [one.cpu for one in report.sources]:
        return True
    if any(one.cpu >= settings.cpus for one in (*report.payers, *report.events)):
        return True
    left = [one.count - seen.fired for one, seen in zip(settings.sources, report.sources)]
    return any(left) if report.quiet else min(left, default=0) < 0


def mistimed(found: dict[int, Firing], sources: list[Source], fired: Iterable[tuple[int, int]]) -> bool:
    """Whether the latest firings that were found are not as late as the report says."""
    worst = [0] * len(sources)
    for place, number in fired:
        worst[number] = max(worst[number], found[place].delay)
    return worst != [source.worst for source in sources]
