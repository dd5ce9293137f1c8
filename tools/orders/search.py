"""All orders with at most so many changes of processor with which a run comes to rest, those with fewer changes first.

A stem is a beginning whose last processor goes as far as it can. A stem is cut after each turn of its last block, and from there another
processor goes as far as it can, which makes the stems with one change more. So a beginning is not run again for each order that shares it.
With no change left a stem is gone on with at its end alone: a processor that is cut short is not idle, and stays so while it has no turn,
so that the run would not come to rest.

Orders that take all turns that a run may take are tried where a stem does so, and not all of them.
"""

from __future__ import annotations

from collections.abc import Callable, Iterator
from dataclasses import dataclass, field
from typing import Generic, TypeVar

from longest import Reach, Scout
from pool import Pool
from program import End, Run
from turns import Block, Blocks, turns_of

Verdict = TypeVar("Verdict")


@dataclass(frozen=True, slots=True)
class Tried(Generic[Verdict]):
    """A whole order that was run: whether the run came to rest, or took all turns, and what was asked of its report."""

    blocks: Blocks
    is_quiet: bool
    verdict: Verdict

    @staticmethod
    def of(run: Run, judge: Callable[[str], Verdict]) -> Tried[Verdict]:
        """What a run shows."""
        return Tried(run.blocks, run.end is End.QUIET, judge(run.report))


@dataclass(frozen=True, slots=True)
class Stem:
    """A beginning whose last block goes as far as it can, whether the run is over there, and processors that are idle there."""

    blocks: Blocks
    is_whole: bool
    idle: frozenset[int]


@dataclass(frozen=True, slots=True)
class Family:
    """The beginnings that a stem has with its last block cut short or whole, each of them gone on with by one processor; or, as the last
    change, the whole one alone."""

    stem: Stem
    cpu: int
    is_last: bool

    def beginning(self, turns: int) -> Blocks:
        """The stem with so many turns of its last block."""
        *before, last = self.stem.blocks
        return (*before, Block(last.cpu, turns))

    @property
    def longest(self) -> int:
        """How many turns of the last block another processor can follow."""
        return self.stem.blocks[-1].count - (1 if self.stem.is_whole else 0)


@dataclass(slots=True)
class Harvest(Generic[Verdict]):
    """What came of a family: its whole orders and its stems."""

    tried: list[Tried[Verdict]] = field(default_factory=list)
    stems: list[Stem] = field(default_factory=list)


# What runs families, and hands out what came of each.
Harvests = Callable[[Iterator[Family]], Iterator[Harvest[Verdict]]]


@dataclass(slots=True)
class Coverage:
    """What a search has tried: by the number of changes the orders that came to rest, and how many orders took all turns."""

    at_rest: list[int] = field(default_factory=list)
    full: int = 0
    is_all: bool = False


class Search(Generic[Verdict]):
    """Runs a scenario over the orders with at most `changes` changes of processor, of at most `turns` turns."""

    def __init__(
        self, scout: Scout, pool: Pool, turns: int, changes: int, judge: Callable[[str], Verdict], harvests: Harvests[Verdict] | None = None
    ) -> None:
        self.scout = scout
        self.harvests = harvests or (lambda families: pool.map(self.harvest, families))
        self.turns = turns
        self.changes = changes
        self.judge = judge
        self.coverage = Coverage()

    def orders(self) -> Iterator[Tried[Verdict]]:
        """The whole orders, those with fewer changes first."""
        for tried in self.steps():
            yield from tried

    def steps(self) -> Iterator[Iterator[Tried[Verdict]]]:
        """The same orders, in the small steps in which they are found, of which many have none."""
        harvests: Iterator[Harvest[Verdict]] = iter([self._opening()])
        for changes in range(self.changes + 1):
            self.coverage.at_rest.append(0)
            stems: list[Stem] = []
            for harvest in harvests:
                yield self._count(harvest.tried, changes)
                stems += harvest.stems
            harvests = self.harvests(self._families(stems, changes + 1 == self.changes))
        self.coverage.is_all = True

    def _count(self, tried: list[Tried[Verdict]], changes: int) -> Iterator[Tried[Verdict]]:
        """The same orders, each counted when it is handed on."""
        for order in tried:
            if order.is_quiet:
                self.coverage.at_rest[changes] += 1
            else:
                self.coverage.full += 1
            yield order

    def _families(self, stems: list[Stem], is_last: bool) -> Iterator[Family]:
        for stem in stems:
            for cpu in range(self.scout.cpus):
                if cpu != stem.blocks[-1].cpu and cpu not in stem.idle and not (is_last and stem.is_whole):
                    yield Family(stem, cpu, is_last)

    def _opening(self) -> Harvest[Verdict]:
        """The orders and beginnings of one block."""
        harvest: Harvest[Verdict] = Harvest()
        for cpu in range(self.scout.cpus):
            self._take(harvest, self.scout.reach((), cpu, self.turns))
        return harvest

    def harvest(self, family: Family) -> Harvest[Verdict]:
        """Runs a family. How far the processor goes after one beginning is tried first after the next one."""
        harvest: Harvest[Verdict] = Harvest()
        guess = None
        for turns in range(self._first(family), family.longest + 1):
            before = family.beginning(turns)
            reach = self.scout.reach(before, family.cpu, self.turns - turns_of(before), guess=guess)
            guess = reach.count or None
            self._take(harvest, reach)
        return harvest

    def _first(self, family: Family) -> int:
        """The least count of turns of the stem's last block after which the processor is not idle; above the longest, if there is none.

        While it has no turn, a processor that is not idle stays so.
        """
        low, high = 0, family.longest + 1
        if family.is_last:
            return family.longest
        at = 1
        while low + 1 < high:
            awake = self.scout.program.run((*family.beginning(at), Block(family.cpu, 1))).end is not End.IDLE
            low, high = (low, at) if awake else (at, high)
            at = (low + high) // 2
        return high

    def _take(self, harvest: Harvest[Verdict], reach: Reach) -> None:
        """Adds what a reach has shown."""
        run = reach.run
        if run is None:
            return
        whole = run.end is End.QUIET or turns_of(run.blocks) == self.turns
        if whole:
            harvest.tried.append(Tried.of(run, self.judge))
        if len(run.blocks) <= self.changes:
            harvest.stems.append(Stem(run.blocks, whole, frozenset() if whole else self.scout.idle_after(run)))
