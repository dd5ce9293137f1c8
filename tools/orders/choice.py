"""Which orders are tried, and what is said of them."""

from __future__ import annotations

import time
from collections.abc import Callable, Iterator
from dataclasses import dataclass
from itertools import chain
from typing import Generic, TypeVar

from longest import Scout
from pool import Pool, pieces_of
from sample import Habits, Sampler, Stops
from search import Coverage, Search, Tried
from sending import Sending
from shared import counted

Verdict = TypeVar("Verdict")

# How many orders at random are drawn before anything is taken for likely, and how many a thread draws at most at a time.
FIRST, DRAWS = 32, 16


@dataclass(frozen=True, slots=True)
class Wanted:
    """What was asked for: at most so many turns an order, all orders with at most so many changes, so many at random with this seed."""

    turns: int
    changes: int | None
    random: int
    seed: int
    habits: Habits


class Choice(Generic[Verdict]):
    """The orders that were asked for, and the count of those that were tried."""

    def __init__(
        self, wanted: Wanted, scout: Scout, pool: Pool, judge: Callable[[str], Verdict], sending: Sending[Verdict] | None = None
    ) -> None:
        self.wanted = wanted
        self.scout = scout
        self.pool = pool
        self.judge = judge
        self.sending = sending
        harvests = sending.harvests if sending else None
        self.search = None if wanted.changes is None else Search(scout, pool, wanted.turns, wanted.changes, judge, harvests)
        self.drawn = 0
        self._began = 0.0

    def orders(self) -> Iterator[Tried[Verdict] | None]:
        """All of them, one after another, and always in the same order. None now and then says that the work goes on."""
        if self.search is not None:
            for step in self.search.steps():
                yield from step
                yield None
        if self.wanted.random:
            yield from self._drawn()

    def _drawn(self) -> Iterator[Tried[Verdict]]:
        """Orders at random. What the first ones show of where processors are idle makes the others cheaper."""
        self._began = time.monotonic()
        draws = self.sending.draws if self.sending else self._draws()
        stops: Stops = {}
        for numbers in (range(min(FIRST, self.wanted.random)), range(FIRST, self.wanted.random)):
            for tried in draws(numbers, stops):
                self.drawn += 1
                yield tried
            stops = self.scout.stops()

    def _draws(self) -> Callable[[range, Stops], Iterator[Tried[Verdict]]]:
        """What draws orders here, by their numbers."""
        sampler = Sampler(self.scout, self.wanted.habits, self.wanted.turns, self.wanted.seed)

        def draw(numbers: range, stops: Stops) -> list[Tried[Verdict]]:
            return [Tried.of(sampler.draw(number, stops), self.judge) for number in numbers]

        def draws(numbers: range, stops: Stops) -> Iterator[Tried[Verdict]]:
            return chain.from_iterable(self.pool.map(lambda piece: draw(piece, stops), pieces_of(numbers, self.pool.workers, DRAWS)))

        return draws

    def left(self) -> str:
        """How many orders at random were tried, of how many, and in about how long the others will be; nothing before the first."""
        if not self.drawn:
            return ""
        seconds = (time.monotonic() - self._began) / self.drawn * (self.wanted.random - self.drawn)
        return f", {self.drawn:,} of {self.wanted.random:,} at random, {seconds:,.0f} s left"

    def account(self) -> list[str]:
        """What was tried so far, in sentences."""
        turns = counted(self.wanted.turns, "turn", "turns")
        said = [] if self.search is None else _search_account(self.search.coverage, self.search.changes, turns)
        if self.wanted.random:
            said.append(f"{self.drawn:,} of {counted(self.wanted.random, 'order', 'orders')} at random, seed {self.wanted.seed}")
        return said


def _search_account(coverage: Coverage, changes: int, turns: str) -> list[str]:
    """What a search has covered."""
    found = ", ".join(f"{orders:,} with {number}" for number, orders in enumerate(coverage.at_rest))
    orders = counted(sum(coverage.at_rest), "order", "orders")
    head = f"all {orders}" if coverage.is_all else f"{orders}, not all,"
    said = [f"{head} with at most {counted(changes, 'change', 'changes')} of processor that come to rest within {turns} ({found})"]
    if coverage.full:
        said.append(f"{counted(coverage.full, 'order', 'orders')} of {turns} without rest; of such orders not all were tried")
    return said
