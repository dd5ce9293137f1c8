"""Which crate is proved when, and by how many jobs: the longest way to the top first, and how long all of them take."""

from __future__ import annotations

import heapq
import math
from collections.abc import Collection, Iterable, Mapping
from dataclasses import dataclass
from pathlib import Path

# The seconds of a crate that costs.txt doesn't know.
UNKNOWN = 30
# The share of a crate's seconds that more jobs don't shorten: what is below is loaded, and the last function waits for.
UNSHARED = 0.4
# The crates that go before others: those whose way to the top is at least this share of the longest.
NEAR = 0.8
# How many of these are begun at most beside as many crates as there are workers.
BESIDE = 2
# The crates that several jobs prove sooner, each with how many pay. Elsewhere a job more reads again what all of a crate's functions promise, and gains
# nothing.
PAYING = {"nova_turn": 4, "nova_memory": 2, "nova_nodes": 2, "nova_kernel": 2, "nova_run": 2}

Names = Mapping[str, list[str]]


def dependencies(text: str) -> dict[str, list[str]]:
    """The crates that a text of the form of crates.txt lists, each with those of them that it names."""
    named: dict[str, list[str]] = {}
    for line in text.splitlines():
        name, colon, others = line.split("#")[0].partition(":")
        if colon:
            named[name.split()[0]] = others.split()
    return {crate: [other for other in others if other in named] for crate, others in named.items()}


def costs() -> dict[str, int]:
    """The seconds of each crate's proof by one job, on an idle core."""
    lines = (Path(__file__).parent / "costs.txt").read_text().splitlines()
    return {crate: int(seconds) for crate, seconds in map(str.split, lines)}


@dataclass(frozen=True, slots=True)
class Start:
    """How a crate begins: by how many jobs, and whether it goes before others."""

    jobs: int
    is_near: bool = False


def seconds_by(jobs: int, cost: float) -> float:
    """How long a crate of this cost takes by so many jobs."""
    return cost * (UNSHARED + (1 - UNSHARED) / jobs)


def in_order(crate: str, named: Names) -> list[str]:
    """The crates that this one stands on, each after those below it."""
    found: dict[str, None] = {}

    def add(one: str) -> None:
        for other in named[one]:
            if other not in found:
                add(other)
                found[other] = None

    add(crate)
    return list(found)


def above(crate: str, named: Names) -> list[str]:
    """The crates that a change of this one proves again: itself, and each that stands on it."""
    return [other for other in named if other == crate or crate in in_order(other, named)]


@dataclass(slots=True)
class Schedule:
    """The crates below a program, and the program itself, which is the last: what each stands on, and its seconds by one job at a pace of 1."""

    program: str
    below: dict[str, list[str]]
    cost: dict[str, int]
    workers: int
    jobs: int

    @classmethod
    def of(cls, program: str, named: Names, cost: Mapping[str, int], workers: int, jobs: int) -> Schedule:
        """The schedule of a program, by what each crate names. At most `workers` crates are proved at a time, and one of them by `jobs` jobs."""
        below = {crate: in_order(crate, named) for crate in [*in_order(program, named), program]}
        return cls(program, below, {crate: cost.get(crate, UNKNOWN) for crate in below}, workers, jobs)

    def ways(self) -> dict[str, int]:
        """The seconds from the beginning of each crate to the end of all, on the longest chain of crates above it."""
        ways = dict(self.cost)
        for crate in reversed(self.below):
            for other in self.below[crate]:
                ways[other] = max(ways[other], self.cost[other] + ways[crate])
        return ways

    def ready(self, left: Iterable[str], proved: Collection[str]) -> list[str]:
        """The crates that can be proved now, that with the longest way to the top first."""
        ways = self.ways()
        able = [crate for crate in left if all(other in proved for other in self.below[crate])]
        return sorted(able, key=lambda crate: -ways[crate])

    def next(self, left: Iterable[str], proved: Collection[str], running: Collection[str]) -> dict[str, Start]:
        """The crates that begin now. Those with the longest way to the top, or nearly, wait for no worker, and have as many jobs as pay; the others
        have one each, as far as there are workers. The program itself has one: most of its time is the compiler's."""
        ready, ways = self.ready(left, proved), self.ways()
        near = NEAR * max((ways[crate] for crate in [*running, *ready]), default=0)
        begun: dict[str, Start] = {}
        for crate in ready:
            is_near = ways[crate] >= near
            if len(running) + len(begun) >= self.workers + (BESIDE if is_near else 0):
                break
            jobs = min(self.jobs, PAYING.get(crate, 1)) if is_near else 1
            begun[crate] = Start(jobs, is_near)
        return begun

    def seconds_left(self, proved: Collection[str], running: Mapping[str, float], pace: float) -> float:
        """How long the rest takes, the program's own proof and compiling included.

        `running` has of each crate that is begun how many seconds it takes yet; `pace` is how many seconds this machine takes for one of cost.
        """
        done = set(proved)
        ends = [(seconds, crate) for crate, seconds in running.items()]
        left = [crate for crate in self.below if crate not in done and crate not in running]
        heapq.heapify(ends)
        now = 0.0
        while left or ends:
            for crate, start in self.next(left, done, [crate for _, crate in ends]).items():
                left.remove(crate)
                heapq.heappush(ends, (now + seconds_by(start.jobs, self.cost[crate]) * pace, crate))
            now, crate = heapq.heappop(ends)
            done.add(crate)
        return now

    def minutes_left(self, proved: Collection[str], running: Mapping[str, float], pace: float) -> int:
        """The same in whole minutes; 1 as long as anything is left."""
        return math.ceil(self.seconds_left(proved, running, pace) / 60)
