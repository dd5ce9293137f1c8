"""Pieces of work as functions of texts, for workers in other processes or on other machines.

A worker keeps the program that stays, so that the pieces to come need no start of it.
"""

from __future__ import annotations

import os
import tempfile
import threading
from collections.abc import Callable
from dataclasses import dataclass
from multiprocessing.util import Finalize
from pathlib import Path
from typing import Generic, TypeVar

from longest import Scout
from pool import Pool
from program import Run, Trouble, run_of
from sample import Habits, Sampler, Stops
from search import Family, Harvest, Search, Tried
from shared import Fault, read_settings
from staying import Staying
from turns import Blocks

Verdict = TypeVar("Verdict")
Found = TypeVar("Found")

# How many scenarios a worker keeps a program for.
MOST = 4
# Where programs lie that came with the tool, by their names.
UNPACKED: dict[str, Path] = {}


@dataclass(frozen=True, slots=True)
class Job(Generic[Verdict]):
    """What all pieces of a command have in common. The program is a path, or the name of one that came with the tool."""

    program: str
    scenario: str
    turns: int
    changes: int
    seed: int
    habits: Habits
    judge: Callable[[str], Verdict]


@dataclass(frozen=True, slots=True)
class Piece(Generic[Found]):
    """What came of a piece of work: what was found, where processors were seen to be idle, and how many runs that took."""

    found: list[Found]
    stops: Stops
    runs: int


class Kept:
    """A program that stays, with its scenario."""

    def __init__(self, program: str, scenario: str) -> None:
        self._folder = tempfile.TemporaryDirectory()
        # A process of a pool ends without what Python does at its end otherwise.
        Finalize(self, self._folder.cleanup, exitpriority=1)
        path = Path(self._folder.name, "scenario.nova")
        path.write_text(scenario)
        self.staying = Staying(UNPACKED.get(program, Path(program)), path, os.cpu_count() or 1)


class Counted:
    """Runs orders, and counts the runs."""

    def __init__(self, kept: Kept) -> None:
        self.starts = 0
        self._kept = kept

    def run(self, blocks: Blocks) -> Run:
        """The run over an order. Raises Trouble where the program doesn't take it."""
        run = run_of(blocks, self._kept.staying.ask(blocks))
        if run is None:
            raise Trouble("the program on a worker has ended, or doesn't take an order")
        self.starts += 1
        return run


_kept: dict[tuple[str, str], Kept] = {}
_lock = threading.Lock()


def _scout_of(job: Job[Verdict], known: Stops) -> tuple[Scout, Counted]:
    """What runs the orders of a job here. It knows what was found out before."""
    key = job.program, job.scenario
    with _lock:
        kept = _kept.pop(key, None) or Kept(*key)
        _kept[key] = kept
        while len(_kept) > MOST:
            del _kept[next(iter(_kept))]
    counted = Counted(kept)
    scout = Scout(counted, read_settings(job.scenario))
    scout.learn(known)
    return scout, counted


def draw(job: Job[Verdict], known: Stops, stops: Stops, numbers: range) -> Piece[Tried[Verdict]]:
    """Draws the orders of these numbers."""
    scout, counted = _scout_of(job, known)
    try:
        sampler = Sampler(scout, job.habits, job.turns, job.seed)
        found = [Tried.of(sampler.draw(number, stops), job.judge) for number in numbers]
    except Fault as fault:
        raise Trouble(f"a report of the program: {fault}") from fault
    return Piece(found, scout.stops(), counted.starts)


def harvest(job: Job[Verdict], known: Stops, family: Family) -> Piece[Harvest[Verdict]]:
    """Runs a family of a search for all orders."""
    scout, counted = _scout_of(job, known)
    try:
        search = Search(scout, Pool(1), job.turns, job.changes, job.judge)
        found = [search.harvest(family)]
    except Fault as fault:
        raise Trouble(f"a report of the program: {fault}") from fault
    return Piece(found, scout.stops(), counted.starts)
