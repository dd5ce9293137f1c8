"""Starts the proved program, `solo` over an order, and reads how it ended."""

from __future__ import annotations

import re
import subprocess
import threading
from dataclasses import dataclass
from enum import Enum
from pathlib import Path
from queue import SimpleQueue

from staying import Staying
from turns import Blocks, text_of

DONE, SCENARIO, ORDER, LIMIT = 0, 4, 5, 7
IDLE = ("nova: order line ", ": Idle")
# How the report of a run that came to rest begins, with its turns.
RESTS = re.compile(r"run quiet (\d+)\n")


class Trouble(Exception):
    """What was asked for cannot be done; the text says why."""


class Stopped(Exception):
    """A run was broken off, since all is to end."""


class End(Enum):
    """How a run over an order ended."""

    QUIET = "it came to rest with the last turn"
    OPEN = "it had not come to rest after all turns"
    IDLE = "a processor was idle in one of its turns"


@dataclass(frozen=True, slots=True)
class Run:
    """A run over an order. One that met an idle processor has no report, but the line of the order in which it did."""

    blocks: Blocks
    end: End
    report: str = ""
    line: int = 0


def run_of(blocks: Blocks, answer: tuple[str, str] | None) -> Run | None:
    """The run over an order, by the answer of a program that stays; none where it didn't take the order."""
    if answer is None or answer[1].split()[0] in ("no", "memory"):
        return None
    report, said = answer
    if said != "ok":
        return Run(blocks, End.IDLE, line=int(said.split()[1]))
    return Run(blocks, End.QUIET if report.startswith("run quiet") else End.OPEN, report)


class Program:
    """The program and a scenario. Several threads may run it at a time; each start has a file of the folder for its order."""

    def __init__(self, path: Path, scenario: Path, folder: Path, at_a_time: int, stays: Path | None = None) -> None:
        self.path = path
        self.scenario = scenario
        self.starts = 0
        self._staying = Staying(stays, scenario, at_a_time) if stays else None
        self._names: SimpleQueue[Path] = SimpleQueue()
        for number in range(at_a_time):
            self._names.put(folder / f"{number}.order")
        self._lock = threading.Lock()
        self._children: set[subprocess.Popen[str]] = set()
        self._stopped = False

    def run(self, blocks: Blocks) -> Run:
        """The run over an order. Raises Trouble where the program ends otherwise than by rest, after all turns, or at an idle processor."""
        return (self._staying and blocks and self._ask(self._staying, blocks)) or self.run_text(text_of(blocks), blocks)

    def _ask(self, staying: Staying, blocks: Blocks) -> Run | None:
        """The run over an order by a program that stays; none where it doesn't take it, so that one that is started says why."""
        run = run_of(blocks, staying.ask(blocks))
        if self._stopped:
            raise Stopped
        self.starts += run is not None
        return run

    def run_text(self, order: str, blocks: Blocks = ()) -> Run:
        """The run over the text of an order, which need not be one; the blocks are kept with the run."""
        name = self._names.get()
        try:
            name.write_text(order)
            status, report, said = self._start("solo", str(self.scenario), str(name))
        finally:
            self._names.put(name)
        if status in (DONE, LIMIT):
            return Run(blocks, End.QUIET if status == DONE else End.OPEN, report)
        before, after = IDLE
        if status == ORDER and said.startswith(before) and said.endswith(after):
            return Run(blocks, End.IDLE, line=int(said[len(before) : -len(after)]))
        raise Trouble(said or f"{self.path}: status {status}")

    def rounds(self, most: int) -> int | None:
        """After how many turns the run in rounds comes to rest; none where it hasn't after the most."""
        status, report, _ = self._start("solo", str(self.scenario), "--limit", str(most))
        found = RESTS.match(report) if status == DONE else None
        return int(found[1]) if found else None

    def stop(self) -> None:
        """Ends the runs that are under way. No further one begins."""
        with self._lock:
            self._stopped = True
            for child in self._children:
                child.kill()
        if self._staying:
            self._staying.stop()

    def _start(self, *words: str) -> tuple[int, str, str]:
        """Status, output and line on standard error of one start. Children hear nothing of an interrupt from the keyboard."""
        with self._lock:
            if self._stopped:
                raise Stopped
            pipe = subprocess.PIPE
            command = [str(self.path), *words]
            child = subprocess.Popen(command, stdin=subprocess.DEVNULL, stdout=pipe, stderr=pipe, text=True, process_group=0)
            self._children.add(child)
            self.starts += 1
        report, said = child.communicate()
        with self._lock:
            self._children.discard(child)
            if self._stopped:
                raise Stopped
        return child.returncode, report, said.strip()
