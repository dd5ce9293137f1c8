"""How long runs take: machine instructions, seconds of user time and of the clock, and memory."""

from __future__ import annotations

import os
import re
import subprocess
import tempfile
import time
from dataclasses import dataclass
from pathlib import Path


@dataclass(frozen=True)
class Spent:
    """What a run took: user time and the clock in seconds, and its greatest memory in bytes."""

    user: float
    clock: float
    memory: int


class Program:
    """The program that is measured, with a folder of its own for scenarios and orders."""

    def __init__(self, file: Path, folder: Path, valgrind: str = "valgrind") -> None:
        self.file, self.folder, self.valgrind = file.resolve(), folder, valgrind

    def scenario(self, text: str) -> Path:
        """A scenario of that text."""
        handle, name = tempfile.mkstemp(suffix=".nova", dir=self.folder)
        with os.fdopen(handle, "w") as file:
            file.write(text)
        return Path(name)

    def words(self, command: str, scenario: Path, limit: int) -> list[str]:
        """The words of a run: `solo`, or `run` with an order of its own."""
        order = []
        if command == "run":
            order = [str(self.folder / "order")]
            Path(order[0]).unlink(missing_ok=True)
        return [str(self.file), command, str(scenario), *order, "--limit", str(limit)]

    def spent(self, command: str, scenario: Path, limit: int) -> Spent:
        """What one run took."""
        began, words = time.perf_counter(), self.words(command, scenario, limit)
        child = subprocess.Popen(words, stdout=subprocess.DEVNULL, stderr=subprocess.DEVNULL)
        _, _, used = os.wait4(child.pid, 0)
        child.returncode = 0
        return Spent(used.ru_utime, time.perf_counter() - began, used.ru_maxrss * 1024)

    def best(self, command: str, scenario: Path, limit: int, times: int = 5) -> Spent:
        """The least of each figure in so many runs."""
        runs = [self.spent(command, scenario, limit) for _ in range(times)]
        return Spent(min(run.user for run in runs), min(run.clock for run in runs), min(run.memory for run in runs))

    def clock(self, command: str, scenario: Path, first: int, last: int) -> float:
        """Seconds of the clock that the turns between two limits take: the difference of the best runs."""
        short, long = (self.best(command, scenario, limit).clock for limit in (first, last))
        return long - short

    def instructions(self, command: str, scenario: Path, limit: int) -> int:
        """The machine instructions of a run, as callgrind counts them."""
        words = [self.valgrind, "--tool=callgrind", "--callgrind-out-file=/dev/null", *self.words(command, scenario, limit)]
        said = subprocess.run(words, capture_output=True, text=True).stderr
        collected = re.search(r"Collected : (\d+)", said)
        if collected is None:
            raise OSError(0, f"callgrind counts nothing: {(said.strip().splitlines() or ['it said nothing'])[-1]}", words[4])
        return int(collected.group(1))

    def instructions_a_turn(self, command: str, scenario: Path, first: int, last: int) -> float:
        """The machine instructions of a turn, from two runs with these limits."""
        short, long = (self.instructions(command, scenario, limit) for limit in (first, last))
        return (long - short) / (last - first)

    def orders(self, scenario: Path, runs: int) -> int:
        """How many different orders came of so many runs."""
        found = set()
        for _ in range(runs):
            words = self.words("run", scenario, 1_000_000)
            subprocess.run(words, stdout=subprocess.DEVNULL, stderr=subprocess.DEVNULL)
            found.add(Path(words[3]).read_bytes())
        return len(found)
