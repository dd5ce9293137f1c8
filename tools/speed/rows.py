"""What is counted in machine instructions: a turn of each of these runs."""

from __future__ import annotations

from collections.abc import Iterator
from dataclasses import dataclass
from pathlib import Path

import scenarios
from measures import Program

TOP = Path(__file__).resolve().parents[2]
EXAMPLES = TOP / "examples"

# Scenarios of real programs, and the turns between which theirs are compared. Those of Lua and bzip2 are built by scripts of tools/c/examples.
PROGRAMS = {
    "sort": (1_000, 5_000),
    "crc": (450, 950),
    "lua": (10_000, 60_000),
    "lua_guest": (10_000, 60_000),
    "bzip2": (10_000, 60_000),
    "bzip2_guest": (10_000, 60_000),
}


@dataclass(frozen=True)
class Row:
    """A run, by its name and command, and the limits of the two runs of it that are compared."""

    name: str
    command: str
    scenario: str | Path
    first: int
    last: int

    def measure(self, program: Program) -> float:
        """The machine instructions of a turn."""
        scenario = self.scenario if isinstance(self.scenario, Path) else program.scenario(self.scenario)
        return program.instructions_a_turn(self.command, scenario, self.first, self.last)


def loops() -> Iterator[Row]:
    """Threads and guests in loops of a few instructions."""
    for quantum in (10, 1_000_000):
        yield Row(f"jump, quantum {quantum}", "solo", scenarios.jump(quantum), 10_000, 60_000)
        yield Row(f"load, add, store, branch, quantum {quantum}", "solo", scenarios.memory(quantum), 10_000, 60_000)
        yield Row(f"store beside a dead virtual CPU, quantum {quantum}", "solo", scenarios.beside(quantum), 10_000, 60_000)
    for words in (0, 16, 120):
        yield Row(f"calls and replies of {words} words", "solo", scenarios.calls(words), 10_000, 60_000)
    yield Row("a guest, by bursts", "run", scenarios.guests(1, 1_000_000), 100_000, 600_000)


def programs(folder: Path) -> Iterator[Row]:
    """Real programs whose scenarios are in a folder or among the examples, by `solo` and by `run`."""
    for name, (first, last) in PROGRAMS.items():
        places = (folder / f"{name}.nova", EXAMPLES / f"{name}.nova")
        scenario = next((place for place in places if place.is_file()), None)
        if scenario is not None:
            yield Row(f"{name}.nova", "solo", scenario, first, last)
            yield Row(f"{name}.nova, by run", "run", scenario, first, last)


def rows(folder: Path = EXAMPLES) -> Iterator[Row]:
    """All of them."""
    yield from loops()
    yield from programs(folder)
