"""Scenarios whose orders are all gone along one by one, random ones by the interpreter, and examples by `nova solo`: their outcomes are those that the
explorer tells."""

from __future__ import annotations

import re
import subprocess
import sys
from collections.abc import Iterator
from dataclasses import dataclass, field
from pathlib import Path

from small import Scenario, ends
from where import TOOL, Replayer, asked

from questions import Question

ENDS = Question(("ends",))
ORDERS = TOOL.parent / "orders"
# More changes of processor than any order of the examples has that are run by each order.
CHANGES = "40"


@dataclass(slots=True)
class Compared:
    """How many scenarios were compared, how many orders they have, how many of them have several outcomes, and what differs."""

    scenarios: int = 0
    orders: int = 0
    several: int = 0
    faults: list[str] = field(default_factory=list)

    def add(self, scenario: Scenario, program: Path, replayer: Replayer) -> None:
        """Compares a scenario."""
        outcomes = [outcome for outcome in ends(scenario)]
        self.scenarios += 1
        self.orders += len(outcomes)
        self.several += len(set(outcomes)) > 1
        self.faults += differences(scenario, set(outcomes), program, replayer)


def differences(scenario: Scenario, wanted: set[tuple[str, ...]], program: Path, replayer: Replayer) -> Iterator[str]:
    """In what an answer differs from the outcomes that are wanted, and which of its orders don't end so."""
    file = replayer.folder / "small.nova"
    file.write_text(scenario.text())
    _, answer = asked(program, file, ENDS.words)
    told = [outcome.lines for outcome in answer.outcomes or ()]
    if answer.extent != "all":
        yield f"{answer.extent} is told, and not all"
    yield from (f"not told: {lines}" for lines in wanted - set(told))
    yield from (f"told, though no order ends so: {lines}" for lines in set(told) - wanted)
    if len(set(told)) < len(told):
        yield "an outcome is told twice"
    yield from replayer.faults(file, ENDS, answer)


def compared(first: int, count: int, program: Path, replayer: Replayer) -> Compared:
    """Compares the scenarios of so many seeds."""
    done = Compared()
    for seed in range(first, first + count):
        before = len(done.faults)
        done.add(Scenario.of(seed), program, replayer)
        done.faults[before:] = [f"seed {seed}: {fault}" for fault in done.faults[before:]]
    return done


def by_each_order(scenario: Path, replayer: Replayer) -> set[tuple[str, ...]]:
    """The outcomes of a scenario by `tools/orders`, which runs each order to rest by itself."""
    words = ["--switches", CHANGES, "--by", "states,semaphores,consoles", "--output", str(replayer.folder), "--program", str(replayer.nova)]
    words += ["--stays", str(replayer.debug)] if replayer.debug else []
    told = subprocess.run([sys.executable, str(ORDERS), "explore", str(scenario), *words], capture_output=True, text=True, check=True).stdout
    found = set()
    for part in re.split(r"\n(?=outcome \d)", told)[1:]:
        rows = [line.split("#")[0].split() for line in part.splitlines()[1:] if not line.startswith("  parts")]
        found.add(tuple(" ".join(row[:2] + row[3:] if row[0] == "ec" else row) for row in rows))
    return found
