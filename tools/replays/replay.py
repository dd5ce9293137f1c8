"""Runs a scenario by threads, and takes the turns of its order again by one."""

from __future__ import annotations

import re
import signal
import subprocess
from collections.abc import Iterable
from dataclasses import dataclass
from enum import Enum
from pathlib import Path

# How many scenarios with one number of processors are enough to tell whether they were run by threads.
ENOUGH = 5

# The statuses with which a report is out.
REPORTED = (0, 7)


@dataclass(frozen=True, slots=True)
class Ending:
    """How a command ended: its status, and what it wrote to standard output and standard error."""

    status: int | None
    report: bytes
    line: bytes


class Verdict(Enum):
    """What came of a scenario."""

    SAME = "same"
    DIFFERENT = "different"
    REFUSED = "refused"


@dataclass(frozen=True, slots=True)
class Replay:
    """A scenario that was run: what came of it, of how many blocks and turns its order is, whether these are what rounds give, and what is said of a
    difference."""

    verdict: Verdict
    blocks: int = 0
    turns: int = 0
    is_by_rounds: bool = False
    said: str = ""


def ending(words: list[str], seconds: int) -> Ending:
    """How a command ends. One that takes longer than so many seconds is stopped, and has no status."""
    try:
        done = subprocess.run(words, stdin=subprocess.DEVNULL, capture_output=True, timeout=seconds, check=False)
    except subprocess.TimeoutExpired:
        return Ending(None, b"", f"not done after {seconds} s".encode())
    if done.returncode == -signal.SIGINT:
        raise KeyboardInterrupt
    return Ending(done.returncode, done.stdout, done.stderr)


def difference(first: Ending, again: Ending) -> str:
    """In what two endings differ; nothing where they are the same."""
    if first.status != again.status or first.line != again.line:
        return f"status {first.status} {first.line.decode().strip()!r}, and again {again.status} {again.line.decode().strip()!r}"
    for number, (one, other) in enumerate(zip(first.report.splitlines(), again.report.splitlines()), 1):
        if one != other:
            return f"line {number} of the report: {one.decode()!r}, and again {other.decode()!r}"
    return "" if first.report == again.report else "one report is longer"


def replay(program: str, scenario: Path, order: Path, limit: int, seconds: int) -> Replay:
    """Runs the scenario and takes its order again, into a file that is not there yet. A scenario with a fault is refused both times. A run that hangs
    is a difference."""

    def command(*words: str | Path) -> Ending:
        return ending([program, *map(str, words), "--limit", str(limit)], seconds)

    first = command("run", scenario, order)
    if first.status is None:
        return Replay(Verdict.DIFFERENT, said=first.line.decode())
    if first.status not in REPORTED:
        said = difference(first, command("solo", scenario)) or ("an order of no run" if order.exists() else "")
        return Replay(Verdict.DIFFERENT if said else Verdict.REFUSED, said=said or first.line.decode())
    blocks = [line.split() for line in order.read_text("ascii").splitlines()] if order.exists() else []
    said = difference(first, command("solo", scenario, order))
    by_rounds = len(blocks) > 1 and not difference(first, command("solo", scenario))
    return Replay(Verdict.DIFFERENT if said else Verdict.SAME, len(blocks), sum(int(count) for _, count in blocks), by_rounds, said)


def processors_of(scenario: str) -> int:
    """How many processors a scenario has, by its line `cpus`; 0 where it has none."""
    found = re.search(r"^[ \t\r]*cpus[ \t\r]+(0x[0-9a-fA-F]+|[0-9]+)", scenario, re.MULTILINE)
    return 0 if found is None else int(found[1], 16) if found[1].startswith("0x") else int(found[1])


def amiss(several: list[Replay]) -> str:
    """Why these runs, of several processors each, can't have been by threads; nothing where they may."""
    mixed = [one for one in several if one.blocks > 1]
    if several and not mixed:
        return f"scenarios with several processors: {len(several)}, orders of several blocks: 0"
    if mixed and all(one.is_by_rounds for one in mixed):
        return f"orders of several blocks: {len(mixed)}, and each is that of rounds"
    return ""


def not_by_threads(seen: Iterable[tuple[int, Replay]]) -> str:
    """Why runs with these numbers of processors can't have been by threads: all of them, or those with one number, where these are enough; nothing
    where they may, or where none has several processors."""
    several = [(cpus, one) for cpus, one in seen if cpus > 1 and one.verdict is not Verdict.REFUSED]
    said = amiss([one for _, one in several])
    for number in sorted({cpus for cpus, _ in several}):
        alike = [one for cpus, one in several if cpus == number]
        if not said and len(alike) >= ENOUGH and amiss(alike):
            said = f"{number} processors: {amiss(alike)}"
    return said
