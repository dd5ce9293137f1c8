"""How long steps, searches, listings, orders and traces take with a program, as a table."""

from __future__ import annotations

import argparse
import subprocess
import sys
import tempfile
import time
from collections.abc import Callable, Iterator
from importlib.util import module_from_spec, spec_from_file_location
from pathlib import Path

TOP = Path(__file__).resolve().parents[3]
TOOLS = TOP / "tools"
sys.path.insert(0, str(TOOLS / "debug"))

from backend import BYTES, BackEnd  # noqa: E402
from going import Breakpoint, Going  # noqa: E402

# The scenarios of tools/speed; another folder has a file of that name too.
_spec = spec_from_file_location("speed_scenarios", TOOLS / "speed" / "scenarios.py")
assert _spec is not None and _spec.loader is not None
speed = module_from_spec(_spec)
_spec.loader.exec_module(speed)

# How many turns a run has, and the turn at which steps are taken.
TURNS, MIDDLE = 10_000_000, 1_000_000
STEPS, LISTED, ORDERS, TRACED = 20, 100_000, 10_000, 1_000_000
ROOT, QUANTUM = 1, 1000

Rows = Iterator[tuple[str, str, str]]


def seconds(work: Callable[[], object]) -> float:
    """How long something takes."""
    began = time.perf_counter()
    work()
    return time.perf_counter() - began


def run(*words: object) -> None:
    """Runs a tool, which is to succeed."""
    subprocess.run([sys.executable, *map(str, words)], check=True, stdout=subprocess.DEVNULL)


def steps(program: Path, folder: Path) -> Rows:
    """Steps and searches backwards, in a loop that computes."""
    scenario = folder / "memory.nova"
    scenario.write_text(speed.memory(QUANTUM))
    for kept, name in ((BYTES, "64 MiB of states"), (0, "no states")):
        back = BackEnd(program, scenario, None, TURNS)
        back.keep(kept)
        going = Going(back, lambda: False)
        yield f"to turn {TURNS:,}, {name}", f"{seconds(lambda: back.go(TURNS)):.2f} s", ""
        back.go(MIDDLE)
        first = seconds(lambda: going.step_back(ROOT, True))
        others = [seconds(lambda: going.step_back(ROOT, True)) for _ in range(STEPS if kept else 1)]
        goal = "50 ms" if kept else ""
        yield f"reverse-stepi at turn {MIDDLE:,}, {name}", f"{first * 1000:.0f} ms, then {max(others) * 1000:.0f} ms at most", goal
        back.go(TURNS)
        going.points.append(Breakpoint(0, 0))
        spent = seconds(going.backwards)
        yield f"reverse-continue over {TURNS - back.turn:,} turns, {name}", f"{spent:.2f} s", "5 s" if kept else ""
        back.close()


def listing(program: Path, folder: Path) -> Rows:
    """A line a turn."""
    for name, text in (("a loop that computes", speed.memory(QUANTUM)), ("calls and replies", speed.calls(4))):
        scenario = folder / "listed.nova"
        scenario.write_text(text)
        spent = seconds(lambda: run(TOOLS / "debug", "trace", scenario, "--limit", LISTED, "--program", program))
        yield f"a listing of {LISTED:,} turns, {name}", f"{spent:.1f} s", ""


def orders(program: Path, nova: Path, folder: Path) -> Rows:
    """Orders at random."""
    words = ["--random", ORDERS, "--program", nova, "--stays", program, "--output", folder / "orders"]
    spent = seconds(lambda: run(TOOLS / "orders", "explore", TOP / "examples" / "race.nova", *words))
    yield f"{ORDERS:,} orders of examples/race.nova", f"{spent:.1f} s, {ORDERS / spent:,.0f} a second", ""


def traces(program: Path, nova: Path, folder: Path) -> Rows:
    """Traces of runs with few events and with many."""
    for name, text in (("a loop that computes", speed.memory(QUANTUM)), ("calls and replies", speed.calls(4))):
        scenario, report, trace = folder / "traced.nova", folder / "traced.report", folder / "traced.json.gz"
        scenario.write_text(text)
        with report.open("w") as file:
            subprocess.run([nova, "solo", scenario, "--limit", str(TRACED)], check=False, stdout=file, stderr=subprocess.DEVNULL)
        words = ["--scenario", scenario, "--program", program, "--output", trace]
        spent = seconds(lambda: run(TOOLS / "picture", "trace", report, *words))
        yield f"a trace of {TRACED:,} turns, {name}", f"{spent:.1f} s, {trace.stat().st_size / 1e6:.2f} MB", ""


def print_times(given: argparse.Namespace) -> None:
    """Measures, and prints a row for each time as it comes."""
    print("| what | time | goal |\n|---|---|---|")
    program = given.program.resolve()
    with tempfile.TemporaryDirectory() as name:
        folder = Path(name)
        kinds = (
            lambda: steps(program, folder),
            lambda: listing(program, folder),
            lambda: orders(program, given.nova, folder),
            lambda: traces(program, given.nova, folder),
        )
        for kind in kinds:
            for row in kind():
                print(f"| {' | '.join(row)} |", flush=True)
