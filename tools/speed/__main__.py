"""Measures the program's speed, on this machine, and prints a table.

python3 tools/speed [--program FILE] [--scenarios FOLDER] [--only WORD | --kept | --keep]

Machine instructions are counted by callgrind and are the same on each machine; without valgrind those rows are left out. Times are the best
of five runs: let the machine have nothing else to do. It takes some five minutes. With --kept machine instructions alone are counted, and the
status is 1 where a row needs a tenth more than is kept of it in kept.txt; with --keep they are kept.
"""

from __future__ import annotations

import argparse
import shutil
import sys
import tempfile
from collections.abc import Callable, Iterator
from pathlib import Path

import kept
import scenarios
from measures import Program
from rows import EXAMPLES, rows

TOP = Path(__file__).resolve().parents[2]
sys.path.append(str(TOP / "tools" / "build"))

from built import ended, find  # noqa: E402

MOST = 10_000_000
PAIRS = ("race", "mutex", "semaphores", "revoking", "processors")

Rows = Iterator[tuple[str, str]]


def counted(program: Program, folder: Path) -> dict[str, float]:
    """Machine instructions a turn, by row."""
    return {row.name: row.measure(program) for row in rows(folder)}


def instructions(program: Program, folder: Path) -> Rows:
    """Machine instructions a turn, of loops and of real programs."""
    if shutil.which("valgrind") is not None:
        for row in rows(folder):
            yield f"{row.name}: machine instructions a turn", f"{row.measure(program):.1f}"


def turns(program: Program, _: Path) -> Rows:
    """Seconds and memory of many turns by one thread."""
    spent = program.best("solo", program.scenario(scenarios.jump(10)), MOST)
    yield "10,000,000 jumps: turns a microsecond of user time; memory", f"{MOST / spent.user / 1e6:.1f}; {spent.memory / 1e6:.0f} MB"


def bursts(program: Program, _: Path) -> Rows:
    """Guests by bursts."""
    one = program.scenario(scenarios.guests(1, 1_000_000))
    spent = program.best("run", one, MOST)
    yield "one guest, by bursts: instructions a microsecond of user time; of the clock", f"{MOST / spent.user / 1e6:.0f}; {MOST / spent.clock / 1e6:.0f}"
    yield from together(program)


def together(program: Program) -> Rows:
    """Four guests on four processors against one guest, with a long quantum and with one of 10. What a run of a few turns takes is left out, so that
    beginning and end, which are the same for both, don't count."""
    for quantum in (10, 1_000_000):
        one, four = (program.clock("run", program.scenario(scenarios.guests(cpus, quantum)), 1_000, MOST) for cpus in (1, 4))
        yield f"four guests on four processors against one, quantum {quantum}, by the clock", f"{one / four:.1f}"


def crowds(program: Program, _: Path) -> Rows:
    """Many threads."""
    spent = program.best("solo", program.scenario(scenarios.blocked(10_000)), MOST, 3)
    yield "10,000 threads that block: seconds", f"{spent.user:.2f}"
    ring = program.scenario(scenarios.ring(1_000))
    long, short = (program.best("solo", ring, limit, 3).user for limit in (1_100_000, 100_000))
    yield "a ring of 1,000 threads: seconds a million turns", f"{long - short:.2f}"


def commands(program: Program, _: Path) -> Rows:
    """`run` against `solo`, on one processor."""
    cases = {"threads alone": scenarios.jump(10), "a guest, quantum 10": scenarios.guests(1, 10), "a guest, quantum 1,000": scenarios.guests(1, 1_000)}
    for name, text in cases.items():
        scenario = program.scenario(text)
        run, solo = (program.best(command, scenario, MOST).user for command in ("run", "solo"))
        yield f"run against solo, {name}: user time", f"{run / solo:.2f}"


def orders(program: Program, _: Path) -> Rows:
    """How runs by workers interleave."""
    for name in PAIRS:
        yield f"different orders in 100 runs of {name}.nova", str(program.orders(TOP / f"examples/{name}.nova", 100))


ALL: tuple[Callable[[Program, Path], Rows], ...] = (instructions, turns, bursts, crowds, commands, orders)


def compare(program: Program, folder: Path) -> int:
    """The status: 1 where a row needs a tenth more machine instructions than are kept of it."""
    if shutil.which("valgrind") is None:
        print("nothing is counted, since valgrind isn't installed")
        return 0
    found = kept.faults(kept.read(kept.FILE.read_text()), counted(program, folder))
    for fault in found:
        print(fault)
    return 1 if found else 0


def table(program: Program, folder: Path, only: str | None) -> int:
    """Prints the table."""
    for measure in ALL:
        if only in (None, measure.__name__):
            for what, figure in measure(program, folder):
                print(f"| {what} | {figure} |", flush=True)
    return 0


def arguments() -> argparse.Namespace:
    """The words of the call."""
    parser = argparse.ArgumentParser(prog="speed", description="Measures the program's speed on this machine.")
    parser.add_argument("--program", type=Path, metavar="FILE", help="the program (the repository's)")
    parser.add_argument("--scenarios", type=Path, default=EXAMPLES, metavar="FOLDER", help="where scenarios of Lua and bzip2 are (the examples)")
    what = parser.add_mutually_exclusive_group()
    what.add_argument("--only", choices=[measure.__name__ for measure in ALL], help="these rows alone")
    what.add_argument("--kept", action="store_true", help="compare machine instructions with those that are kept")
    what.add_argument("--keep", action="store_true", help="keep machine instructions")
    return parser.parse_args()


def main() -> int:
    """Does what the words say."""
    given = arguments()
    with tempfile.TemporaryDirectory() as folder:
        program = Program(given.program or find("nova"), Path(folder))
        if given.kept:
            return compare(program, given.scenarios)
        if given.keep:
            kept.FILE.write_text(kept.write(counted(program, given.scenarios)))
            return 0
        return table(program, given.scenarios, given.only)


if __name__ == "__main__":
    sys.exit(ended("speed", main))
