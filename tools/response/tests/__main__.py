"""Tests what is told of waits, where nova_debug is built.

python3 tools/response/tests [--program FILE] [--random N]
"""

from __future__ import annotations

import argparse
import subprocess
import sys
import tempfile
import unittest
from pathlib import Path

TOP = Path(__file__).resolve().parents[3]
sys.path += [str(TOP / "tools" / "response"), str(TOP / "tools" / "replays")]

from scenarios import random_scenario  # noqa: E402
from schedules import BackEnd, Schedule, Schedules, schedules_of  # noqa: E402
from waits import waits_of  # noqa: E402

TOOL = TOP / "tools" / "response"
PROGRAM = TOP / "crates" / "nova_debug" / "out" / "nova_debug"
RANDOM, FIRST, LIMIT = 10, 5001, 3000

HELPING = """\
ec 1: sc 2, processor 0, priority 1, quantum 1
5 waits; the longest was 12 turns of the processor, of at most 12
after  acts in  turns  due  greater  own  ahead  rest  ready  bound
   23       36     12    0        0    0     12     0     12     12
   36       49     12    0        0    0     12     0     12     12
   49       62     12    0        0    0     12     0     12     12
   62      302    239    0        0   18    221     0      0      7
  302      312      9    0        0    9      0     0      0      7
"""
DRIVER = """\
ec 1: sc 2, processor 0, priority 254, quantum 10
2 waits; the longest was 47 turns of the processor, of at most 47
after  acts in  turns  due  greater  own  ahead  rest  ready  bound
   37       99     30    1        0    0      0    29      0      0
  111      201     80    2       72    0      0     6     47     47
"""


class Budgets(unittest.TestCase):
    """Quanta and stamps from who pays."""

    def test_a_ring_goes_round(self) -> None:
        first, second = Schedule(2, 1, 0, 1, 3, 0), Schedule(5, 4, 0, 1, 2, 0)
        walk = Schedules([first, second])
        walk.come_to(0)
        self.assertEqual((walk.ahead(first), walk.ahead(second)), (0, 3))
        for _ in range(3):
            walk.pay(2)
        self.assertEqual((walk.ahead(first), walk.ahead(second)), (2, 0))

    def test_other_rings_are_not_ahead(self) -> None:
        own = Schedule(9, 8, 0, 1, 1, 0)
        walk = Schedules([Schedule(2, 1, 0, 2, 7, 0), Schedule(5, 4, 1, 1, 7, 0), own])
        walk.come_to(0)
        self.assertEqual(walk.ahead(own), 0)


class Tables(unittest.TestCase):
    """What is written of runs of the examples."""

    program = PROGRAM

    def setUp(self) -> None:
        if not self.program.exists():
            self.skipTest("nova_debug is not built")

    def told(self, *words: str) -> subprocess.CompletedProcess[str]:
        command = [sys.executable, str(TOOL), *words, "--program", str(self.program)]
        return subprocess.run(command, capture_output=True, text=True, check=False)

    def test_helping(self) -> None:
        told = self.told(str(TOP / "examples" / "helping_forever.nova"), "1")
        self.assertEqual((told.returncode, told.stdout, told.stderr), (0, HELPING, ""))

    def test_a_driver_beside_the_right_to_create(self) -> None:
        told = self.told(str(TOP / "examples" / "taken_processor.nova"), "1", "--longest", "2")
        self.assertEqual((told.returncode, told.stdout, told.stderr), (0, DRIVER, ""))

    def test_no_scheduling_context(self) -> None:
        told = self.told(str(TOP / "examples" / "helping_forever.nova"), "3")
        wanted = "response: execution context 3 has no scheduling context in this run\n"
        self.assertEqual((told.returncode, told.stdout, told.stderr), (1, "", wanted))


class Bounds(unittest.TestCase):
    """In random runs each wait is as the laws say."""

    program, runs = PROGRAM, RANDOM

    def test_random_runs(self) -> None:
        if not self.program.exists():
            self.skipTest("nova_debug is not built")
        with tempfile.TemporaryDirectory() as folder:
            for seed in range(FIRST, FIRST + self.runs):
                scenario = Path(folder) / f"{seed}.nova"
                scenario.write_text(random_scenario(seed), "ascii")
                back = BackEnd(self.program, scenario, None, LIMIT)
                events = back.events(0, back.end)
                schedules = schedules_of(back, scenario, events)
                for own in schedules:
                    for wait in waits_of(back, schedules, own, events):
                        self.assertTrue(wait.is_lawful, f"seed {seed}: {own} {wait}")
                back.close()


if __name__ == "__main__":
    words = argparse.ArgumentParser(prog="tests")
    words.add_argument("--program", type=Path, default=PROGRAM, metavar="FILE", help="another program in place of nova_debug")
    words.add_argument("--random", type=int, default=RANDOM, metavar="N", help=f"this many random runs ({RANDOM})")
    asked, rest = words.parse_known_args()
    Tables.program = Bounds.program = asked.program
    Bounds.runs = asked.random
    unittest.main(argv=[sys.argv[0], *rest])
