"""Tests of fuzz: its programs are those of their seeds, and what is wrong with a run is found out.

python3 tools/c/vmm/fuzz/tests [--program FILE]
"""

from __future__ import annotations

import argparse
import importlib.util
import re
import sys
import tempfile
import unittest
from pathlib import Path

FOLDER = Path(__file__).resolve().parents[1]
sys.path.insert(0, str(FOLDER))

from judge import LONGEST, Report, fault  # noqa: E402
from programs import program  # noqa: E402

specification = importlib.util.spec_from_file_location("fuzz", FOLDER / "__main__.py")
fuzz = importlib.util.module_from_spec(specification)
sys.modules["fuzz"] = fuzz
specification.loader.exec_module(fuzz)

# At the end of the words of a random program whose machine ends: it stores to the finisher.
POWER_OFF = [0x001003B7, 0x00005337, 0x55530313, 0x0063A023]


class Programs(unittest.TestCase):
    """The programs."""

    def test_same_seed(self) -> None:
        """A seed has one program."""
        self.assertEqual(program("some 7"), program("some 7"))
        self.assertNotEqual(program("some 7"), program("some 8"))

    def test_words(self) -> None:
        """Programs are words, and some hundreds of them."""
        for number in range(50):
            words = program(f"words {number}")
            self.assertTrue(all(0 <= word < 2**32 for word in words))
            self.assertTrue(300 <= len(words) < 500)


class Faults(unittest.TestCase):
    """A run that is right, and what is wrong with it once it is changed."""

    nova: Path

    @classmethod
    def setUpClass(cls) -> None:
        """A run in which the guest ends its machine at once."""
        with tempfile.TemporaryDirectory() as folder:
            side = fuzz.Side(cls.nova, Path(folder), True)
            cls.known = side.known
            cls.text = side.run(side.with_guest(POWER_OFF)).text

    def found(self, pattern: str, instead: str) -> str:
        """What is found in the run, changed once."""
        changed, count = re.subn(pattern, instead, self.text, count=1, flags=re.MULTILINE)
        self.assertEqual(count, 1)
        return fault(self.known, Report(changed))

    def test_right(self) -> None:
        """Nothing is found where nothing is wrong."""
        self.assertEqual(fault(self.known, Report(self.text)), "")
        self.assertEqual(fault(self.known, self.known.report), "")

    def test_neighbour(self) -> None:
        """Another console, and other registers, of the neighbour."""
        self.assertIn("console", self.found(r"^console 1 ..", "console 1 00"))
        self.assertIn("registers", self.found(rf"^(ec {self.known.neighbour} vcpu dead) 8", r"\1 9"))

    def test_capability(self) -> None:
        """A page more for the guest, and a right more."""
        self.assertIn("holds mem 7", self.found(r"^(cap .*)$", rf"\1\ncap 999 17 {self.known.domain} mem 7 0 1 7"))
        self.assertIn("holds mem 65536", self.found(rf"^(cap .* {self.known.domain} mem 65536 0) 1", r"\1 3"))

    def test_death(self) -> None:
        """A monitor that dies of a fault, and one that ends and doesn't say why."""
        self.assertIn("died of 4", self.found(rf"( {self.known.handler} died) 7 ", r"\1 4 "))
        self.assertIn("doesn't say", self.found(r"^console 0 .*\n", ""))

    def test_late(self) -> None:
        """An exit that is answered late."""
        text = self.known.report.text
        answer = re.search(rf"^at (\d+) 0 {self.known.handler} answer 1 0$", text, re.MULTILINE)
        late = f"at {int(answer[1]) + LONGEST + 9} {answer[0].split(' ', 2)[2]}"
        self.assertIn("is answered in turn", fault(self.known, Report(text.replace(answer[0], late, 1))))

    def test_greedy(self) -> None:
        """main with more turns than the guest."""
        self.assertIn("more turns", self.found(rf"^(sc {self.known.main_turns} 0) \d+", r"\1 999999"))


if __name__ == "__main__":
    words = argparse.ArgumentParser(prog="tests")
    words.add_argument("--program", type=Path, default=fuzz.TOP / "nova", metavar="FILE")
    given, rest = words.parse_known_args()
    Faults.nova = given.program.resolve()
    unittest.main(argv=[sys.argv[0], *rest])
