"""The tests of work that is sent to other processes."""

from __future__ import annotations

import subprocess
import sys
import tempfile
import unittest
from collections.abc import Iterator
from concurrent.futures import ProcessPoolExecutor
from contextlib import contextmanager
from functools import partial
from pathlib import Path

from running import EXAMPLES, HERE, MEANS, TOOL, Told, explored

from choice import Choice, Wanted
from finding import find_program, find_staying
from longest import Scout
from outcome import Outcome, aspects_of, outcome_of
from pool import Pool
from program import Program, Trouble
from remote import Job, draw
from sample import Habits
from search import Tried
from sending import Sending
from shared import read_settings

# Where the package of dask's scheduler may be: for this Python, or for the system's.
PYTHONS = sys.executable, "/usr/bin/python3"


def words_of(name: str) -> Path | None:
    """The file that a word of the command line names."""
    return Path(MEANS[MEANS.index(name) + 1]) if name in MEANS else None


def find_stays() -> Path | None:
    """The program that is sent."""
    return find_staying(words_of("--stays"), words_of("--program"))


def has_package(python: str) -> bool:
    """Whether a Python has the package."""
    try:
        return subprocess.run([python, "-c", "import distributed"], capture_output=True, check=False).returncode == 0
    except OSError:
        return False


def found(tried: Tried[Outcome] | None) -> tuple[object, ...]:
    """What is told of an order."""
    return () if tried is None else (tried.blocks, tried.is_quiet, tried.verdict)


class AnyExecutor(unittest.TestCase):
    """Two processes, which are sent work as any executor's workers are."""

    def setUp(self) -> None:
        stays = find_stays()
        if stays is None:
            self.skipTest("nova_debug is not built")
        self.stays = stays

    def choose(self, scenario: Path, wanted: Wanted, pool: Pool, sends: bool) -> list[tuple[object, ...]]:
        """All orders that are tried, and what is found of each."""
        judge = partial(outcome_of, aspects=aspects_of("end,consoles"))
        with tempfile.TemporaryDirectory() as folder:
            program = Program(find_program(words_of("--program"), scenario), scenario, Path(folder), 2, self.stays)
            scout = Scout(program, read_settings(scenario.read_text()))
            job = Job(str(self.stays), scenario.read_text(), wanted.turns, wanted.changes or 0, wanted.seed, wanted.habits, judge)
            sending = Sending(pool, job, scout, program) if sends else None
            chosen = [found(tried) for tried in Choice(wanted, scout, pool, judge, sending).orders() if tried is not None]
            self.assertGreater(program.starts, 100)
            program.stop()
            return chosen

    def test_what_is_sent_comes_back_as_threads_find_it(self) -> None:
        for scenario, turns in ((EXAMPLES / "race.nova", 1000), (HERE / "waits.nova", 100)):
            wanted = Wanted(turns, 3, 60, 5, Habits((1.0, 1.0), 1, 8))
            threads, processes = Pool(2), Pool(2, ProcessPoolExecutor(2))
            with self.subTest(scenario.name):
                self.assertEqual(self.choose(scenario, wanted, processes, True), self.choose(scenario, wanted, threads, False))
            threads.close()
            processes.close()

    def test_a_program_that_takes_no_order(self) -> None:
        job = Job("/bin/false", (EXAMPLES / "race.nova").read_text(), 9, 0, 1, Habits((1.0, 1.0), 1, 8), len)
        with ProcessPoolExecutor(1) as executor, self.assertRaises(Trouble):
            executor.submit(draw, job, {}, {}, range(1)).result()


class Cluster(unittest.TestCase):
    """A scheduler of python3-distributed with two workers."""

    def setUp(self) -> None:
        self.python = next(filter(has_package, PYTHONS), "")
        if not self.python or find_stays() is None:
            self.skipTest("python3-distributed is not installed, or nova_debug is not built")

    @contextmanager
    def cluster(self) -> Iterator[str]:
        """The address of a scheduler."""
        words = [self.python, str(HERE / "cluster.py")]
        pipe = subprocess.PIPE
        with subprocess.Popen(words, stdin=pipe, stdout=pipe, stderr=subprocess.DEVNULL, text=True) as child:
            assert child.stdin is not None and child.stdout is not None
            try:
                yield child.stdout.readline().strip()
            finally:
                child.stdin.close()

    def explored(self, *words: str) -> Told:
        """A run of `explore` by the Python that has the package."""
        with tempfile.TemporaryDirectory() as folder:
            command = [self.python, str(TOOL), "explore", *MEANS, *words, "--output", folder]
            return Told(subprocess.run(command, capture_output=True, text=True, check=False), Path(folder))

    def test_outcomes_are_those_of_threads(self) -> None:
        with self.cluster() as address:
            for words in ((str(EXAMPLES / "race.nova"), "--random", "400"), (str(HERE / "lost_wakeup.nova"), "--switches", "2")):
                with self.subTest(words):
                    sent, here = self.explored(*words, "--executor", f"dask:{address}"), explored(*words)
                    self.assertEqual((sent.answer.returncode, sent.answer.stderr), (0, here.answer.stderr))
                    self.assertEqual((sent.counts, sent.outcomes), (here.counts, here.outcomes))
                    self.assertEqual(sent.answer.stdout.splitlines()[:2], here.answer.stdout.splitlines()[:2])

    def test_refusals(self) -> None:
        told = self.explored(str(EXAMPLES / "race.nova"), "--executor", "dask:127.0.0.1:9")
        self.assertEqual((told.answer.returncode, told.answer.stdout), (3, ""))
        self.assertEqual(told.answer.stderr, "orders: --executor dask: no scheduler answers at 127.0.0.1:9\n")
