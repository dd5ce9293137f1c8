"""The tests of the orders.

python3 tools/orders/tests [--program FILE [--stays FILE]] [NAME..]
"""

from __future__ import annotations

import os
import signal
import subprocess
import sys
import tempfile
import time
import unittest
from collections.abc import Iterator
from contextlib import redirect_stderr
from dataclasses import dataclass
from io import StringIO
from pathlib import Path
from random import Random

from running import EXAMPLES, HERE, MEANS, PICTURE, TOOL, explored, opened, orders
from sent import AnyExecutor, Cluster

from asking import parser
from longest import Scout
from outcome import Sought, aspects_of, outcome_of
from pool import Pool
from program import End, Program
from search import Search
from shared import Settings
from turns import Block, Blocks, Parting, first_turns, last_turn, merged, parting, plainness, text_of, turns_of

DEAD = ("run quiet", "ec 1 global dead")


@dataclass(frozen=True)
class Case:
    """A scenario, what its orders are grouped by, and for each outcome the simplest order with at most two changes of processor."""

    scenario: Path
    by: str
    outcomes: dict[tuple[str, ...], str]


ENDS = "end,states,consoles,semaphores"
CASES = (
    Case(
        EXAMPLES / "race.nova",
        ENDS,
        {
            (*DEAD, "ec 4 local parked", "ec 6 global dead", "console 0 32", "sm 3 0 0"): "0 22\n1 18\n0 14\n",
            (*DEAD, "ec 4 local parked", "ec 6 global dead", "console 0 31", "sm 3 0 0"): "0 24\n1 18\n0 12\n",
        },
    ),
    Case(
        EXAMPLES / "mutex.nova",
        ENDS,
        {(*DEAD, "ec 5 local parked", "ec 7 global dead", "console 0 32", "sm 3 0 0", "sm 4 1 0"): "0 25\n1 24\n0 20\n"},
    ),
    Case(
        HERE / "lost_wakeup.nova",
        ENDS,
        {
            (*DEAD, "ec 4 local parked", "ec 6 global dead", "sm 3 0 0"): "0 22\n1 16\n0 5\n",
            ("run quiet", "ec 1 global blocked", "ec 4 local parked", "ec 6 global dead", "sm 3 0 1"): "0 24\n1 16\n0 7\n",
        },
    ),
    Case(
        HERE / "deadlock.nova",
        ENDS,
        {
            (*DEAD, "ec 5 local parked", "ec 7 global dead", "sm 3 1 0", "sm 4 1 0"): "0 38\n1 22\n",
            ("run quiet", "ec 1 global blocked", "ec 5 local parked", "ec 7 global blocked", "sm 3 0 1", "sm 4 0 1"): "0 29\n1 15\n0 2\n",
        },
    ),
    Case(
        HERE / "busy.nova",
        "events:made,skip,gone",
        {
            ("at - 1 5 made 9 0",): "0 27\n1 18\n",
            ("at - 1 5 made 9 0", "at - 0 1 gone 9 7"): "0 19\n1 18\n0 9\n",
            ("at - 1 5 skip 5 1",): "0 24\n1 18\n0 3\n",
        },
    ),
    Case(
        HERE / "timeout.nova",
        "consoles",
        {("console 0 30",): "0 22\n1 14\n0 56\n", ("console 0 31",): "0 68\n1 14\n0 9\n"},
    ),
    Case(
        EXAMPLES / "clocks.nova",
        "consoles,semaphores",
        {("console 0 30", "sm 3 0 0"): "0 89\n1 19\n", ("console 0 31", "sm 3 1 0"): "0 22\n1 40\n0 67\n"},
    ),
)


class Examples(unittest.TestCase):
    """Small scenarios whose outcomes are known."""

    def test_outcomes_and_their_simplest_orders(self) -> None:
        for case in CASES:
            with self.subTest(case.scenario.stem):
                told = explored(str(case.scenario), "--switches", "2", "--by", case.by)
                for_all = f"orders: of other orders nothing is known; of all, which in so short a run may be few states: ./nova-explore {case.scenario} ends\n"
                self.assertEqual((told.answer.returncode, told.answer.stderr), (0, for_all))
                self.assertEqual(told.outcomes, case.outcomes)

    def test_at_random_there_are_no_other_outcomes(self) -> None:
        for case in CASES:
            with self.subTest(case.scenario.stem):
                told = explored(str(case.scenario), "--random", "20", "--lengths", "1-30", "--by", case.by)
                self.assertEqual(told.outcomes.keys() - case.outcomes.keys(), set())

    def test_of_all_orders_the_explorer_is_named_where_the_run_is_short(self) -> None:
        for name, is_named in (("woken.nova", False), ("waits.nova", True)):  # with a source, and without
            with self.subTest(name):
                self.assertEqual("nova-explore" in explored(str(HERE / name), "--random", "2").answer.stderr, is_named)

    def test_a_firing_lets_a_processor_that_was_left_out_go_on(self) -> None:
        told = explored(str(HERE / "woken.nova"), "--random", "40", "--lengths", "40-60", "--by", "events:irq,died")
        first, second, died = "at - 1 1 irq 0 0", "at - 1 0 irq 0 0", "at - 0 1 died 7 0"
        self.assertLessEqual({(first, second, died), (first, died, second)}, told.outcomes.keys())

    def test_pictures_are_those_that_stand_here(self) -> None:
        for name, report in (("race", "race"), ("race_right", "race_right"), ("mutex", "mutex")):
            scenario = EXAMPLES / f"{'mutex' if name == 'mutex' else 'race'}.nova"
            order = EXAMPLES / f"{report}.order"
            with self.subTest(name), opened(scenario) as (program, _):
                text = EXAMPLES / f"{report}.report"
                self.assertEqual(program.run_text(order.read_text()).report, text.read_text())
                words = [sys.executable, str(PICTURE), "run", str(text), "--order", str(order)]
                drawn = subprocess.run(words, capture_output=True, encoding="utf-8", check=True).stdout
                self.assertEqual(drawn, (TOOL / "pictures" / f"{name}.svg").read_text(encoding="utf-8"))


def by_hand(program: Program, cpus: int, changes: int, turns: int, before: Blocks = ()) -> Iterator[Blocks]:
    """All orders that come to rest with at most so many changes, by trying each block in each length."""
    for cpu in range(cpus):
        if before and before[-1].cpu == cpu:
            continue
        for count in range(1, turns - turns_of(before) + 1):
            order = (*before, Block(cpu, count))
            run = program.run(order)
            if run.end is End.IDLE:
                break
            if run.end is End.QUIET:
                yield order
                break
            if changes:
                yield from by_hand(program, cpus, changes - 1, turns, order)


def claims(program: Program, settings: Settings, dice: Random) -> Iterator[tuple[Blocks, int, bool]]:
    """One turn after another at random to the end of the run: after which of them a processor is said to be idle, and whether it is."""
    scout = Scout(program, settings)
    run = program.run(())
    while run.end is End.OPEN:
        ways = [program.run(merged((*run.blocks, Block(cpu, 1)))) for cpu in range(settings.cpus)]
        for cpu in scout.idle_after(run) if run.blocks else ():
            yield run.blocks, cpu, ways[cpu].end is End.IDLE
        run = dice.choice([way for way in ways if way.end is not End.IDLE])


class All(unittest.TestCase):
    """What `--switches` covers."""

    def test_all_orders_to_rest_are_found_once_and_in_order(self) -> None:
        for turns, changes in ((100, 2), (17, 3)):
            with self.subTest(turns=turns), opened(EXAMPLES / "processors.nova") as (program, settings):
                pool = Pool(2)
                search = Search(Scout(program, settings), pool, turns, changes, len)
                found = [tried for tried in search.orders() if tried.is_quiet]
                pool.close()
                self.assertEqual(sorted(tried.blocks for tried in found), sorted(by_hand(program, settings.cpus, changes, turns)))
                self.assertEqual([len(tried.blocks) for tried in found], sorted(len(tried.blocks) for tried in found))
                self.assertEqual(sum(search.coverage.at_rest), len(found))
                self.assertTrue(search.coverage.is_all)

    def test_all_orders_of_small_scenarios(self) -> None:
        for name in ("three", "waits", "fires"):
            with self.subTest(name), opened(HERE / f"{name}.nova") as (program, settings):
                pool = Pool(2)
                search = Search(Scout(program, settings), pool, 100, 3, len)
                found = sorted(tried.blocks for tried in search.orders())
                pool.close()
                self.assertEqual(found, sorted(by_hand(program, settings.cpus, 3, 100)))
                self.assertGreater(len(found), 10)

    def test_idle_is_said_of_idle_processors_alone(self) -> None:
        for name in ("three", "waits", "fires"):
            with self.subTest(name), opened(HERE / f"{name}.nova") as (program, settings):
                said = [claim for walk in range(8) for claim in claims(program, settings, Random(walk))]
                self.assertEqual([claim for claim in said if not claim[2]], [])
                self.assertGreater(len(said), 10)

    def test_orders_at_random_come_to_the_outcomes_of_all(self) -> None:
        for name, outcomes in (("waits", 1), ("fires", 2)):
            with self.subTest(name):
                words = (str(HERE / f"{name}.nova"), "--by", "match:^(?:ec 1|source) .*")
                every, some = explored(*words, "--switches", "4"), explored(*words, "--random", "30")
                self.assertEqual(len(every.outcomes), outcomes)
                self.assertEqual((some.answer.returncode, set(some.outcomes)), (0, set(every.outcomes)))

    def test_an_endless_run_is_cut_off_and_not_said_to_be_one_of_all(self) -> None:
        with tempfile.TemporaryDirectory() as folder:
            scenario = Path(folder, "loop.nova")
            scenario.write_text("cpus 0x2\nram 0\nconsoles 0\nroot 0 0 1 10\nimage 0 asm\nj 0\nend\n")
            told = explored(str(scenario), "--turns", "7")
            self.assertEqual(told.outcomes, {("run open", "ec 1 global ready"): "0 7\n"})
            self.assertIn("all 0 orders with at most 3 changes of processor that come to rest within 7 turns", told.answer.stdout)
            self.assertIn("1 order of 7 turns without rest; of such orders not all were tried", told.answer.stdout)
            told = explored(str(scenario), "--turns", "7", "--random", "3")
            self.assertEqual((told.outcomes, told.counts), ({("run open", "ec 1 global ready"): "0 7\n"}, [1]))


class Commands(unittest.TestCase):
    """The tool as a whole."""

    def test_a_seed_gives_the_same_orders_however_many_run_at_a_time(self) -> None:
        words = (str(EXAMPLES / "race.nova"), "--random", "60", "--seed", "7", "--weights", "1,2")
        one, other, third = explored(*words, "--jobs", "1"), explored(*words, "--jobs", "3"), explored(*words, "--seed", "8")
        self.assertEqual((one.outcomes, one.counts), (other.outcomes, other.counts))
        self.assertNotEqual((one.outcomes, one.counts), (third.outcomes, third.counts))
        self.assertIn("60 of 60 orders at random, seed 7", one.answer.stdout)

    def test_expect(self) -> None:
        race = str(EXAMPLES / "race.nova")
        answer = orders("expect", race, "--never", "^console 0 31$")
        self.assertEqual((answer.returncode, answer.stdout), (1, "0 24\n1 18\n0 12\n"))
        self.assertIn("'^console 0 31$' is there, by this order of 3 blocks, 54 turns", answer.stderr)
        answer = orders("expect", race, "--always", "^console 0 3[12]$", "--always", "run quiet", "--switches", "2")
        self.assertEqual((answer.returncode, answer.stdout), (0, ""))
        self.assertIn("all 9 orders with at most 2 changes of processor that come to rest within 1,000 turns", answer.stderr)
        answer = orders("expect", race, "--always", "^console 0 32$", "--switches", "2")
        self.assertEqual((answer.returncode, answer.stdout), (1, "0 24\n1 18\n0 12\n"))

    def test_an_order_of_200_blocks_is_shrunk_to_three(self) -> None:
        order = HERE / "long_race.order"
        self.assertGreater(len(order.read_text().splitlines()), 200)
        answer = orders("shrink", str(HERE / "long_race.nova"), str(order), "--keep", "^console 0 2d$")
        self.assertEqual(answer.returncode, 0, answer.stderr)
        self.assertEqual([line.split()[0] for line in answer.stdout.splitlines()], ["0", "1", "0"])
        with opened(HERE / "long_race.nova") as (program, _):
            self.assertIn("\nconsole 0 2d\n", program.run_text(answer.stdout).report)

    def test_an_interrupt_leaves_what_was_found(self) -> None:
        """So does a request to end, also where it is sent to all processes of the tool, as `timeout` does."""
        for send in (
            lambda child: child.send_signal(signal.SIGINT),
            lambda child: child.send_signal(signal.SIGTERM),
            lambda child: os.killpg(child.pid, signal.SIGTERM),
        ):
            with self.subTest(), tempfile.TemporaryDirectory() as folder:
                race = str(HERE / "long_race.nova")
                words = [sys.executable, str(TOOL), "explore", race, "--switches", "5", "--output", folder, "--progress", *MEANS]
                # Where the tests run in the background, interrupts may be ignored, and so by what they start.
                heed = lambda: signal.signal(signal.SIGINT, signal.SIG_DFL)
                pipe = subprocess.PIPE
                with subprocess.Popen(words, stdout=pipe, stderr=pipe, text=True, preexec_fn=heed, process_group=0) as child:
                    assert child.stderr is not None
                    while " runs" not in (line := child.stderr.readline()):
                        self.assertIn("DRAFT", line)
                    send(child)
                    began = time.monotonic()
                    written, said = child.communicate()
                self.assertEqual(child.returncode, 130)
                self.assertLess(time.monotonic() - began, 30)
                self.assertTrue(said.endswith("orders: interrupted\n"), said)
                self.assertNotIn("Error", said)
                self.assertIn(", not all, with at most 5 changes of processor", written)

    def test_turns_that_are_not_enough_are_told(self) -> None:
        race = str(HERE / "long_race.nova")
        rounds = self.rounds_of(race)
        answer = orders("expect", race, "--random", "2", "--turns", "50", "--always", "run quiet")
        told = f"orders: {race} takes {rounds} turns in rounds; --turns is 50, so that orders are cut\n"
        self.assertEqual((answer.returncode, answer.stderr.startswith(told)), (1, True), answer.stderr)
        self.assertIn("blocks, 50 turns (cut by --turns, not at rest), number 1 of those tried:", answer.stderr)
        with tempfile.TemporaryDirectory() as folder:
            slow = Path(folder, "slow.nova")
            slow.write_text("cpus 2\nram 0\nconsoles 0\nroot 0 0 1 10\nimage 0 asm\nli x5, 1000\nback:\naddi x5, x5, -1\nbne x5, x0, back\nebreak\nend\n")
            answer = orders("expect", str(slow), "--switches", "0", "--always", "run quiet")
            told = f"orders: {slow} takes {self.rounds_of(str(slow)):,} turns in rounds; an order may have {2 * self.rounds_of(str(slow)):,} (--turns)\n"
            self.assertEqual((answer.returncode, answer.stderr.startswith(told)), (0, True), answer.stderr)
            answer = orders("expect", str(slow), "--always", "run open")
            self.assertEqual((answer.returncode, ": --random N tries N\n" in answer.stderr.splitlines(True)[0]), (1, True), answer.stderr)

    def rounds_of(self, scenario: str) -> int:
        """The turns that a scenario takes in rounds."""
        with opened(Path(scenario)) as (program, _):
            found = program.rounds(1_000_000)
        assert found is not None
        return found

    def test_the_text_of_a_console(self) -> None:
        race = str(EXAMPLES / "race.nova")
        answer = orders("expect", race, "--switches", "2", "--always", "console:^[12]$", "--never", "console:3")
        self.assertEqual((answer.returncode, answer.stdout), (0, ""), answer.stderr)
        answer = orders("expect", race, "--switches", "2", "--never", "console:1")
        self.assertEqual((answer.returncode, answer.stdout), (1, "0 24\n1 18\n0 12\n"))
        self.assertIn("'console:1' is there", answer.stderr)

    def test_refusals(self) -> None:
        race, lost = str(EXAMPLES / "race.nova"), str(EXAMPLES / "race.order")
        with tempfile.TemporaryDirectory() as folder:
            idle, faulty, spoilt = Path(folder, "idle.order"), Path(folder, "faulty.order"), Path(folder, "spoilt.nova")
            idle.write_text("1 1\n")
            faulty.write_text("0 1\n0 1\n")
            spoilt.write_text("cpus 9\n")
            for words, line in (
                (["explore", "missing.nova"], "orders: missing.nova: No such file or directory"),
                (["explore", folder], f"orders: {folder} is a folder"),
                (["explore", str(spoilt)], f"nova: scenario line 1: Range\norders: {spoilt} was not run"),
                (["explore", race, "--program", "missing"], "orders: missing: No such file or directory"),
                (["explore", race, "--random", "1", "--weights", "1"], "orders: --weights has 1 number, the scenario 2 processors"),
                (["shrink", race, "missing.order", "--keep", "x"], "orders: missing.order: No such file or directory"),
                (["shrink", race, str(faulty), "--keep", "x"], "orders: nova: order line 2: NotMerged"),
                (["shrink", race, str(idle), "--keep", "x"], f"orders: {idle}: in line 1 the processor is idle; perhaps it is an order of another program"),
                (["shrink", race, lost, "--keep", "x$"], f"orders: {lost}: the report has nothing that matches 'x$'"),
            ):
                with self.subTest(words):
                    answer = orders(*words)
                    self.assertEqual((answer.returncode, answer.stdout, answer.stderr), (3, "", f"{line}\n"))
        for words in (["expect", race], ["explore", race, "--lengths", "5"], ["explore", race, "--seed", "2"], ["explore", race, "--weights", "1,2"]):
            answer = orders(*words)
            self.assertEqual((answer.returncode, answer.stdout), (2, ""))
            self.assertIn("wanted", answer.stderr)

    def test_wrong_words(self) -> None:
        wrong = "--by colour", "--by match:(", "--by events:fall", "--turns 0", "--lengths 5-4", "--weights 1,-1", "--random x"
        for words in (*(f"explore a.nova {more}" for more in wrong), "expect a.nova --never (", "shrink a.nova a.order", "find a.nova"):
            with self.subTest(words), redirect_stderr(StringIO()) as said, self.assertRaises(SystemExit) as ended:
                parser().parse_args(words.split())
            self.assertEqual(ended.exception.code, 2)
            self.assertRegex(said.getvalue(), r"\Aorders.*: .*; --help lists the words\n\Z")


class Parts(unittest.TestCase):
    """Orders and outcomes as values."""

    MINE = (Block(0, 3), Block(1, 2), Block(0, 1))

    def test_orders(self) -> None:
        self.assertEqual(text_of(self.MINE), "0 3\n1 2\n0 1\n")
        self.assertEqual(merged((Block(0, 1), Block(1, 0), Block(0, 2), *self.MINE[1:])), self.MINE)
        self.assertEqual(first_turns(self.MINE, 4), (Block(0, 3), Block(1, 1)))
        self.assertEqual([last_turn(self.MINE, cpu) for cpu in range(3)], [6, 5, 0])
        self.assertLess(plainness((Block(0, 9),)), plainness((Block(0, 1), Block(1, 1))))
        self.assertLess(plainness((Block(1, 8),)), plainness((Block(0, 9),)))

    def test_where_orders_part(self) -> None:
        self.assertIsNone(parting(self.MINE, self.MINE))
        self.assertEqual(parting(self.MINE, (Block(0, 4), Block(1, 2))), Parting(4, 2, 1, 0))
        self.assertEqual(parting((Block(0, 4), Block(1, 2)), self.MINE), Parting(4, 1, 0, 1))
        self.assertEqual(parting(self.MINE, self.MINE[:2]), Parting(6, 3, 0, None))
        self.assertEqual(parting(self.MINE[:2], self.MINE), Parting(6, 3, None, 0))
        self.assertEqual(parting((Block(1, 1),), self.MINE), Parting(1, 1, 1, 0))

    def test_outcomes(self) -> None:
        report = (EXAMPLES / "semaphores.report").read_text()
        for text, wanted in (
            ("end,consoles", ("run quiet", "console 0 4f6921")),
            ("semaphores", ("sm 3 1 0", "sm 4 0 0")),
            ("states", ("ec 1 global dead", "ec 5 local parked", "ec 7 global dead")),
            ("events:sent,died", ("at - 1 7 sent 0 5", "at - 0 1 died 7 0", "at - 1 7 died 7 0")),
            ("match:^run \\w+", ("run quiet",)),
            ("match:^sm (\\d) (\\d)", ("3 1", "4 0")),
        ):
            with self.subTest(text):
                self.assertEqual(outcome_of(report, aspects_of(text)), wanted)
        found = [Sought.of(text).is_in(report) for text in ("^console 0 4f", "console:^Oi!$", "console:4f", "console:Oi$")]
        self.assertEqual(found, [True, True, False, False])


__all__ = ["AnyExecutor", "Cluster"]

if __name__ == "__main__":
    for word in ("--program", "--stays"):
        if sys.argv[1:2] == [word]:
            MEANS += sys.argv[1:3]
            del sys.argv[1:3]
    unittest.main(module="__main__")
