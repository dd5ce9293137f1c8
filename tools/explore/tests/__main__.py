"""The tests of the explorer: kept answers, whose orders are replayed; and random scenarios, of which all orders are enumerated by other means.

python3 tools/explore/tests [--program FILE] [--nova FILE] [--debug FILE] [--random N] [--first SEED] [--write] [NAME..]

--write has the program answer the questions of examples/*.explore and examples/explore/*.explore anew, after a change that is meant.
"""

from __future__ import annotations

import argparse
import shutil
import subprocess
import sys
import tempfile
import unittest
from pathlib import Path

from enumerated import Compared, by_each_order, compared
from kept import faults_of, files, read_kept, text_of, write
from small import Scenario
from where import EXAMPLES, TOOL, Replayer, asked, ended, find, there

from answers import Unread, read_answer
from questions import reported
from variables import NoSymbol, frame_of

# The compiler that the kept scenarios were made with. Another may write other bytes.
KEPT_BY = "12.2.0"

# How many random scenarios are enumerated in the gate.
RANDOM = 10

# Two programs that each add to a word, after which the second one shows it.
ADDING = ("lw", 6, 0x400), ("add", 6, 1), ("sw", 6, 0x400)
RACE = Scenario(((*ADDING, ("ebreak", 0, 0)), (*ADDING, ("lw", 6, 0x400), ("show", 6, 8), ("ebreak", 0, 0))), (1, 0), (1000, 1000))


class Means:
    """The programs that are tried, and how much."""

    program: Path
    nova: Path
    debug: Path | None
    random = RANDOM
    first = 1


class Kept(unittest.TestCase):
    """The kept answers of the examples."""

    def test_answers_are_those_that_are_kept(self) -> None:
        with tempfile.TemporaryDirectory() as folder:
            replayer = Replayer(Means.nova, Means.debug, Path(folder))
            self.assertTrue(files())
            for file in files():
                with self.subTest(file.name):
                    self.assertEqual(faults_of(file, Means.program, replayer), [])


class Enumerated(unittest.TestCase):
    """Random scenarios, of which all orders are gone along one by one."""

    def test_outcomes_are_those_of_all_orders(self) -> None:
        with tempfile.TemporaryDirectory() as folder:
            done = compared(Means.first, Means.random, Means.program, Replayer(Means.nova, Means.debug, Path(folder)))
        print(f"{done.scenarios} scenarios, {done.orders:,} orders, {done.several} scenarios with several outcomes")
        self.assertEqual(done.faults, [])

    def test_outcomes_of_a_driver_are_those_of_each_order(self) -> None:
        """Of a driver with a source and a deadline, and of another example: each order is run by itself."""
        for name in ("explore/device", "processors"):
            with self.subTest(name), tempfile.TemporaryDirectory() as folder:
                scenario = EXAMPLES / f"{name}.nova"
                wanted = by_each_order(scenario, Replayer(Means.nova, Means.debug, Path(folder)))
                _, answer = asked(Means.program, scenario, ["ends"])
                self.assertEqual({tuple(map(reported, outcome.lines)) for outcome in answer.outcomes or ()}, wanted)


class Wrong(unittest.TestCase):
    """Explorers that go wrong, each of which is found out: what the right one writes is changed."""

    def folder(self) -> Path:
        """A folder that is gone when the test is over."""
        made = tempfile.TemporaryDirectory()
        self.addCleanup(made.cleanup)
        return Path(made.name)

    def wrong(self, edit: str) -> tuple[Path, Replayer]:
        """An explorer whose answers are changed by an edit of sed."""
        folder = self.folder()
        program = folder / "wrong"
        program.write_text(f"#!/bin/sh\n'{Means.program.resolve()}' \"$@\" >{folder}/said\nend=$?\nsed '{edit}' {folder}/said\nexit $end\n")
        program.chmod(0o755)
        return program, Replayer(Means.nova, Means.debug, folder)

    def test_outcomes_that_are_wrong_are_found(self) -> None:
        for edit, said in (
            ("s/^ends 2/ends 1/; /^end 2 /,$d", "not told: "),
            ("s/^console 0 ../console 0 77/", "told, though no order ends so: "),
            ("s/^sm 3 ./sm 3 9/", "the report of the order that is told has "),
            ("$d", "the run isn't over after the order that is told"),
        ):
            with self.subTest(edit):
                program, replayer = self.wrong(edit)
                done = Compared()
                done.add(RACE, program, replayer)
                self.assertTrue(any(said in fault for fault in done.faults), done.faults)

    def test_the_right_one_is_right(self) -> None:
        program, replayer = self.wrong("")
        done = Compared()
        done.add(RACE, program, replayer)
        self.assertEqual((done.faults, done.several), ([], 1))

    def test_kept_answers_that_are_wrong_are_found(self) -> None:
        for name, edit, said in (
            ("race", "s/^states .*/states 7/", "'states 7' in place of 'states 329'"),
            ("race", "s/^end 2 /end 3 /", "outcome 2 is wanted"),
            ("race", "s/^0 4$/0 3/", "the report of the order that is told doesn't say so"),
            ("mutex", "s/^never all/never within 9/", "status 0, where its answer has 9"),
        ):
            with self.subTest(edit):
                found = faults_of(EXAMPLES / f"{name}.explore", *self.wrong(edit))
                self.assertTrue(any(said in fault for fault in found), found)

    def test_no_answers(self) -> None:
        for text in ("", "found\n", "never\nstates 1\n", "never all\nstates x\n", "never all\nstates 1\n0 1\n", "ends 1 all\nstates 3\nend 1 states 1\n"):
            with self.subTest(text), self.assertRaises(Unread):
                read_answer(text)

    def test_kept_files_are_read_and_written(self) -> None:
        for file in files():
            self.assertEqual(text_of(*read_kept(file.read_text())), file.read_text())


# Words behind the program, and how it ends: its status, and its line on standard error.
USAGE = "usage: nova_explore SCENARIO [--turns N] [--states N] QUESTION [WORD ..]"
REFUSED = (
    ("", 2, USAGE),
    ("race.nova", 2, USAGE),
    ("race.nova end", 2, USAGE),
    ("race.nova ends 1", 2, USAGE),
    ("race.nova dies x", 2, USAGE),
    ("race.nova stuck", 2, USAGE),
    ("race.nova console 0 3", 2, USAGE),
    ("race.nova word 0 4093 1", 2, USAGE),
    ("race.nova stores 0 8 7", 2, USAGE),
    ("race.nova stores 0 0 4096", 2, USAGE),
    ("race.nova hangs", 2, USAGE),
    ("race.nova hangs 0", 2, USAGE),
    ("race.nova word 0 0 0x100000000", 2, USAGE),
    ("race.nova ends --turns 0", 2, USAGE),
    ("race.nova ends --turns 10000001", 2, USAGE),
    ("race.nova ends --states 100000001", 2, USAGE),
    ("nosuch.nova ends", 3, "read fault"),
    ("/dev/null ends", 4, "scenario line 1: Missing"),
    ("race.nova console 1 31", 5, "the scenario has no such console or frame"),
    ("race.nova word 2 0 0", 5, "the scenario has no such console or frame"),
    ("race.nova stores 2 0 0", 5, "the scenario has no such console or frame"),
)


class Ends(unittest.TestCase):
    """How the program ends, but for answers."""

    def ended(self, line: str) -> tuple[int, str, str]:
        """How the lines of a shell end, which call the program as $0: the status, and what is written to both."""
        words = ["sh", "-c", line, str(Means.program.resolve())]
        done = subprocess.run(words, cwd=EXAMPLES, capture_output=True, text=True, check=False)
        return done.returncode, done.stdout, done.stderr

    def test_what_is_refused(self) -> None:
        for words, status, line in REFUSED:
            with self.subTest(words):
                self.assertEqual(self.ended(f'exec "$0" {words}'), (status, "", f"nova_explore: {line}\n"))

    def test_what_is_not_written_and_memory_that_is_refused(self) -> None:
        self.assertEqual(self.ended('exec "$0" race.nova ends >/dev/full'), (6, "", "nova_explore: write fault\n"))
        self.assertEqual(self.ended('ulimit -v 9000; exec "$0" revoking.nova ends'), (8, "", "nova_explore: out of memory\n"))

    def test_options_stand_anywhere(self) -> None:
        for words in ("--turns 30 race.nova blocked", "race.nova --turns=30 blocked", "race.nova blocked --turns 0x1e", "/dev/stdin blocked --turns 30 <race.nova"):
            with self.subTest(words):
                self.assertEqual(self.ended(f'exec "$0" {words}'), (9, "never within 30\nstates 67\n", ""))


class Asking(unittest.TestCase):
    """Runs of the tool."""

    def explored(self, *words: str) -> subprocess.CompletedProcess[str]:
        """A run of the tool, in a folder of its own."""
        made = tempfile.TemporaryDirectory()
        self.addCleanup(made.cleanup)
        means = ["--program", str(Means.program.resolve()), "--nova", str(Means.nova.resolve())]
        return subprocess.run([sys.executable, str(TOOL), *means, *words], cwd=made.name, capture_output=True, text=True, check=False)


class Tool(Asking):
    """The tool: sentences, tables, and what is refused."""

    def test_answers_are_told(self) -> None:
        for words, status, said in (
            (("race.nova", "ends"), 0, "2 outcomes; each order that ends a run, however long, ends it in one of them (329 states)"),
            (("hello.nova", "ends"), 0, "1 outcome; each order that ends a run, however long, ends it so"),
            (("race.nova", "text", "0", "1"), 1, "after 50 turns in 5 lines: race.orders/found.order"),
            (("mutex.nova", "text", "0", "1"), 0, 'console 0 shows "1" first in no order, however long'),
            (("race.nova", "--turns", "30", "text", "0", "1"), 9, "in no order of at most 30 turns; nothing is known of longer ones"),
            (("race.nova", "--turns", "9", "stuck", "99"), 9, "\n  EC 99 is never there\n"),
            (("race.nova", "dies", "but", "1"), 1, "an execution context but EC 1 dies after "),
            (("race.nova", "dies", "but", "99"), 1, "an execution context but EC 99 dies after "),
            (("explore/peterson.nova", "at", "0", "0x80", "0", "0x170"), 0, "domain 0 is about to execute 0x80 and domain 0 0x170 in no order, however long"),
            (("explore/pulse.nova", "--turns", "60", "hangs", "60"), 1, "the run hangs for 60 turns after 23 turns in 1 line: "),
            (("explore/locks_crossed.nova", "hangs", "30", "7"), 1, "EC 7 hangs for 30 turns after 45 turns in 2 lines: "),
            (("explore/locks_crossed.nova", "blocked"), 1, "the run ends and an execution context waits after 47 turns "),
            (("explore/locks_crossed.nova", "ends"), 0, "blocked SM 4"),
            (("race.nova", "stores", "0", "0", "0x3"), 0, "a turn stores to the bytes 0 to 0x3 of frame 0 in no order, however long"),
            (("race.nova", "--states", "30", "blocked"), 7, "nothing is known of whether the run ends and an execution context waits: there are more"),
            (("race.nova", "--turns", "9", "ends"), 9, "the run ends in no order of at most 9 turns; nothing is known of longer ones"),
            (("race.nova", "--states", "30", "ends"), 7, "0 outcomes, and perhaps more: there are more states than --states allows"),
        ):
            with self.subTest(words):
                told = self.explored(str(EXAMPLES / words[0]), *words[1:])
                self.assertEqual((told.returncode, told.stderr, said in told.stdout), (status, "", True), told.stdout)

    def test_what_is_no_question_is_refused(self) -> None:
        for words, said in (
            (("race.nova", "end"), "'end' is no question"),
            (("race.nova", "blocked", "3"), "blocked wants 0 words behind it, and has 1"),
            (("race.nova", "word", "failed", "1"), "a variable wants one executable: --elf FILE"),
            (("race.nova", "asserts"), "asserts wants one executable: --elf FILE"),
            (("race.nova", "--elf", "nosuch.elf", "asserts"), "nosuch.elf: No such file or directory"),
            (("race.nova", "--elf", str(EXAMPLES / "race.nova"), "asserts"), "race.nova is no executable of 32 bits"),
            (("race.nova", "--turns", "0", "ends"), "--turns: 0 is not from 1 to 10,000,000"),
            (("race.nova", "--states", "many", "ends"), "--states: 'many' is no number"),
            (("race.nova", "word", "0", "4093", "1"), "OFFSET: 4,093 is not from 0 to 4,092"),
            (("race.nova", "word", "0", "0", "1x"), "VALUE: '1x' is no number"),
            (("race.nova", "stores", "0", "8", "7"), "FIRST stands behind LAST"),
            (("race.nova", "stores", "counter"), "a variable wants one executable: --elf FILE"),
            (("race.nova", "hangs", "0"), "TURNS: 0 is not from 1 to 10,000,000"),
            (("race.nova", "dies", "adder"), "adder is no number, and names no execution context that is there after a run by rounds"),
            (("race.nova", "word", "77", "0", "1"), "nova_explore: the scenario has no such console or frame"),
            (("nosuch.nova", "ends"), "No such file or directory"),
        ):
            with self.subTest(words):
                told = self.explored(str(EXAMPLES / words[0]), *words[1:])
                self.assertEqual((told.returncode, told.stdout, said in told.stderr), (3, "", True), told.stderr)

    def test_programs_that_are_missing_are_named(self) -> None:
        """A tree in which nothing is built: a line for each program says how it is built, and how long that takes."""
        with tempfile.TemporaryDirectory() as folder:
            for name in ("build", "draft", "explore", "picture"):
                shutil.copytree(TOOL.parent / name, Path(folder, "tools", name))
            shutil.copy(TOOL.parents[1] / "crates.txt", folder)
            words = [sys.executable, f"{folder}/tools/explore", str(EXAMPLES / "race.nova"), "ends"]
            told = subprocess.run(words, cwd=folder, capture_output=True, text=True, check=False)
            self.assertEqual((told.returncode, told.stdout), (3, ""))
            for line, name in zip(told.stderr.splitlines(), ("nova_explore", "nova"), strict=True):
                self.assertRegex(line, rf"^explore: {name} is not built: `python3 tools/build.*` builds it, in \d+ to \d+ minutes .*`./nova draft")


@unittest.skipIf(shutil.which("riscv64-unknown-elf-gcc") is None, "the compiler isn't installed")
class InC(Asking):
    """A program in C: its variables and assertions by their names."""

    folder: Path

    @classmethod
    def setUpClass(cls) -> None:
        cls.folder = Path(cls.enterClassContext(tempfile.TemporaryDirectory()))

    def built(self, *words: str, source: Path = EXAMPLES / "explore/queue.c") -> tuple[str, list[str]]:
        """A scenario of a program, and the words that name its executable, where it is built with --debug. It is built once."""
        c, scenario = TOOL.parent / "c", self.folder / "".join(words) / f"{source.stem}.nova"
        if not scenario.is_file():
            scenario.parent.mkdir(exist_ok=True)
            command = [c / "build.sh", *words, f"-I{c / 'examples'}", "--cpus", "2", source, scenario, "3"]
            subprocess.run([*map(str, command)], check=True, capture_output=True)
        return str(scenario), ["--elf", str(scenario.with_suffix(".elf"))]

    def test_kept_scenarios_are_of_this_source(self) -> None:
        version = subprocess.run(["riscv64-unknown-elf-gcc", "-dumpfullversion"], capture_output=True, text=True, check=True).stdout.strip()
        if version != KEPT_BY:
            self.skipTest(f"the compiler is {version}, and they were made with {KEPT_BY}")
        for name, words in (("queue", []), ("queue_early", ["-DEARLY"])):
            self.assertEqual(Path(self.built(*words)[0]).read_text(), (EXAMPLES / f"explore/{name}.nova").read_text())

    def test_assertions(self) -> None:
        scenario, elf = self.built("--debug", "-O2")
        told = self.explored(scenario, *elf, "asserts")
        self.assertEqual((told.returncode, told.stderr), (0, ""))
        self.assertIn("queue.nova: an assertion fails in no order, however long", told.stdout)
        told = self.explored(scenario, *elf, "stores", "taken")
        self.assertEqual((told.returncode, told.stderr), (1, ""))
        self.assertIn("queue.nova: a turn stores to taken after ", told.stdout)
        scenario, elf = self.built("--debug", "-O2", "-DEARLY")
        told = self.explored(scenario, *elf, "asserts")
        self.assertEqual((told.returncode, told.stderr), (1, ""))
        self.assertIn("queue.nova: an assertion fails after ", told.stdout)
        self.assertIn("\n  EC 12 (CONSUMER): queue.c:62: item == taken + 1\n", told.stdout)

    def test_an_assertion_that_failed_is_explained(self) -> None:
        """In the kept order, at whose end the thread is to end by ebreak."""
        scenario, elf = self.built("--debug", "-O2", "-DEARLY")
        kept, _ = read_kept((EXAMPLES / "explore/queue_early.explore").read_text())
        with tempfile.TemporaryDirectory() as folder:
            report = Path(folder, "failed.report")
            report.write_text(Replayer(Means.nova, None, Path(folder)).report(Path(scenario), read_answer(kept[0].answer).order or ""))
            told = subprocess.run([sys.executable, TOOL.parent / "explain", report, *elf], capture_output=True, text=True, check=True)
        self.assertIn("in consumer (queue.c:62), by nova_fail, since an assertion failed: queue.c:62: item == taken + 1.\n", told.stdout)

    def test_names(self) -> None:
        scenario, elf = self.built("--debug", "-O2")
        told = self.explored(scenario, *elf, "--words")
        self.assertEqual((told.returncode, told.stderr), (0, ""))
        for line in ("taken *4 *2 *0x0", "slots *8 *2 *0xc", "nova_failed *4 *2 *0x14", "12 *dead *CONSUMER"):
            self.assertRegex(told.stdout, rf"(?m)^  {line}$")
        self.assertNotIn("stack", told.stdout)
        told = self.explored(scenario, *elf, "--turns", "460", "dies", "CONSUMER")
        self.assertEqual((told.returncode, told.stderr), (9, ""))

    def test_what_has_no_name(self) -> None:
        scenario, (_, elf) = self.built("--debug", "-O2")
        first, second = frame_of("slots", Path(elf)), frame_of("slots+4", Path(elf))
        self.assertEqual((second[0], second[1]), (first[0], first[1] + 4))
        for words in ("slots+8", "nosuch", "1x"):
            with self.assertRaises(NoSymbol):
                frame_of(words, Path(elf))
        with self.assertRaises(NoSymbol):
            frame_of("taken", Path(scenario))
        told = self.explored(scenario, "--elf", elf, "word", "nosuch", "1")
        self.assertEqual((told.returncode, told.stderr), (3, f"explore: {elf} has no variable nosuch; --words lists those that have names\n"))

    def test_an_executable_of_another_scenario_is_refused(self) -> None:
        """Its variables may lie elsewhere, and an answer about them would be one about nothing."""
        scenario, _ = self.built("--debug", "-O2")
        guest, (_, elf) = self.built("--debug", "--guest", source=TOOL.parent / "c/crc.c")
        _, (_, other) = self.built("--debug", "-O2", "-DEARLY")
        for asked, named in ((scenario, other), (guest, elf.replace(".elf", ".guest.elf"))):
            for words in (["asserts"], ["word", "taken", "1"], ["--words"]):
                told = self.explored(asked, "--elf", named, *words)
                self.assertEqual((told.returncode, told.stdout), (3, ""))
                self.assertIn(f"explore: {named} isn't what {asked} has at 0x1000: ", told.stderr)
        self.assertEqual(self.explored(guest, "--elf", elf, "--words").returncode, 0)

    def test_a_program_without_assertions(self) -> None:
        scenario, elf = self.built("--debug", source=TOOL.parent / "c/examples/counter.c")
        told = self.explored(scenario, *elf, "asserts")
        self.assertEqual((told.returncode, told.stderr), (3, f"explore: {elf[1]} has no nova_assert that may fail\n"))


def main(words: list[str]) -> int:
    """Runs the tests that are named, or all. The status is 1 where one fails."""
    parser = argparse.ArgumentParser(prog="explore/tests", description="Tries kept answers, and enumerates the orders of random scenarios.")
    parser.add_argument("--program", type=Path, metavar="FILE", help="the explorer (nova_explore of the repository)")
    parser.add_argument("--nova", type=Path, metavar="FILE", help="what replays orders (nova of the repository)")
    parser.add_argument("--debug", type=Path, metavar="FILE", help="what tells of memory (nova_debug of the repository, if it is built)")
    parser.add_argument("--random", type=int, default=RANDOM, metavar="N", help=f"how many random scenarios ({RANDOM})")
    parser.add_argument("--first", type=int, default=1, metavar="SEED", help="the seed of the first of them (1)")
    parser.add_argument("--write", action="store_true", help="write the kept answers anew, and try nothing")
    parser.add_argument("names", nargs="*", metavar="NAME", help="the tests to run")
    given = parser.parse_args(words)
    Means.program, Means.nova = given.program or find("nova_explore"), given.nova or find("nova")
    Means.debug = given.debug or (None if given.nova else there("nova_debug"))
    Means.random, Means.first = given.random, given.first
    if given.write:
        for file in files():
            write(file, Means.program)
        return 0
    return 0 if unittest.main(argv=["tests", *given.names], exit=False).result.wasSuccessful() else 1


if __name__ == "__main__":
    sys.exit(ended("explore/tests", lambda: main(sys.argv[1:])))
