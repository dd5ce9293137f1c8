"""The tests of a run that is gone through.

python3 tools/debug/tests [--program FILE] [--nova FILE] [--random N] [--write] [NAME..]
python3 tools/debug/tests --times [--program FILE] [--nova FILE]

They compare `nova_debug` with the reports of `nova solo`, and what gdb says with what stands beside this file; --write writes that anew. With
--times a table is printed of how long things take, on a machine that has nothing else to do.
"""

from __future__ import annotations

import argparse
import os
import re
import shutil
import subprocess
import sys
import tempfile
import unittest
from collections import Counter
from itertools import groupby
from pathlib import Path
from random import Random

HERE = Path(__file__).resolve().parent
TOOL = HERE.parent
TOP = TOOL.parents[1]
sys.path.insert(0, str(TOOL))
sys.path.insert(1, str(TOP / "tools" / "replays"))
sys.path.insert(2, str(TOP / "tools" / "build"))

from access import Access  # noqa: E402
from backend import BYTES, OWN_PAGE, PAGE, BackEnd, Event, Refused, Slice  # noqa: E402
from built import Missing, find  # noqa: E402
from decoded import decoded  # noqa: E402
from scenarios import random_scenario  # noqa: E402
from times import print_times  # noqa: E402

# What the tests are made with, and how many random scenarios there are; each may take so many turns. Loads and stores of so many are compared.
COUNT, LIMIT, ACCESSED = 40, 2000, 300
TOLD = ("ec", "sm", "console", "cap")
GDB, COMPILER = "gdb-multiarch", "riscv64-unknown-elf-gcc"

given = argparse.Namespace(program=None, nova=None, random=COUNT, write=False)


def state_of(back: BackEnd) -> list[str]:
    """What is told of the present state, as a report has it."""
    return [line for words in ("contexts", "semaphores", "consoles", "delegations") for line in back.ask(words)]


def report_of(*words: str) -> list[str]:
    """The lines of a report of `nova solo`."""
    return subprocess.run([str(given.nova), "solo", *words], capture_output=True, text=True, check=False).stdout.splitlines()


def told_of(report: list[str]) -> list[str]:
    """The lines of a report that tell of execution contexts, semaphores, consoles and delegations."""
    return [line for line in report if line.split()[0] in TOLD]


def ticks_of(report: list[str]) -> dict[int, int]:
    """How many turns each scheduling context was charged for, by a report."""
    ticks = {int(line.split()[1]): int(line.split()[3]) for line in report if line.startswith("sc ")}
    return {payer: turns for payer, turns in ticks.items() if turns}


def paid_of(events: list[Event]) -> dict[int, int]:
    """The same by the events of turns."""
    return dict(sorted(Counter(event.payer for event in events if event.payer).items()))


def slices_of(events: list[Event]) -> list[Slice]:
    """Turns of processors one after another that one pays for and one acts in, by the events of turns."""
    found = []
    for cpu in sorted({event.cpu for event in events}):
        own = [event for event in events if event.cpu == cpu]
        for (payer, actor), same in groupby(own, key=lambda event: (event.payer or None, event.payer and event.actor or None)):
            turns = list(same)
            found.append(Slice(cpu, turns[0].place, turns[-1].place, len(turns), payer, actor))
    return found


class Told(unittest.TestCase):
    """What is told is what reports have."""

    def compare(self, scenario: Path, random: Random) -> None:
        """Compares a run with the report of its order, cut at a turn."""
        back = BackEnd(given.program, scenario, None, LIMIT)
        try:
            turn = random.randrange(1, back.end + 1)
            events = back.events(0, turn)
            blocks = [(cpu, len(list(turns))) for cpu, turns in groupby(event.cpu for event in events)]
            with tempfile.TemporaryDirectory() as folder:
                order = Path(folder, "order")
                order.write_text("".join(f"{cpu} {count}\n" for cpu, count in blocks))
                report = report_of(str(scenario), str(order))
            back.go(turn)
            self.assertEqual(state_of(back), told_of(report), f"{scenario} after {turn} turns")
            self.assertEqual(paid_of(events), ticks_of(report), f"{scenario}: what each scheduling context paid in {turn} turns")
            seen = [f"at {e.place + 1} {e.cpu} {e.actor} {e.kind} {e.a} {e.b}" for e in events if e.kind not in ("step", "tick")]
            self.assertEqual(seen, [line for line in report if line.startswith("at ")], str(scenario))
            self.assertEqual(back.ask("order " + " ".join(f"{cpu} {count}" for cpu, count in blocks)), report, str(scenario))
            self.back_and_forth(back, scenario, random)
        finally:
            back.close()

    def back_and_forth(self, back: BackEnd, scenario: Path, random: Random) -> None:
        """A turn that is gone to by way of others tells what it tells from the beginning."""
        back.keep(random.choice((0, 1, 50_000, 200_000, BYTES)))
        for _ in range(6):
            back.go(random.randrange(back.end + 1))
        turn = back.turn
        fresh = BackEnd(given.program, scenario, None, LIMIT)
        try:
            fresh.go(turn)
            told, wanted = ((state_of(it), it.ask("objects"), it.next()) for it in (back, fresh))
            self.assertEqual(told, wanted, f"{scenario}: {turn}")
        finally:
            fresh.close()

    def test_examples(self) -> None:
        for scenario in sorted((TOP / "examples").glob("*.nova")):
            self.compare(scenario, Random(scenario.name))

    def test_random_scenarios(self) -> None:
        with tempfile.TemporaryDirectory() as folder:
            for seed in range(1, given.random + 1):
                scenario = Path(folder, "scenario.nova")
                scenario.write_text(random_scenario(seed))
                self.compare(scenario, Random(seed))

    def test_lines_that_are_no_commands(self) -> None:
        back = BackEnd(given.program, TOP / "examples/race.nova", TOP / "examples/race.order", LIMIT)
        back.go(7)
        wrong = "", "xyz", "go", "go x", "go 1 2", "break 1", "order 0", "order 0 0", "order 9 1", "stores 1 2", "go 4294967296"
        for line in wrong:
            with self.assertRaises(Refused):
                back.ask(line)
            self.assertEqual(back.ask("at"), ["turn 7 of 54"])
        back.close()

    def test_who_pays_and_who_acts(self) -> None:
        with tempfile.TemporaryDirectory() as folder:
            scenario = Path(folder, "scenario.nova")
            for seed in range(1, 1 + given.random // 4):
                scenario.write_text(random_scenario(seed))
                back = BackEnd(given.program, scenario, None, LIMIT)
                try:
                    told = sorted(back.slices(0, back.end), key=lambda it: (it.cpu, it.first))
                except Refused:
                    self.skipTest("the program tells no slices")
                else:
                    self.assertEqual(told, slices_of(back.events(0, back.end)), f"seed {seed}")
                finally:
                    back.close()

    def test_searches(self) -> None:
        """A search finds what going through the turns one by one finds."""

        def is_load(access: Access | None) -> bool:
            return access is not None and not access.stores and access.address == 0x1000

        back = BackEnd(given.program, TOP / "examples/race.nova", TOP / "examples/race.order", LIMIT)
        for looked_for, met in (
            (["break 0 92", "by 6"], lambda following, access: following[2] == 92 or following[0] == 6),
            (["stores 1 0 3"], lambda following, access: access and access.stores and access.address == 0x1000),
            (["loads 1 2 2", "break 0 0"], lambda following, access: is_load(access) or following[2] == 0),
        ):
            found = []
            for turn in range(back.end):
                back.go(turn)
                following = back.next()
                if following and met(following, self.access(back)):
                    found.append(turn)
            back.go(0)
            forwards = []
            while back.run(looked_for, back.end):
                forwards.append(back.turn)
                back.go(back.turn + 1)
            self.assertEqual(forwards, found)
            back.go(0)
            self.assertEqual(back.last(looked_for, back.end), found[-1])
        back.close()

    def access(self, back: BackEnd) -> Access | None:
        """What the next turn loads or stores, by its instruction's word; none where its event is no step."""
        following = back.next()
        if following is None or back.events(back.turn, back.turn + 1)[0].kind != "step":
            return None
        context = back.contexts()[following[0]]
        found = decoded(int.from_bytes(back.read(context, context.registers[32], 4), "little"), context.registers)
        if found is None:
            return None
        address, width, value = found
        page, offset = divmod(address, PAGE)
        led = None if page == OWN_PAGE and context.kind != "vcpu" else back.page(context.domain, page)
        return Access(address, width, led[0] if led else None, offset, value)

    def test_loads_and_stores(self) -> None:
        """What the program tells of a turn is what its instruction's word says, and of a turn that raises nothing."""
        for scenario in sorted((TOP / "examples").glob("*.nova")):
            back = BackEnd(given.program, scenario, None, LIMIT)
            for turn in range(min(back.end, ACCESSED) + 1):
                back.go(turn)
                self.assertEqual(back.access(), self.access(back) if turn < back.end else None, f"{scenario.name}: turn {turn}")
            back.close()


class Listings(unittest.TestCase):
    """What `trace` lists, and what it doesn't."""

    def listed(self, *words: str) -> subprocess.CompletedProcess[str]:
        """A listing of the race."""
        race = [str(TOP / "examples" / name) for name in ("race.nova", "race.order")]
        command = [sys.executable, str(TOOL), "trace", *race, *words, "--program", str(given.program)]
        return subprocess.run(command, capture_output=True, text=True, check=False)

    def test_stores_to_an_address(self) -> None:
        told = self.listed("--stores", "0x1000").stdout.splitlines()
        self.assertEqual([line.split()[0] for line in told], ["37", "44"])
        self.assertTrue(all(line.endswith("sw x6, 0(x5)  [0x1000]=00000001") for line in told))
        self.assertEqual(self.listed("--stores", "0x1002").stdout.splitlines(), told)
        self.assertEqual(self.listed("--stores", "0x1003", "--ec", "1").stdout.splitlines(), told[1:])
        self.assertEqual(self.listed("--stores", "0x1004").stdout, "")

    def test_no_turns_are_refused(self) -> None:
        for words, status, line in (
            (["--from", "10", "--to", "5"], 2, "debug trace: --from 10 --to 5: no turn lies between them; --help lists the words"),
            (["--from", "-1"], 2, "debug trace: --from -1: is no turn; --help lists the words"),
            (["--limit", "0"], 2, "debug trace: argument --limit: 0 is not 1 or more; --help lists the words"),
            (["--from", "54"], 1, "debug: --from 54: the run has 54 turns"),
            (["--limit", "10000001"], 1, "debug: a run is limited to 1 to 10,000,000 turns"),
        ):
            with self.subTest(words):
                told = self.listed(*words)
                self.assertEqual((told.returncode, told.stdout, told.stderr), (status, "", f"{line}\n"))


@unittest.skipUnless(shutil.which(GDB) and shutil.which(COMPILER), f"{GDB} or {COMPILER} is not installed")
class Gdb(unittest.TestCase):
    """What gdb says in batch mode."""

    maxDiff = None

    def said(self, name: str, work: Path) -> str:
        """What gdb says to a script beside this file, without names of folders."""
        script = work / f"{name}.gdb"
        names = {"work": str(work), "top": str(TOP), "program": str(given.program.resolve())}
        script.write_text((HERE / f"{name}.gdb").read_text().format_map(names))
        words, both = [GDB, "-q", "-nx", "-batch", "-l", "60", "-x", str(script)], subprocess.STDOUT  # a busy machine answers late
        text = subprocess.run(words, stdout=subprocess.PIPE, stderr=both, text=True, check=False, cwd=work, timeout=120).stdout
        for place, word in ((str(work), "WORK"), (os.path.relpath(TOP, work), "TOP"), (str(TOP), "TOP")):
            text = text.replace(place, word)
        return re.sub(r"\n\n+", "\n", text)

    def compare(self, name: str, *commands: list[str]) -> None:
        """Makes what a script wants, and compares what gdb says."""
        with tempfile.TemporaryDirectory() as folder:
            work = Path(folder).resolve()
            for command in commands:
                subprocess.run([word.replace("WORK", str(work)) for word in command], check=True, cwd=TOP)
            said = self.said(name, work)
        wanted = HERE / f"{name}.out"
        if given.write:
            wanted.write_text(said)
        self.assertEqual(said, wanted.read_text())

    def test_a_program_in_c(self) -> None:
        self.compare("sort", ["tools/c/build.sh", "--debug", "tools/c/sort.c", "WORK/sort.nova"])

    def test_a_race(self) -> None:
        self.compare("race", [sys.executable, str(TOOL), "symbols", "examples/race.nova", "WORK/race.elf"])

    def test_a_guest_and_its_monitor(self) -> None:
        self.compare("guest", ["tools/c/build.sh", "--debug", "--guest", "tools/c/words.c", "WORK/guest.nova"])

    def test_again_from_the_beginning_with_several_inferiors(self) -> None:
        self.compare("again", ["tools/c/build.sh", "--debug", "--guest", "tools/c/words.c", "WORK/guest.nova"])


def main() -> None:
    """Runs the tests that are named, or all."""
    words = argparse.ArgumentParser(prog="tests")
    words.add_argument("--program", type=Path, metavar="FILE")
    words.add_argument("--nova", type=Path, metavar="FILE")
    words.add_argument("--random", type=int, default=COUNT, metavar="N")
    words.add_argument("--write", action="store_true")
    words.add_argument("--times", action="store_true")
    _, rest = words.parse_known_args(namespace=given)
    try:
        given.program = given.program or find("nova_debug")
        given.nova = given.nova or find("nova")
    except Missing as why:
        sys.exit(f"tests: {why}")
    if given.times:
        print_times(given)
        return
    unittest.main(argv=[sys.argv[0], *rest], verbosity=1)


if __name__ == "__main__":
    main()
