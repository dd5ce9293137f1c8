"""The tests of the replays: programs that go wrong are found out.

python3 tools/replays/tests
"""

from __future__ import annotations

import subprocess
import sys
import tempfile
import unittest
from pathlib import Path

TOP = Path(__file__).resolve().parents[1]
sys.path.insert(0, str(TOP))

from replay import Replay, Verdict, not_by_threads, processors_of, replay  # noqa: E402
from scenarios import random_scenario  # noqa: E402

# A program that reports the order that it takes: the host's, `0 2`, `1 1`, or the one of the file that is named, or else round robin. The first word
# of `solo` with an order is `solo S O`. {run} is done in a run, after ORDER was written.
PROGRAM = """#!/bin/sh
if [ "$1" = run ]; then
  printf '0 2\\n1 1\\n' >>"$3"
  {run}
elif [ "$3" != --limit ]; then
  cat "$3"
else
  printf '0 1\\n1 1\\n0 1\\n'
fi
echo 'nova: not quiet' >&2
exit 7
"""

# What a run does, and in what it then differs.
CASES = (
    ('cat "$3"', ""),
    ("printf '0 1\\n1 1\\n0 1\\n'", "line 1 of the report: '0 1', and again '0 2'"),
    ('cat "$3"; printf "0 2\\n" >"$3"', "one report is longer"),
    ('cat "$3"; exit 0', "status 0 '', and again 7 'nova: not quiet'"),
    ('rm "$3"; echo "nova: write fault" >&2; exit 6', "status 6 'nova: write fault', and again 7 'nova: not quiet'"),
)

# A program that finds a fault in each scenario, and one that has appended an order before.
REFUSING = "#!/bin/sh\n{run}\necho 'nova: scenario line 1: Missing' >&2\nexit 4\n"


class Replays(unittest.TestCase):
    """What is said of programs."""

    def replayed(self, text: str) -> Replay:
        """What is said of a program with this text."""
        with tempfile.TemporaryDirectory() as folder:
            program, order = Path(folder, "program"), Path(folder, "order")
            program.write_text(text, "ascii")
            program.chmod(0o755)
            return replay(str(program), Path(folder, "scenario"), order, 5, 1)

    def test_a_run_that_is_not_its_order_is_found(self) -> None:
        for run, said in CASES:
            with self.subTest(run):
                one = self.replayed(PROGRAM.replace("{run}", run))
                self.assertEqual((one.verdict, one.said), (Verdict.DIFFERENT if said else Verdict.SAME, said))

    def test_blocks_and_turns_are_counted(self) -> None:
        one = self.replayed(PROGRAM.replace("{run}", 'cat "$3"'))
        self.assertEqual((one.blocks, one.turns), (2, 3))

    def test_a_scenario_with_a_fault_has_no_order(self) -> None:
        refused = self.replayed(REFUSING.replace("{run}", ""))
        self.assertEqual(refused.verdict, Verdict.REFUSED)
        appended = self.replayed(REFUSING.replace("{run}", '[ "$1" = solo ] || echo 0 1 >"$3"'))
        self.assertEqual((appended.verdict, appended.said), (Verdict.DIFFERENT, "an order of no run"))

    def test_a_run_that_hangs_is_found(self) -> None:
        one = self.replayed(PROGRAM.replace("{run}", "exec sleep 60"))
        self.assertEqual((one.verdict, one.said), (Verdict.DIFFERENT, "not done after 1 s"))

    def test_runs_that_are_not_by_threads_are_found(self) -> None:
        one, mixed, rounds = (Replay(Verdict.SAME, blocks, 9, by_rounds) for blocks, by_rounds in ((1, False), (4, False), (9, True)))
        refused = Replay(Verdict.REFUSED)
        for seen, said in (
            ([(1, one), (2, mixed)], ""),
            ([(2, one), (2, rounds), (2, mixed)], ""),
            ([(1, one), (1, one), (8, refused)], ""),
            ([(1, one), (2, one), (8, one)], "scenarios with several processors: 2, orders of several blocks: 0"),
            ([(2, rounds), (4, rounds), (2, one)], "orders of several blocks: 2, and each is that of rounds"),
            ([(2, mixed), *[(4, rounds)] * 4], ""),
            ([(2, mixed), *[(4, rounds)] * 5], "4 processors: orders of several blocks: 5, and each is that of rounds"),
            ([(2, mixed), *[(8, one)] * 5], "8 processors: scenarios with several processors: 5, orders of several blocks: 0"),
        ):
            with self.subTest(said):
                self.assertEqual(not_by_threads(seen), said)

    def test_an_order_of_rounds_is_told(self) -> None:
        rounds = "printf '0 1\\n1 1\\n0 1\\n' >\"$3\"; cat \"$3\""
        self.assertTrue(self.replayed(PROGRAM.replace("{run}", rounds)).is_by_rounds)
        self.assertFalse(self.replayed(PROGRAM.replace("{run}", 'cat "$3"')).is_by_rounds)

    def test_each_scenario_is_run_so_many_times(self) -> None:
        with tempfile.TemporaryDirectory() as folder:
            program = Path(folder, "program")
            program.write_text("#!/bin/sh\n[ $1 = solo ] || echo 0 7 >>$3\necho run quiet 7\n", "ascii")
            program.chmod(0o755)
            Path(folder, "small.nova").write_text("cpus 1\n", "ascii")
            words = [sys.executable, str(TOP), "--times", "3", "--program", str(program), "--keep", f"{folder}/kept", folder]
            answer = subprocess.run(words, capture_output=True, text=True, check=False)
            self.assertEqual(answer.stdout, "3 same, 0 different, 0 refused; 0 orders of several blocks, at most 1; 21 turns\n")
            self.assertEqual(len(list(Path(folder, "kept").glob("small*.order"))), 3)

    def test_processors_are_counted(self) -> None:
        for text, cpus in (("ram 0\n cpus 0x4 # four\n", 4), ("cpus 008\n", 8), ("# cpus 2\nram 1\n", 0)):
            self.assertEqual(processors_of(text), cpus)

    def test_the_status_is_1_where_nothing_was_by_threads(self) -> None:
        for cpus, status in ((1, 0), (2, 1)):
            with tempfile.TemporaryDirectory() as folder:
                program = Path(folder, "program")
                program.write_text("#!/bin/sh\n[ $1 = solo ] || echo 0 7 >>$3\necho run quiet 7\n", "ascii")
                program.chmod(0o755)
                Path(folder, "small.nova").write_text(f"cpus {cpus}\n", "ascii")
                words = [sys.executable, str(TOP), "--program", str(program), "--keep", f"{folder}/kept", folder]
                answer = subprocess.run(words, capture_output=True, text=True, check=False)
                said = "not by threads: scenarios with several processors: 1, orders of several blocks: 0\n" if status else ""
                self.assertEqual((answer.returncode, answer.stderr), (status, said))


class Scenarios(unittest.TestCase):
    """The random scenarios."""

    def test_a_seed_gives_one_scenario(self) -> None:
        self.assertEqual(random_scenario(7), random_scenario(7))
        self.assertNotEqual(random_scenario(7), random_scenario(8))

    def test_sources_and_deadlines_are_among_them(self) -> None:
        texts = [random_scenario(seed) for seed in range(1, 101)]
        self.assertGreater(sum("\nsource " in text for text in texts), 30)
        self.assertGreater(sum("li x11, 2\nli x12, 30\necall" in text for text in texts), 10)


if __name__ == "__main__":
    unittest.main()
