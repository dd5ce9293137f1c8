"""The tests of the builder, over a repository of four small crates and a kit that only writes down what it is asked.

python3 tools/build/tests [NAME..]
"""

from __future__ import annotations

import os
import shutil
import signal
import subprocess
import sys
import tempfile
import time
import unittest
from pathlib import Path
from unittest import mock

TOOL = Path(__file__).resolve().parents[1]
sys.path.insert(0, str(TOOL))

from children import Children, Ended  # noqa: E402
from endings import Endings  # noqa: E402, F401
from hints import POLICY_HELP, hints, policy_hints  # noqa: E402
import schedule  # noqa: E402
from schedule import Schedule, Start, above, costs, dependencies, in_order, seconds_by  # noqa: E402

CRATES = "# Crates.\nlow:\nlong: low\nshort: low\nnova: long short clap # the program\n"
SECONDS = {"low": 10, "long": 100, "short": 20, "nova": 30}
# What the kit's rt does: it writes down its words and its folder, and takes as long as the test says, with a child of its own.
RT = """#!/bin/sh
echo "$1 $(basename "$PWD")" >>{log}
sleep {seconds} &
echo $! >>{log}.pids
wait $!
[ "$(basename "$PWD")" != {broken} ] || {{ echo 'goal 1 is open'; exit 1; }}
mkdir -p out/rlib/$(basename "$PWD").rlib
cat src/*.rt >out/rlib/stamp
[ "$1" = lib ] || {{ cp src/main.rt out/nova; chmod +x out/nova; shift 2; out/nova "$@"; }}
"""
LIBRARY = """
import os
class Crate:
    def __init__(self, folder):
        self.folder, self.name = folder, os.path.basename(folder)
    def stamp(self):
        return "".join(open(f"{self.folder}/src/{name}").read() for name in sorted(os.listdir(f"{self.folder}/src")))
    def is_built(self):
        kept = f"{self.folder}/out/rlib/stamp"
        return os.path.isfile(kept) and open(kept).read() == self.stamp()
def crates_below(top):
    return [Crate(f"{top}/crates/{name}") for name in sorted(os.listdir(f"{top}/crates"))]
"""


class Repository:
    """A repository and a kit in a folder."""

    def __init__(self, folder: str, seconds: float = 0, broken: str = "none") -> None:
        self.top, self.kit = Path(folder, "top"), Path(folder, "kit")
        self.log = Path(folder, "log")
        shutil.copytree(TOOL, self.top / "tools/build")
        shutil.copytree(TOOL.parent / "draft", self.top / "tools/draft")
        (self.top / "crates.txt").write_text(CRATES)
        (self.top / "HANDLES").write_text("Handles allowed: none.\n")
        for crate in SECONDS:
            source = self.top / "crates" / crate / "src" / ("main.rt" if crate == "nova" else "lib.rt")
            source.parent.mkdir(parents=True)
            source.write_text(f"#!/bin/sh\n# {crate}\necho ran\n")
        (self.top / "tools/build/costs.txt").write_text("".join(f"{crate} {seconds}\n" for crate, seconds in SECONDS.items()))
        (self.kit / "bin").mkdir(parents=True)
        (self.kit / "KIT-ID").write_text("kit one\n")
        (self.kit / "bin/rtlib.py").write_text(LIBRARY)
        (self.kit / "bin/rt").write_text(RT.format(log=self.log, seconds=seconds, broken=broken))
        (self.kit / "bin/rt").chmod(0o755)

    def words(self, *words: str) -> list[str]:
        """A call of the builder."""
        return [sys.executable, str(self.top / "tools/build"), *words]

    def path(self) -> dict[str, str]:
        """The environment in which the kit's rt is found."""
        return os.environ | {"PATH": f"{self.kit / 'bin'}:{os.environ['PATH']}"}

    def build(self, *words: str) -> subprocess.CompletedProcess[str]:
        """Calls the builder."""
        return subprocess.run(self.words(*words), capture_output=True, text=True, env=self.path(), check=False)

    def asked(self) -> list[str]:
        """What rt was asked since the last time."""
        lines = self.log.read_text().splitlines() if self.log.exists() else []
        self.log.unlink(missing_ok=True)
        return lines


def is_there(pid: int) -> bool:
    """Whether a process runs, and is no zombie."""
    try:
        return Path(f"/proc/{pid}/stat").read_text().rsplit(")", 1)[1].split()[0] != "Z"
    except OSError:
        return False


class Schedules(unittest.TestCase):
    """Which crate is next, and how long the rest takes."""

    plan = Schedule.of("nova", dependencies(CRATES), SECONDS, 2, 1)

    def test_the_crates_of_a_program(self) -> None:
        self.assertEqual(in_order("nova", dependencies(CRATES)), ["low", "long", "short"])
        self.assertEqual(list(self.plan.below), ["low", "long", "short", "nova"])

    def test_the_longest_way_to_the_top_comes_first(self) -> None:
        plan = Schedule.of("nova", dependencies(CRATES.replace("long short", "short long")), SECONDS, 2, 1)
        self.assertEqual(plan.ways(), {"low": 140, "long": 130, "short": 50, "nova": 30})
        self.assertEqual(plan.ready(plan.below, set()), ["low"])
        self.assertEqual(plan.ready(["short", "long", "nova"], {"low"}), ["long", "short"])

    def test_what_is_left_counts_the_last_crate_and_what_is_begun(self) -> None:
        self.assertEqual(self.plan.seconds_left([], {}, 1), 140)
        self.assertEqual(self.plan.seconds_left(["low"], {"long": 60}, 1), 90)
        self.assertEqual(self.plan.seconds_left(["low", "long", "short"], {"nova": 50}, 2), 50)
        self.assertEqual(self.plan.minutes_left(["low", "long", "short"], {"nova": 0}, 2), 0)
        alone = Schedule.of("nova", dependencies(CRATES), SECONDS, 1, 1)
        self.assertEqual(alone.seconds_left([], {}, 1), 160)

    def test_a_way_that_is_nearly_the_longest_goes_before_others(self) -> None:
        plan = Schedule.of("nova", dependencies(CRATES), SECONDS | {"short": 75}, 2, 4)
        self.assertEqual(plan.next(["long", "short", "nova"], ["low"], []), {"long": Start(1, True), "short": Start(1, True)})

    def test_the_longest_way_waits_for_no_worker(self) -> None:
        plan = Schedule.of("nova", dependencies(CRATES), SECONDS, 1, 4)
        self.assertEqual(plan.next(["long", "nova"], ["low"], ["short"]), {"long": Start(1, True)})
        self.assertEqual(plan.next(["short", "nova"], ["low"], ["long"]), {})

    def test_the_longest_way_has_the_jobs_that_pay(self) -> None:
        plan = Schedule.of("nova", dependencies(CRATES), SECONDS, 2, 4)
        with mock.patch.dict(schedule.PAYING, {"low": 9, "long": 3}):
            self.assertEqual(plan.next(plan.below, [], []), {"low": Start(4, True)})
            self.assertEqual(plan.next(["long", "short", "nova"], ["low"], []), {"long": Start(3, True), "short": Start(1)})
            self.assertEqual(plan.next(["short", "nova"], ["low", "long"], []), {"short": Start(1, True)})
            self.assertEqual(plan.next(["nova"], ["low", "long", "short"], []), {"nova": Start(1, True)})
            self.assertEqual(plan.seconds_left([], {}, 1), seconds_by(4, 10) + seconds_by(3, 100) + 30)

    def test_a_change_proves_again_what_stands_on_the_crate(self) -> None:
        named = dependencies(CRATES)
        self.assertEqual([above(crate, named) for crate in ("low", "short", "nova")], [["low", "long", "short", "nova"], ["short", "nova"], ["nova"]])

    def test_the_costs_are_of_crates_that_are_there(self) -> None:
        named = dependencies((TOOL.parents[1] / "crates.txt").read_text())
        self.assertEqual(set(costs()) - set(named), set())


class Builds(unittest.TestCase):
    """The builder as a whole."""

    def test_a_build_and_what_is_done_again(self) -> None:
        with tempfile.TemporaryDirectory() as folder:
            made = Repository(folder)
            self.assertEqual(made.build("--built").returncode, 1)
            told = made.build("--plan")
            self.assertRegex(told.stdout, "4 of 4 crates are to be proved: some [23] minutes on four idle cores; ")
            told = made.build("--", "solo")
            self.assertEqual(told.returncode, 0, told.stderr)
            first, *middle, last = made.asked()
            self.assertEqual((first, sorted(middle), last), ("lib low", ["lib long", "lib short"], "run nova"))
            self.assertIn("nova: 4 of 4: nova, ", told.stderr)
            self.assertEqual(made.build("--built").returncode, 0)
            self.assertEqual(list((made.top / "crates/nova/out").glob("trees-*")), [])

    def test_times_of_files_mean_nothing_and_their_bytes_all(self) -> None:
        with tempfile.TemporaryDirectory() as folder:
            made = Repository(folder)
            made.build()
            made.asked()
            source = made.top / "crates/long/src/lib.rt"
            os.utime(source)
            self.assertEqual(made.build("--built").returncode, 0)
            shutil.copytree(made.top, Path(folder, "copy"))
            made.top = Path(folder, "copy")
            self.assertEqual(made.build("--built").returncode, 0)
            text, before = (made.top / "crates/long/src/lib.rt").read_text(), source.stat()
            (made.top / "crates/long/src/lib.rt").write_text(text.replace("ran", "RAN"))
            os.utime(made.top / "crates/long/src/lib.rt", (before.st_atime, 1))
            self.assertEqual(made.build("--built").returncode, 1)
            self.assertEqual((made.build().returncode, made.asked()), (0, ["lib long", "run nova"]))
            (made.kit / "KIT-ID").write_text("kit two\n")
            self.assertEqual(made.build("--built").returncode, 1)

    def test_a_program_without_a_note_is_taken_by_its_time(self) -> None:
        with tempfile.TemporaryDirectory() as folder:
            made = Repository(folder)
            made.build()
            (made.top / "crates/nova/out/nova.sources").unlink()
            self.assertEqual(made.build("--built").returncode, 0)
            (made.top / "crates/nova/out/nova.sources").unlink()
            os.utime(made.top / "crates/nova/out/nova", (1, 1))
            self.assertEqual(made.build("--built").returncode, 1)

    def test_a_note_of_another_program_counts_for_nothing(self) -> None:
        with tempfile.TemporaryDirectory() as folder:
            made = Repository(folder)
            made.build()
            source, program = made.top / "crates/nova/src/main.rt", made.top / "crates/nova/out/nova"
            source.write_text(source.read_text().replace("ran", "RAN"))
            self.assertEqual(made.build("--built").returncode, 1)
            program.write_text(source.read_text())
            self.assertEqual(made.build("--built").returncode, 0)

    def test_a_crate_that_is_not_proved_ends_the_build(self) -> None:
        with tempfile.TemporaryDirectory() as folder:
            made = Repository(folder, broken="short")
            told = made.build()
            self.assertEqual(told.returncode, 1)
            self.assertIn("goal 1 is open\nnova: short was not built\n", told.stderr)
            self.assertNotIn("run nova", made.asked())

    def test_a_signal_ends_what_was_begun(self) -> None:
        for number, status in ((signal.SIGTERM, 143), (signal.SIGHUP, 129), (signal.SIGINT, 130)):
            with self.subTest(number), tempfile.TemporaryDirectory() as folder:
                made = Repository(folder, seconds=60)
                builder = subprocess.Popen(made.words(), stderr=subprocess.DEVNULL, env=made.path(), start_new_session=True)
                pids = Path(f"{made.log}.pids")
                for _ in range(200):
                    if pids.exists() and pids.read_text().strip():
                        break
                    time.sleep(0.05)
                builder.send_signal(number)
                self.assertEqual(builder.wait(20), status)
                self.assertEqual([pid for pid in map(int, pids.read_text().split()) if is_there(pid)], [])

    def test_what_stands_above(self) -> None:
        with tempfile.TemporaryDirectory() as folder:
            made = Repository(folder)
            told = made.build("--above", "long", "low")
            self.assertEqual((told.returncode, told.stdout.splitlines()), (0, ["long           2 crates,  2 minutes", "low            4 crates,  3 minutes"]))
            self.assertEqual(made.build("--above", "low").stdout.splitlines(), ["low            4 crates,  3 minutes", "  low long short nova"])
            self.assertEqual([made.build("--above", *words).returncode for words in ([], ["nosuch"], ["--plan", "low"])], [2, 2, 2])
            self.assertEqual(made.asked(), [])

    def test_words(self) -> None:
        with tempfile.TemporaryDirectory() as folder:
            made = Repository(folder)
            self.assertEqual([made.build(*words).returncode for words in (["nosuch"], ["low"], ["--fast"], ["--help"])], [2, 2, 2, 0])
            (made.top / "MANIFEST").touch()
            self.assertIn("build: a release has no sources", made.build().stderr)
            (made.top / "MANIFEST").unlink()
            bare = os.environ | {"PATH": "/usr/bin:/bin"}
            if shutil.which("rt", path=bare["PATH"]) is None:
                told = subprocess.run(made.words(), capture_output=True, text=True, env=bare, check=False)
                self.assertEqual((told.returncode, "rt, the command of the Rattle kit, is not on the path" in told.stderr), (3, True))


class Commands(unittest.TestCase):
    """Commands that are begun."""

    def test_all_of_a_group_end(self) -> None:
        children = Children()
        self.assertEqual(children.run(["sh", "-c", "echo one; exit 3"], Path("/")), (3, "one\n"))
        children.stop()
        with self.assertRaises(Ended):
            children.run(["true"], Path("/"))


class Hints(unittest.TestCase):
    """What is said beside the program's own line."""

    def test_why_words_are_no_command(self) -> None:
        for words, why in (
            ([], "no command is named"),
            (["sol", "a"], "'sol' is no command; solo is one"),
            (["solo"], "solo wants SCENARIO"),
            (["run", "a"], "run wants ORDER, the file to which the order of turns is appended"),
            (["check", "a", "b"], "check takes no further word: 'b'"),
            (["bench", "0"], "bench: 0 is not from 1 to 90,000"),
            (["bench", "0x15f91"], "bench: 90,001 is not from 1 to 90,000"),
            (["solo", "a", "--limit", "20000000"], "--limit: 20,000,000 is not from 1 to 10,000,000"),
            (["solo", "a", "--limit=x"], "--limit: 'x' is no number"),
            (["solo", "a", "--limit"], "--limit wants a number behind it"),
            (["solo", "a", "--limit=1", "--limit=1"], "--limit is given twice"),
            (["solo", "-odd"], "there is no option -odd (a file with such a name stands behind --)"),
        ):
            with self.subTest(words):
                self.assertEqual(hints(words), [f"these words are no command: {why}. ./nova --help lists them"])

    def test_which_file_and_why(self) -> None:
        with tempfile.TemporaryDirectory() as folder:
            there, missing = Path(folder, "a.nova"), Path(folder, "b.nova")
            there.touch()
            for words, said in (
                (["solo", str(there)], []),
                (["solo", "--", str(there)], []),
                (["run", str(there), str(missing)], []),
                (["check", str(missing)], [f"{missing}: No such file or directory"]),
                (["solo", str(there), str(missing)], [f"{missing}: No such file or directory"]),
                (["twin", folder], [f"{folder} is a folder"]),
                (["run", str(there), f"{folder}/c/d"], [f"{folder}/c/d can't be made: there is no folder {folder}/c"]),
                (["bench", "7"], []),
            ):
                with self.subTest(words):
                    self.assertEqual(hints(words), said)

    def test_why_words_are_no_request(self) -> None:
        for words, why in (
            ([], "no scenario is named"),
            (["--at", "3"], "no scenario is named"),
            (["a", "b"], "there is a word too many: 'b'"),
            (["a", "--from", "3"], "there is no option --from (a file with such a name stands behind --)"),
            (["a", "--at=1", "--at", "2"], "--at is given twice"),
            (["a", "--policy"], "--policy wants POLICY behind it"),
            (["a", "--at", "x"], "--at: 'x' is no number"),
            (["a", "--until", "0x989681"], "--until: 10,000,001 is more than 10,000,000"),
            (["a", "--at", "4", "--until", "3"], "--until is before --at"),
            (["a", "--flow", "4", "--until", "3"], "--until is before --flow"),
            (["a", "--flow", "4", "--at", "4"], "--flow stands in place of --at"),
        ):
            with self.subTest(words):
                self.assertEqual(policy_hints(words), [f"these words are no request: {why}. ./nova-policy --help lists them"])

    def test_which_file_of_a_request(self) -> None:
        with tempfile.TemporaryDirectory() as folder:
            there, missing = Path(folder, "1.nova"), Path(folder, "2.policy")
            there.touch()
            gone = f"{missing}: No such file or directory"
            for words, said in (
                ([str(there), "--at=0x10", "--order", str(there)], []),
                ([str(there), "--flow", "4", "--until", "4"], []),
                ([str(missing)], [gone]),
                ([f"--policy={missing}", "--", str(there)], [gone]),
                ([str(there), "--order", folder, "--policy", str(missing)], [f"{folder} is a folder", gone]),
            ):
                with self.subTest(words):
                    self.assertEqual(policy_hints(words), said)

    def test_help_of_the_policy_has_each_option_and_status(self) -> None:
        told = subprocess.run([sys.executable, str(TOOL / "hints.py"), "policy", "--help"], capture_output=True, text=True, check=True).stdout
        self.assertEqual(told, POLICY_HELP)
        for word in ("--at", "--order", "--policy", "0 apart", "1 served", "9 breach", "10 stuck", "11 single", "2 no request", "7 a fault of the policy"):
            self.assertIn(word, told)

    def test_each_program_has_a_help_of_its_own(self) -> None:
        for words, first in (([], "nova solo "), (["policy"], "./nova-policy SCENARIO "), (["explore"], "./nova-explore SCENARIO QUESTION ")):
            told = subprocess.run([sys.executable, str(TOOL / "hints.py"), *words, "--help"], capture_output=True, text=True, check=True).stdout
            self.assertTrue(told.startswith(first), told)

    def test_a_text_of_twin(self) -> None:
        with tempfile.TemporaryDirectory() as folder:
            text, scenario, order = Path(folder, "a.twin"), Path(folder, "a.nova"), Path(folder, "a.order")
            scenario.touch()
            order.write_text("0 1000000\n")
            side = f"{scenario} {order} 8\n"
            for lines, limit, why in (
                (2 * side, [], ""),
                (side, [], " has 1 line, and a text of twin has 2"),
                (3 * side, [], " has 3 lines, and a text of twin has 2"),
                ("", [], " has 0 lines, and a text of twin has 2"),
                (side + side[:-1], [], ": its last line has no line feed, or it has more than 4,096 bytes"),
                (side + f"{scenario} 8\n", [], ", line 2: a line is SCENARIO ORDER NUMBER, with one space between"),
                (side + f"{scenario} {folder}/b 8\n", [], f", line 2: {folder}/b: No such file or directory"),
                (2 * side, ["--limit", "999999"], f", line 1: {order} has 1,000,000 turns, and the limit is 999,999; --limit N gives up to 10,000,000"),
            ):
                text.write_text(lines)
                with self.subTest(why):
                    self.assertEqual(hints(["twin", str(text), *limit]), [f"{text}{why}"] if why else [])

    def test_an_executable_for_another_machine(self) -> None:
        with tempfile.TemporaryDirectory() as folder:
            for head, said in (("7f454c4602", "is of 64 bits; -march=rv32i"), (f"7f454c4601{'0' * 26}3e00", "is not for RISC-V"), (f"7f454c4601{'0' * 26}f300", "")):
                scenario = Path(folder, "a.nova")
                scenario.write_text(f"cpus 1\nimage 0 elf # here\n{head} 00\nend\n")
                told = hints(["solo", str(scenario)])
                self.assertEqual([f"{scenario}, line 3: this executable {said}" in line for line in told], [True] if said else [])


if __name__ == "__main__":
    unittest.main()
