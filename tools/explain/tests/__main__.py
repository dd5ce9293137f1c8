"""The tests of what is said of reports.

python3 tools/explain/tests [--program FILE] [--write] [NAME..] compares what is said of the reports in this folder, and of some of the examples, with the
texts beside this file; with --write it writes those, to be read before they are kept. The program is one to ask, in place of nova_debug of the
repository.
"""

from __future__ import annotations

import os
import re
import subprocess
import sys
import tempfile
import unittest
from pathlib import Path

HERE = Path(__file__).resolve().parent
TOOL, TOP = HERE.parent, HERE.parents[2]
sys.path += [str(TOOL), str(TOP / "tools" / "picture"), str(TOP / "tools" / "build")]

from account import Run, account  # noqa: E402
from built import there  # noqa: E402
from naming import Names, as_text, constants, named_in, read_names, selectors_in  # noqa: E402
from places import place_of  # noqa: E402
from report import Fault, read_report  # noqa: E402

# Texts that are kept, each with the words that make it; {} is this folder, and EXAMPLES that of the examples.
CASES = {
    "deadlock": "{}/deadlock.report --names {}/deadlock.names",
    "lost": "{}/lost.report",
    "waits": "{}/waits.report",
    "fresh": "{}/fresh.report",
    "fault": "{}/fault.report",
    "helps": "{}/helps.report",
    "aborted": "{}/../../picture/tests/aborts.report",
    "quiet": "EXAMPLES/race.report",
}
# What binutils says of an executable, in the forms of several versions.
READ = """
 <1><f7>: Abbrev Number: 2 (DW_TAG_enumeration_type)
 <2><102>: Abbrev Number: 3 (DW_TAG_enumerator)
    <103>   DW_AT_name        : (indirect string, offset: 0x2d4): NOVA_CALL
    <107>   DW_AT_const_value : 0
 <1><200>: Abbrev Number: 2 (DW_TAG_enumeration_type)
 <2><202>: Abbrev Number: 3 (DW_TAG_enumerator)
    <203>   DW_AT_name        : FREE
    <207>   DW_AT_const_value : (data1) 32
 <2><208>: Abbrev Number: 3 (DW_TAG_enumerator)
    <209>   DW_AT_name        : (strp) (offset: 0x5e1): OTHER
    <20a>   DW_AT_const_value : 36
 <1><300>: Abbrev Number: 2 (DW_TAG_enumeration_type)
 <2><302>: Abbrev Number: 3 (DW_TAG_enumerator)
    <303>   DW_AT_name        : (string) ROUNDS
    <307>   DW_AT_const_value : 36
 <1><400>: Abbrev Number: 2 (DW_TAG_enumeration_type)
 <2><402>: Abbrev Number: 3 (DW_TAG_enumerator)
    <403>   DW_AT_name        : (strp) (offset: 0x6a0): WHO
    <407>   DW_AT_const_value : 33
 <2><408>: Abbrev Number: 3 (DW_TAG_enumerator)
    <409>   DW_AT_name        : (strp) (offset: 0x6a4): WHAT
    <40a>   DW_AT_const_value : (data1) 34
 <2><40b>: Abbrev Number: 3 (DW_TAG_enumerator)
    <40c>   DW_AT_name        : (strp) (offset: 0x6a9): MUCH
    <40d>   DW_AT_const_value : (data1) 35
"""
FOUND = "0x00000078\nnova_down\nnova.h:99\nadd\ncounter.c:17 (discriminator 2)\n0x00000154\nother\nother.s:3\n"


def explain(words: str, path: str | None = None) -> subprocess.CompletedProcess[str]:
    """A run of the tool, with another path for its commands."""
    given = words.replace("EXAMPLES", str(TOP / "examples")).replace("{}", str(HERE)).split()
    how = os.environ | ({"PATH": path} if path else {})
    return subprocess.run([sys.executable, str(TOOL), *given], capture_output=True, text=True, env=how, check=False)


class Texts(unittest.TestCase):
    """What is said of whole reports."""

    maxDiff = None

    def test_what_is_kept_is_said(self) -> None:
        for name, words in CASES.items():
            with self.subTest(name):
                told = explain(words)
                self.assertEqual((told.returncode, told.stderr), (0, ""))
                self.assertEqual(told.stdout, (HERE / f"{name}.txt").read_text())

    def test_each_example_is_told(self) -> None:
        for report in sorted((TOP / "examples").glob("*.report")):
            with self.subTest(report.stem):
                told = explain(str(report))
                self.assertEqual((told.returncode, told.stderr), (0, ""))
                dead = re.findall(r"^ec (\d+) \w+ dead", report.read_text(), re.M)
                self.assertEqual([one for one in dead if not re.search(rf"EC {one}\b.* (died|ended)", told.stdout)], [])

    def test_refusals(self) -> None:
        with tempfile.TemporaryDirectory() as folder:
            wide, text = Path(folder, "wide.elf"), Path(folder, "a.names")
            wide.write_bytes(b"\x7fELF\x02")
            text.write_text("6 main\nx y\n")
            report = f"{HERE}/lost.report"
            for words, why in (
                ("missing", "missing: No such file or directory"),
                (folder, f"{folder}: Is a directory"),
                ("EXAMPLES/race.nova", f"{TOP}/examples/race.nova: line 1: `run quiet N` or `run open N` is wanted"),
                (f"{report} --elf missing", "missing: No such file or directory"),
                (f"{report} --elf {wide}", f"{wide} is an executable of 64 bits, where one of 32 is wanted"),
                (f"{report} --elf {text}", f"{text} is no executable"),
                (f"{report} --names {text}", f"{text}: line 2: `OBJECT NAME` or `PD:SELECTOR NAME` is wanted"),
                (f"{report} --scenario missing", "missing: No such file or directory"),
            ):
                with self.subTest(words):
                    told = explain(words)
                    self.assertEqual((told.returncode, told.stdout, told.stderr), (1, "", f"explain: {why}\n"))


class Naming(unittest.TestCase):
    """Names, and where addresses lie."""

    HELD = {(5, 32): 10, (5, 33): 11, (5, 36): 14, (0, 36): 7}

    def test_names_of_a_file(self) -> None:
        text = "6 main # a thread\n\n5:32  lock\n9:9 nothing\n"
        self.assertEqual(read_names(text, self.HELD), {6: "main", 10: "lock"})
        for bad in ("main 6\n", "6\n", "6 two words\n", "0:1:2 a\n"):
            with self.subTest(bad), self.assertRaises(Fault):
                read_names(bad, self.HELD)

    def test_where_names_stand(self) -> None:
        names = Names({6: "main", 10: "lock"})
        self.assertEqual(names.text("EC 6 waits at SM 10; EC 16 and range 6 don't"), "EC 6 (main) waits at SM 10 (lock); EC 16 and range 6 don't")
        for line, wanted in (
            ("ec 6 global dead", "ec 6 global dead  # main"),
            ("sm 10 0 1", "sm 10 0 1  # lock"),
            ("at 7 0 6 raise 7 0", "at 7 0 6 raise 7 0  # main"),
            ("at - 0 6 raise 7 0", "at - 0 6 raise 7 0  # main"),
            ("ec 7 global dead", "ec 7 global dead"),
            ("console 0 4869220a", 'console 0 4869220a  # "Hi\\"\\n"'),
            ("console 0 -", "console 0 -"),
            ("run quiet", "run quiet"),
        ):
            self.assertEqual(names.line(line), wanted)
        self.assertEqual(as_text("00c3"), '"\\x00\\xc3"')

    def test_selectors_of_a_report(self) -> None:
        lines = ["cap 0 - 0 mem 32 0 7 0", "cap 19 - 5 obj 32 0 3 10", "cap 20 - 5 obj 64 1 3 11"]
        self.assertEqual(selectors_in(lines), {(5, 32): 10})

    def test_constants_of_an_executable(self) -> None:
        with tempfile.TemporaryDirectory() as folder:
            for tool, text in (("readelf", READ), ("addr2line", FOUND)):
                Path(folder, f"riscv64-unknown-elf-{tool}").write_text(f"#!/bin/sh\ncat <<'END'\n{text}END\n")
                Path(folder, f"riscv64-unknown-elf-{tool}").chmod(0o755)
            executable = Path(folder, "a.elf")
            executable.write_bytes(b"\x7fELF\x01")
            path = f"{folder}:{os.environ['PATH']}"
            told = explain(f"{{}}/deadlock.report --elf {executable}", path).stdout
            self.assertIn("EC 1 (the root) has waited since turn 46 at SM 4, at 0x78, in add (counter.c:17), by nova_down.", told)
            self.assertIn("has waited since turn 44 at SM 3 (FREE), at 0x154, in other (other.s:3).", told)
            before = os.environ["PATH"]
            os.environ["PATH"] = path
            try:
                self.assertEqual(constants(executable, self.HELD, {5}), {10: "FREE", 14: "OTHER"})
            finally:
                os.environ["PATH"] = before

    def test_without_binutils_nothing_is_told_of_places(self) -> None:
        with tempfile.TemporaryDirectory() as folder:
            executable = Path(folder, "a.elf")
            executable.write_bytes(b"\x7fELF\x01")
            self.assertEqual(explain(f"{{}}/lost.report --elf {executable}", folder).stdout, (HERE / "lost.txt").read_text())

    def test_places(self) -> None:
        self.assertEqual(str(place_of(["add", "a.c:3"])), "in add (a.c:3)")
        self.assertEqual(str(place_of(["nova_up", "nova.h:9", "add", "??:0"])), "in add, by nova_up")

    def test_a_file_that_is_missing(self) -> None:
        with self.assertRaises(Exception) as raised:
            named_in(Path("missing"), {})
        self.assertEqual(str(raised.exception), "missing: No such file or directory")


class Guesses(unittest.TestCase):
    """What most likely led to a fault."""

    def said(self, reason: int, address: int, sort: str = "global", stack: str = "x2=0000df70 ") -> str:
        """The sentence on an execution context, number 6, that died; where an executable tells a function for each address."""
        lines = ["run quiet 2", f"at 1 0 6 raise {reason} {address}", f"at 2 0 6 died {reason} {address}"]
        lines += ["ec 1 global dead 00000088", f"ec 6 {sort} dead {address if reason == 2 else 0x1128:08x} {stack}x9=00000001"]
        report = read_report("\n".join([*lines, "sc 2 0 0", "console 0 -"]) + "\n")
        told = "\n".join(account(Run(report, Names(), lambda context, place: "in f (a.c:1)"), ""))
        return next(line for line in told.splitlines() if "EC 6 " in line)

    def test_a_stack_that_grew_too_large(self) -> None:
        below = ": its domain has no page there that may be written, below its stack, most likely, since its x2 is 0xdf70."
        self.assertTrue(self.said(4, 0xDF7C).endswith(f"of a store fault (0xdf7c){below}"))
        for address, stack in ((0xEF70, "x2=0000df70 "), (0x80000000, "x2=0000df70 "), (0x1004, "")):
            self.assertTrue(self.said(4, address, stack=stack).endswith("its domain has no page there that may be written."))

    def test_an_assertion_that_failed(self) -> None:
        lines = ["run quiet 2", "at 1 0 6 raise 7 0", "at 2 0 6 died 7 0"]
        lines += ["ec 1 global dead 00000088", "ec 6 global dead 00001128", "sc 2 0 0", "console 0 -"]
        for failed, end in (({6: "a.c:2: count == 3"}, ", since an assertion failed: a.c:2: count == 3"), ({7: "a.c:2: count == 3"}, "")):
            told = account(Run(read_report("\n".join(lines) + "\n"), failed=failed), "")
            self.assertIn(f"\nEC 6 ended in turn 2, at 0x1128, by `ebreak`{end}.\n", "\n".join(told))

    def test_a_return_to_nowhere(self) -> None:
        told = self.said(2, 0, "local")
        self.assertIn("The handler EC 6 died in turn 2, at 0x0, of a fetch fault (0x0): it jumped through a null pointer, or returned from", told)
        self.assertIn("at 0x8, in f (a.c:1), of a fetch fault (0x8): it jumped through a null pointer, most likely.", self.said(2, 8))


class Asked(unittest.TestCase):
    """What nova_debug tells."""

    def setUp(self) -> None:
        if program is None:
            self.skipTest("nova_debug is not built")

    def told(self, report: str, scenario: Path, order: str | None) -> str:
        """What is said, with what the program tells."""
        with tempfile.TemporaryDirectory() as folder:
            words = f"{report} --scenario {scenario} --program {program}"
            if order is not None:
                Path(folder, "order").write_text(order)
                words += f" --order {folder}/order"
            told = explain(words)
            self.assertEqual((told.returncode, told.stderr), (0, ""))
            return told.stdout

    def test_who_could_wake_whom(self) -> None:
        scenario = TOP / "tools/orders/tests/deadlock.nova"
        told = self.told("{}/deadlock.report", scenario, "0 29\n1 15\n0 2\n")
        self.assertIn("Who could wake it: EC 5 [parked]; EC 7 [blocked]. Each of them waits, or waits to be called.", told)
        self.assertIn("Who could wake it: EC 1 (the root) [blocked]; EC 5 [parked]. Each", told)

    def test_firings_that_are_left(self) -> None:
        self.assertIn("which fired 2 times and has 3 firings left.", self.told("{}/waits.report", TOP / "examples/driver.nova", None))

    def test_another_run_is_refused(self) -> None:
        told = explain(f"{{}}/lost.report --scenario EXAMPLES/race.nova --program {program}")
        self.assertEqual((told.returncode, told.stderr), (1, f"explain: {TOP}/examples/race.nova: its run is not that of the report; if that has an order of its own, --order names it\n"))


def write() -> None:
    """Writes the texts that are kept."""
    for name, words in CASES.items():
        (HERE / f"{name}.txt").write_text(explain(words).stdout)


program: Path | None = None

if __name__ == "__main__":
    if "--write" in sys.argv:
        write()
        sys.exit(0)
    if sys.argv[1:2] == ["--program"]:
        program = Path(sys.argv[2]).resolve()
        del sys.argv[1:3]
    else:
        program = there("nova_debug")
    unittest.main()
