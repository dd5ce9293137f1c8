"""How each tool ends that is given what it can't use: with a line on standard error by its name and a status, and never with a traceback."""

from __future__ import annotations

import contextlib
import os
import signal
import subprocess
import sys
import tempfile
import time
import unittest
from collections.abc import Iterator
from concurrent.futures import ThreadPoolExecutor
from pathlib import Path

TOP = Path(__file__).resolve().parents[3]
REPORT, SCENARIO, ORDER = "examples/processors.report", "examples/processors.nova", "examples/processors.order"

# Files that are none, and programs that are none or do nothing of what they are asked: it ends at once, writes noise, or takes its time.
FILES = ("missing", "folder", "empty", "noise", "/proc/self/mem")
PROGRAMS = ("missing", "folder", "empty", "ends", "noisy")
# The words of each tool. FILE stands for each of the files and PROGRAM for each of the programs.
WORDS = {
    "build": ["--nosuch", "nosuch"],
    "changes": ["--nosuch", "FILE"],
    "debug": ["--nosuch", "--program ends FILE", f"--program ends {SCENARIO} FILE", f"--program PROGRAM {SCENARIO}", "symbols FILE nowhere/x.elf",
              f"trace --program PROGRAM {SCENARIO}"],
    "definitions": ["--nosuch", "FILE"],
    "draft": ["--path nosuch x"],
    "explore": ["--nosuch", f"{SCENARIO} --program PROGRAM --nova ends blocked", "FILE --program ends --nova ends blocked",
                f"{SCENARIO} --program ends --nova ends --elf FILE word x 1", f"{SCENARIO} --program ends --nova PROGRAM dies x",
                f"{SCENARIO} --program ends --nova ends --elf FILE asserts", f"{SCENARIO} --program ends --nova PROGRAM --words"],
    "explain": ["--nosuch", "FILE", f"{REPORT} --names noise", f"{REPORT} --elf FILE", f"{REPORT} --scenario {SCENARIO} --program PROGRAM"],
    "map": ["nowhere/x.svg", "folder"],
    "orders": ["--nosuch", f"explore {SCENARIO} --program PROGRAM", f"shrink {SCENARIO} FILE --keep x --program ends",
               f"expect {SCENARIO} --never ( --program ends"],
    "pages": ["--nosuch", "--links nowhere", "--program missing"],
    "picture": ["--nosuch", "run FILE", f"run {REPORT} --order FILE", f"delegations {REPORT} --names folder", f"run {REPORT} --output folder",
                "sides FILE", f"sides {REPORT} --policy FILE",
                f"trace {REPORT} --output nowhere/x.json"],
    "refusals": ["--nosuch", "--program missing texts"],
    "release": ["--nosuch", "--output nowhere/x/y --with nosuch"],
    "replays": ["--nosuch", "nowhere", "folder", "--count 1 --program missing"],
    "response": ["--nosuch", f"--program PROGRAM {SCENARIO} 1"],
    "speed": ["--nosuch", "--program missing --only turns"],
    "c/elf": ["--nosuch", "FILE", "--check FILE"],
    "c/exits": ["--nosuch", "FILE", f"{REPORT} 77"],
    "c/vmm/fuzz": ["--nosuch", "--count 1 --program missing"],
}
# What writes much to a pipe that nobody reads, and what waits for a file or a program when it is interrupted.
HELPS = [f"{tool} --help" for tool in WORDS if tool != "map"]
WRITES = [*HELPS, f"picture run {REPORT} --order {ORDER}", "explain examples/hart.report", "c/exits examples/hart.report", "map"]
WAITS = ["explain waits", f"explore {SCENARIO} --program sleeps --nova ends blocked", "picture run waits", f"debug trace --program sleeps {SCENARIO}", f"response --program sleeps {SCENARIO} 1",
         f"orders explore --program sleeps {SCENARIO}", "replays --count 1 --program sleeps", "refusals --program sleeps texts"]


def make(folder: Path) -> None:
    """The files, in a folder."""
    (folder / "folder").mkdir()
    (folder / "empty").touch()
    (folder / "noise").write_bytes(bytes(range(256)) * 20)
    os.mkfifo(folder / "waits")
    for name, does in (("ends", "exit 9"), ("noisy", "printf '\\377\\001 at of\\nthe (\\n'"), ("sleeps", "exec sleep 60")):
        (folder / name).write_text(f"#!/bin/sh\n{does}\n")
        (folder / name).chmod(0o755)


def placed(folder: Path, words: str) -> list[str]:
    """The words of a tool, each name of a file as that file."""
    tool, *rest = words.split()
    names = {*FILES, *PROGRAMS, "waits", "sleeps"}
    given = [str(folder / word) if word in names or word.startswith("nowhere") else word for word in rest]
    return [sys.executable, str(TOP / "tools" / tool), *given]


def is_there(words: str) -> bool:
    """Whether a tool is here. A release hasn't all of them."""
    return (TOP / "tools" / words.split()[0]).exists()


def processes() -> dict[int, tuple[str, int]]:
    """The name and the parent of each process."""
    there = {}
    for status in Path("/proc").glob("[0-9]*/stat"):
        with contextlib.suppress(OSError):
            name, rest = status.read_text().split("(", 1)[1].rsplit(")", 1)
            there[int(status.parent.name)] = name, int(rest.split()[1])
    return there


def is_at_work(tool: int, file: Path) -> bool:
    """Whether a tool has opened the file that nobody writes to, has a program that sleeps, or has ended."""
    there = processes()
    asleep = {parent for name, parent in there.values() if name == "sleep"}
    while asleep and tool not in asleep:
        asleep = {there[process][1] for process in asleep if process in there}
    try:
        opened = {os.path.realpath(number) for number in Path(f"/proc/{tool}/fd").iterdir()}
    except OSError:
        return True
    return tool in asleep or str(file.resolve()) in opened


def cases() -> list[str]:
    """The words of all tools that are here."""
    there = [f"{tool} {words}" for tool, all_words in WORDS.items() if is_there(tool) for words in all_words]
    with_files = [words.replace("FILE", file) for words in there for file in (FILES if "FILE" in words else [""])]
    return [words.replace("PROGRAM", file) for words in with_files for file in (PROGRAMS if "PROGRAM" in words else [""])]


class Endings(unittest.TestCase):
    """Tools that are given what they can't use."""

    def setUp(self) -> None:
        room = tempfile.TemporaryDirectory()
        self.addCleanup(room.cleanup)
        self.folder = Path(room.name)
        make(self.folder)

    def look(self, words: str, status: int, said: str) -> None:
        """What is said is neither a traceback nor nothing."""
        tool = words.split()[0].split("/")[-1]
        lines = said.splitlines()
        self.assertNotIn("Traceback", said)
        self.assertNotIn("Exception ignored", said)
        self.assertGreater(status, 0, said)
        self.assertTrue(any(line.startswith((f"{tool}: ", f"{tool} ", "usage: ", f"nova: {tool}")) for line in lines), said)

    def run_all(self, all_words: list[str], stdout: int) -> Iterator[tuple[str, subprocess.CompletedProcess[str]]]:
        """Runs tools side by side. Each tells its words, its status and what it said."""

        def run(words: str) -> tuple[str, subprocess.CompletedProcess[str]]:
            how = {"cwd": TOP, "stdin": subprocess.DEVNULL, "stdout": stdout, "stderr": subprocess.PIPE, "text": True, "errors": "replace"}
            return words, subprocess.run(placed(self.folder, words), check=False, timeout=120, **how)

        with ThreadPoolExecutor(os.cpu_count()) as workers:
            yield from workers.map(run, all_words)

    def test_what_is_no_file_and_no_program(self) -> None:
        for words, told in self.run_all(cases(), subprocess.DEVNULL):
            with self.subTest(words):
                self.look(words, told.returncode, told.stderr)

    def test_nobody_reads(self) -> None:
        reader, writer = os.pipe()
        os.close(reader)
        self.addCleanup(os.close, writer)
        for words, told in self.run_all([words for words in WRITES if is_there(words)], writer):
            with self.subTest(words):
                self.assertNotIn("Traceback", told.stderr)
                self.assertNotIn("Exception ignored", told.stderr)

    def test_an_interrupt(self) -> None:
        how = {"cwd": TOP, "stdin": subprocess.DEVNULL, "stdout": subprocess.DEVNULL, "stderr": subprocess.PIPE, "text": True, "start_new_session": True}
        file = self.folder / "waits"
        self.addCleanup(os.close, os.open(file, os.O_RDWR))
        all_begun = [(words, subprocess.Popen(placed(self.folder, words), **how)) for words in WAITS if is_there(words)]
        for words, begun in all_begun:
            with self.subTest(words):
                last = time.monotonic() + 60
                while not is_at_work(begun.pid, file) and time.monotonic() < last:
                    time.sleep(0.1)
                os.killpg(begun.pid, signal.SIGINT)
                _, said = begun.communicate(timeout=60)
                self.assertNotIn("Traceback", said)
                self.assertGreater(begun.returncode, 0, said)


if __name__ == "__main__":
    unittest.main()
