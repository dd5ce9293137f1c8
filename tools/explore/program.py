"""Starts `nova_explore`, and replays what it tells by `nova solo` and `nova_debug`."""

from __future__ import annotations

import re
import subprocess
import sys
from collections.abc import Sequence
from dataclasses import dataclass
from pathlib import Path

sys.path += [str(Path(__file__).resolve().parents[1] / name) for name in ("build", "picture")]

from answers import ALL, CUT, FOUND, WITHIN, Answer, read_answer  # noqa: E402
from questions import RESTS, Question, number_of, outcome_in, reported  # noqa: E402

from built import DRAFTS, TOP, Missing, ended, find, there  # noqa: E402
from failures import FAILED, failures, mark_of  # noqa: E402
from hints import unread  # noqa: E402
from naming import Names, Unread, add_words, as_text, names_of, selectors  # noqa: E402
from parsing import Parser, program_file  # noqa: E402
from report import Fault, Report, read_report  # noqa: E402
from variables import EXECUTE, LOADED, NO_BYTES, PAGE, WORD, Executable, NoSymbol, frame_of, read_executable, variables  # noqa: E402

__all__ = [
    *("DRAFTS", "EXECUTE", "FAILED", "LOADED", "NO_BYTES", "PAGE", "WORD", "Executable", "Fault", "Missing", "Names", "NoSymbol", "Parser", "Refused", "Replayer"),
    *("Report", "TOP", "Unread", "add_words", "as_text", "asked", "ended", "failures", "find", "frame_of", "mark_of", "names_of", "program_file"),
    *("read_executable", "read_report", "selectors", "there", "unread", "variables"),
]

ANSWERS = (ALL, FOUND, CUT, WITHIN)
# The most turns of a run, as of nova.
MOST_TURNS = "10000000"
BEGINS = re.compile(r"run (quiet|open) \d+\n")


class Refused(Exception):
    """The program gave no answer; the text is its line on standard error."""


def asked(program: Path, scenario: Path, words: Sequence[str]) -> tuple[str, Answer]:
    """What the program answers, as text and in parts. Raises Refused where it gives none."""
    done = subprocess.run([str(program), str(scenario), *words], capture_output=True, text=True, errors="replace", check=False)
    if done.returncode not in ANSWERS:
        raise Refused(done.stderr.strip().splitlines()[-1] if done.stderr.strip() else f"{program}: status {done.returncode}")
    answer = read_answer(done.stdout)
    if answer.status != done.returncode:
        raise Refused(f"{program}: status {done.returncode}, where its answer has {answer.status}")
    return done.stdout, answer


@dataclass(frozen=True, slots=True)
class Replayer:
    """Takes the turns of orders again, each by a start of `nova solo`; and `nova_debug`, where it is there, tells what memory has then."""

    nova: Path
    debug: Path | None
    folder: Path

    def report(self, scenario: Path, order: str) -> str:
        """The report of the turns of an order. Raises Refused where it is none."""
        (self.folder / "replayed.order").write_text(order)
        words = ["solo", str(scenario), str(self.folder / "replayed.order"), "--limit", MOST_TURNS]
        done = subprocess.run([str(self.nova), *words], capture_output=True, text=True, errors="replace", check=False)
        if done.returncode not in (0, 7):
            raise Refused(f"nova solo takes not this order: {done.stderr.strip()}")
        if not BEGINS.match(done.stdout):
            raise Refused(f"{self.nova} writes no report")
        return done.stdout

    def rounds(self, scenario: Path) -> str:
        """The report of a run by rounds. Raises Refused where there is none."""
        done = subprocess.run([str(self.nova), "solo", str(scenario)], capture_output=True, text=True, errors="replace", check=False)
        if done.returncode not in (0, 7):
            raise Refused(done.stderr.strip())
        return done.stdout

    def word(self, scenario: Path, order: str, frame: int, offset: int) -> int | None:
        """The word in a frame after the turns of an order; none where `nova_debug` isn't there."""
        if self.debug is None:
            return None
        (self.folder / "replayed.order").write_text(order)
        words = [str(self.debug), str(scenario), MOST_TURNS, str(self.folder / "replayed.order")]
        done = subprocess.run(words, input=f"go {MOST_TURNS}\nframe {frame}\n", capture_output=True, text=True, errors="replace", check=False)
        digits = "".join(line.split()[-1] for line in done.stdout.splitlines() if not line.startswith("ok"))
        return int.from_bytes(bytes.fromhex(digits)[offset : offset + 4], "little")

    def fault(self, scenario: Path, question: Question, order: str) -> str | None:
        """Why an order doesn't lead to what is asked for, or none."""
        report = self.report(scenario, order)
        if question.is_of_memory:
            frame, offset, value = map(number_of, question.words[1:])
            has = self.word(scenario, order, frame, offset)
            return None if has in (None, value) else f"the word is {has:#x}"
        return None if question.is_so(report) else "the report of the order that is told doesn't say so"

    def faults(self, scenario: Path, question: Question, answer: Answer) -> list[str]:
        """What is wrong with the orders that an answer tells."""
        if answer.order is not None:
            fault = self.fault(scenario, question, answer.order)
            return [fault] if fault else []
        found = []
        for number, outcome in enumerate(answer.outcomes or (), 1):
            report = self.report(scenario, outcome.order)
            if not report.startswith(RESTS):
                found.append(f"outcome {number}: the run isn't over after the order that is told")
            if outcome_in(report) != tuple(map(reported, outcome.lines)):
                found.append(f"outcome {number}: the report of the order that is told has {outcome_in(report)}")
        return found
