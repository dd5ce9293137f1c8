"""Kept answers: files of questions with what `nova_explore` answers to each.

A file `NAME.explore` belongs to the scenario `NAME.nova` beside it. A line `? WORDS` has the words of a question; the lines behind it are the
answer, byte for byte. Lines that begin with `#` are remarks.
"""

from __future__ import annotations

import shlex
import subprocess
from dataclasses import dataclass
from pathlib import Path

from where import EXAMPLES, Refused, Replayer, asked

from answers import Unread, read_answer
from questions import FORMS, Question

OPTIONS = ("--turns", "--states")


@dataclass(slots=True)
class Kept:
    """A question with its answer: the remarks before it, its words, and the text of the answer."""

    remarks: str
    words: str
    answer: str = ""

    @property
    def given(self) -> list[str]:
        """The words behind the scenario."""
        return shlex.split(self.words)

    @property
    def question(self) -> Question:
        """The question without options."""
        words, left = self.given, []
        while words:
            word = words.pop(0)
            if word in OPTIONS:
                words.pop(0)
            else:
                left.append(word)
        return Question(tuple(left))


def read_kept(text: str) -> tuple[list[Kept], str]:
    """The questions of a file, and the remarks behind them."""
    found: list[Kept] = []
    remarks = ""
    for line in text.splitlines(keepends=True):
        if line.startswith("#"):
            remarks += line
        elif line.startswith("? "):
            found.append(Kept(remarks, line[2:].rstrip("\n")))
            remarks = ""
        elif found and not remarks:
            found[-1].answer += line
        else:
            raise ValueError(f"{line!r} is no remark and no part of an answer")
    return found, remarks


def text_of(kept: list[Kept], remarks: str) -> str:
    """The text of a file."""
    return "".join(f"{one.remarks}? {one.words}\n{one.answer}" for one in kept) + remarks


def files() -> list[Path]:
    """The files of the examples."""
    return sorted(EXAMPLES.rglob("*.explore"))


def scenario_of(file: Path) -> Path:
    """The scenario of a file."""
    return file.with_suffix(".nova")


def faults_of(file: Path, program: Path, replayer: Replayer) -> list[str]:
    """What is wrong with the answers of a file: one differs, has another status, or tells an order that doesn't do what is told of it."""
    found = []
    kept, _ = read_kept(file.read_text())
    for one in kept:
        if len(one.question.words) - 1 not in FORMS[one.question.words[0]]:
            found.append(f"{one.words}: no question")
            continue
        try:
            wanted = read_answer(one.answer)
            text, answer = asked(program, scenario_of(file), one.given)
        except (Refused, Unread, subprocess.SubprocessError) as why:
            found.append(f"{one.words}: {why}")
            continue
        if text != one.answer:
            pairs = zip(text.splitlines() + ["(the end)"], one.answer.splitlines() + ["(the end)"], strict=False)
            found.append(f"{one.words}: {next(f'{a!r} in place of {b!r}' for a, b in pairs if a != b)}")
        elif answer != wanted:
            found.append(f"{one.words}: read in another way")
        found += [f"{one.words}: {fault}" for fault in replayer.faults(scenario_of(file), one.question, answer)]
    return [f"{file.name}: {fault}" for fault in found]


def write(file: Path, program: Path) -> None:
    """Has the program answer the questions of a file anew."""
    kept, remarks = read_kept(file.read_text())
    for one in kept:
        one.answer, _ = asked(program, scenario_of(file), one.given)
    file.write_text(text_of(kept, remarks))
