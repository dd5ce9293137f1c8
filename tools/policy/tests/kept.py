"""Kept answers: questions with what `nova_policy` answers to each.

In `examples/policy/answers.txt` a line `? WORDS` has the words of a question. With lines `- OLD` and `+ NEW` behind it, it is asked of the scenario in
which NEW is in place of OLD, which stands there once. `> FILE` names a file that has the whole answer. `= STATUS` follows, and the lines of the answer, but for
those of ties. Lines with `#` are remarks.
"""

from __future__ import annotations

import shlex
import subprocess
import sys
import tempfile
from dataclasses import dataclass, replace
from pathlib import Path

TOP = Path(__file__).resolve().parents[3]
sys.path += [str(TOP / "tools" / name) for name in ("build", "picture")]
ANSWERS = TOP / "examples" / "policy" / "answers.txt"


@dataclass(frozen=True, slots=True)
class Kept:
    """A question with its answer: the remarks before it, its words, the edits of its scenario, a file of all, the status and lines."""

    remarks: str
    words: str
    edits: tuple[tuple[str, str], ...] = ()
    whole: str = ""
    status: int = -1
    answer: str = ""

    @property
    def policy(self) -> Path | None:
        """The file of its policy, if it has one."""
        words = shlex.split(self.words)
        return TOP / words[words.index("--policy") + 1] if "--policy" in words else None

    def scenario(self) -> str:
        """The text of its scenario. Raises ValueError where an old text doesn't stand there once."""
        text = (TOP / shlex.split(self.words)[0]).read_text()
        for old, new in self.edits:
            if text.count(old) != 1:
                raise ValueError(f"{self.words}: {old!r} stands there {text.count(old)} times")
            text = text.replace(old, new)
        return text

    def last_capability(self, program: Path) -> int:
        """The capability that was derived last, of those that the answer's lines or ties tell."""
        lines = [line.split() for line in asked(program, self).text.splitlines()]
        numbers = [int(words[at + 1]) for words in lines for at, word in enumerate(words) if word == "cap"]
        return max(numbers)


@dataclass(frozen=True, slots=True)
class Answer:
    """How the program ended, and what it wrote."""

    status: int
    text: str

    @property
    def shown(self) -> str:
        """The lines without those of ties."""
        return "".join(line for line in self.text.splitlines(keepends=True) if not line.startswith("tie "))

    def kept(self, question: Kept) -> Kept:
        """The question with this answer."""
        return replace(question, status=self.status, answer=self.shown)


def asked(program: Path, question: Kept) -> Answer:
    """What the program answers to a question."""
    with tempfile.TemporaryDirectory() as folder:
        words = shlex.split(question.words)
        if question.edits:
            words[0] = str(Path(folder, "edited.nova"))
            Path(words[0]).write_text(question.scenario())
        done = subprocess.run([str(program), *words], cwd=TOP, capture_output=True, text=True, check=False)
    return Answer(done.returncode, done.stdout)


def differing(answer: Answer, question: Kept) -> str | None:
    """What is another than it was kept, or none."""
    if answer.status != question.status:
        return f"status {answer.status} in place of {question.status}"
    if question.whole and (TOP / question.whole).read_text() != answer.text:
        return f"this isn't in {question.whole}"
    pairs = zip(answer.shown.splitlines() + ["(the end)"], question.answer.splitlines() + ["(the end)"], strict=False)
    return next((f"{one!r} in place of {other!r}" for one, other in pairs if one != other), None)


def read_kept(text: str) -> tuple[list[Kept], str]:
    """The questions of a file, and the remarks behind them."""
    found: list[Kept] = []
    remarks = ""
    for line in text.splitlines(keepends=True):
        begin, rest = line[:2], line[2:].rstrip("\n")
        if line.startswith("#") or line == "\n":
            remarks += line
        elif begin == "? ":
            found.append(Kept(remarks, rest))
            remarks = ""
        elif not found or remarks:
            raise ValueError(f"{line!r} is no remark and no part of an answer")
        elif begin == "- ":
            found[-1] = replace(found[-1], edits=(*found[-1].edits, (rest, "")))
        elif begin == "+ ":
            *before, (old, _) = found[-1].edits
            found[-1] = replace(found[-1], edits=(*before, (old, rest)))
        elif begin == "> ":
            found[-1] = replace(found[-1], whole=rest)
        elif begin == "= ":
            found[-1] = replace(found[-1], status=int(rest))
        else:
            found[-1] = replace(found[-1], answer=found[-1].answer + line)
    return found, remarks


def text_of(kept: list[Kept], remarks: str) -> str:
    """The text of a file."""
    return "".join(map(lines_of, kept)) + remarks


def lines_of(one: Kept) -> str:
    """A question and its answer, in lines."""
    edits = "".join(f"- {old}\n+ {new}\n" for old, new in one.edits)
    whole = f"> {one.whole}\n" if one.whole else ""
    return f"{one.remarks}? {one.words}\n{edits}{whole}= {one.status}\n{one.answer}"
