"""Questions, and what the report of an order that is told for one must say."""

from __future__ import annotations

import re
from dataclasses import dataclass

CONTEXT = re.compile(r"^ec (\d+) \w+ (\w+)", re.MULTILINE)
CONSOLE = re.compile(r"^console (\d+) ([0-9a-f]+)$", re.MULTILINE)
RESTS = "run quiet "
# How many words follow each word of a question; and of those the tool has beside them.
OWN = {"asserts": (0,)}
FORMS = {"console": (2,), "text": (2,), "word": (3,), "blocked": (0,), "dies": (0, 1, 2), "stuck": (1,), "hangs": (1, 2), "stores": (3,), "at": (2, 4), "ends": (0,)}


def number_of(text: str) -> int:
    """A number of the formats' form. Raises ValueError."""
    return int(text, 16 if text.startswith("0x") else 10)


def states_in(report: str) -> dict[int, str]:
    """The state of each execution context of a report."""
    return {int(number): state for number, state in CONTEXT.findall(report)}


def shown_in(report: str, console: int) -> bytes:
    """What a console shows by a report."""
    return next((bytes.fromhex(digits) for number, digits in CONSOLE.findall(report) if int(number) == console), b"")


def reported(line: str) -> str:
    """A line of an outcome as far as a report tells it: of what an execution context waits for it tells nothing."""
    return " ".join(line.split(" ")[:3]) if line.startswith("ec ") else line


def outcome_in(report: str) -> tuple[str, ...]:
    """The lines of an outcome by a report: states of execution contexts, semaphores and consoles."""
    kept = []
    for line in report.splitlines():
        words = line.split(" ")
        if words[0] == "ec":
            kept.append(f"ec {words[1]} {words[3]}")
        elif words[0] in ("sm", "console"):
            kept.append(line)
    return tuple(kept)


@dataclass(frozen=True, slots=True)
class Question:
    """A question, by its words."""

    words: tuple[str, ...]

    @property
    def is_of_memory(self) -> bool:
        """Whether reports don't tell what is asked for."""
        return self.words[0] == "word"

    def is_so(self, report: str) -> bool:
        """Whether a report tells what is asked for. Of memory, and of what is next, it tells nothing: then the answer is true."""
        word, *given = self.words
        states, is_over = states_in(report), report.startswith(RESTS)
        match word:
            case "console":
                return shown_in(report, number_of(given[0])).startswith(bytes.fromhex(given[1]))
            case "text":
                return shown_in(report, number_of(given[0])).startswith(given[1].encode())
            case "blocked":
                return is_over and "blocked" in states.values()
            case "stuck":
                return is_over and states.get(number_of(given[0]), "dead") != "dead"
            case "dies" if given[:1] == ["but"]:
                return any(state == "dead" for number, state in states.items() if number != number_of(given[1]))
            case "dies":
                return "dead" in (states.values() if not given else [states.get(number_of(given[0]))])
            case _:
                return True
