"""Asks the proved program `nova_debug`, which makes the run again, what its report doesn't tell."""

from __future__ import annotations

import sys
from collections.abc import Iterator
from pathlib import Path

from report import Report

TOP = Path(__file__).resolve().parents[2]
sys.path += [str(TOP / "tools" / "debug"), str(TOP / "tools" / "build")]

from backend import PART, BackEnd, Refused, Slice  # noqa: E402
from built import ended, path_of, there  # noqa: E402

# Where the repository's program is, once it is built.
PROGRAM = path_of("nova_debug")

__all__ = ["PROGRAM", "Exact", "Refused", "Slice", "ended", "there"]


def _words_of(line: str) -> list[str]:
    """What a line of a report tells of an event, or an answer of the program: all but the turn and who pays."""
    word, _, cpu, *rest = line.split()
    return [cpu, *rest] if word == "at" else [cpu, *rest[1:]]


class Exact:
    """The run of a scenario and an order. Raises Refused where it is not that of the report."""

    def __init__(self, program: Path, scenario: Path, order: Path | None, report: Report) -> None:
        try:
            self._back = BackEnd(program, scenario, order, max(report.turns, 1))
        except OSError as error:
            raise Refused(f"{program}: {error.strerror}") from error
        if not self._is_of(report):
            self._back.close()
            raise Refused(f"{scenario}: its run is not that of the report{'' if order else '; if that has an order of its own, --order names it'}")

    def _is_of(self, report: Report) -> bool:
        """Whether the run is that of a report, of which some events may be left out."""
        events = iter(report.events)
        event = next(events, None)
        for start in range(0, report.turns, PART):
            told = self._back.ask(f"events {start} {min(start + PART, report.turns)}")
            while event is not None and event.place <= start + PART:
                at = event.place - 1 - start
                if at >= len(told) or _words_of(told[at]) != _words_of(event.line):
                    return False
                event = next(events, None)
        self._back.go(report.turns)
        return self._back.end == report.turns and self._back.ask("contexts") == [context.line for context in report.contexts]

    def woken(self, context: int, places: list[int]) -> int | None:
        """In which of some turns an execution context was woken that waits at a semaphore before the first; they are counted from 1."""
        low, high = 0, len(places)
        while low < high:
            middle = (low + high) // 2
            self._back.go(places[middle])
            low, high = (middle + 1, high) if self._back.contexts()[context].state == "blocked" else (low, middle)
        return places[low] if low < len(places) else None

    def slices(self, first: int, last: int) -> Iterator[Slice]:
        """Who pays and who acts from a turn on to another one, counted from 1; nothing where the program doesn't tell it."""
        try:
            yield from self._back.slices(first - 1, last)
        except Refused:
            return

    def domains(self) -> dict[int, int]:
        """The protection domain of each execution context."""
        return self._back.domains()

    def began(self, context: int) -> int | None:
        """The address of the first instruction that an execution context executed; none where it executed none."""
        self._back.go(0)
        found = self._back.run([f"by {context}"], self._back.end)
        following = self._back.next() if found else None
        self._back.go(self._back.end)
        return following[2] if following else None

    def close(self) -> None:
        """Ends the program."""
        self._back.close()
