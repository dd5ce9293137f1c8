"""Reads of a scenario how many processors it has, and its sources of interrupts."""

from __future__ import annotations

from dataclasses import dataclass

from report import Fault
from words import counted


@dataclass(frozen=True, slots=True)
class Moments:
    """A source of interrupts: it is due when its processor has taken `first` turns, and again after each `period`, `count` times in all."""

    cpu: int
    first: int
    period: int
    count: int

    def moment(self, firing: int) -> int:
        """When it is due for that time, counted from 0, by the clock of its processor."""
        return self.first + firing * self.period


@dataclass(frozen=True, slots=True)
class Settings:
    """How many processors there are, and the sources."""

    cpus: int
    sources: list[Moments]


def read_settings(text: str) -> Settings:
    """The settings of a scenario, by its lines before the first image. Raises Fault where these are not of their forms."""
    cpus: int | None = None
    sources: list[Moments] = []
    for number, line in enumerate(text.split("\n"), start=1):
        word, *numbers = line.split("#")[0].split() or [""]
        if word == "image":
            break
        if word == "cpus":
            (cpus,) = _numbers(numbers, 1, number)
        elif word == "source":
            sources.append(Moments(*_numbers(numbers, 4, number)))
    if cpus is None:
        raise Fault(1, "a scenario has a line `cpus` before its images")
    return Settings(cpus, sources)


def _numbers(tokens: list[str], count: int, line: int) -> list[int]:
    """So many numbers, decimal or hexadecimal."""
    try:
        found = [int(token[2:], 16) if token.startswith("0x") else int(token) for token in tokens]
    except ValueError:
        found = []
    if len(found) != count:
        raise Fault(line, f"{counted(count, 'number is', 'numbers are')} wanted")
    return found
