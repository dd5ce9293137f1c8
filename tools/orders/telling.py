"""What is written: outcomes, and how far the work is."""

from __future__ import annotations

import time
from collections.abc import Callable, Iterator
from pathlib import Path
from typing import TextIO

from outcome import Outcome
from shared import Settings, counted
from tally import Group, Tally
from turns import Blocks, parting, text_of, turns_of

SECONDS = 0.5
# A run of more turns by rounds may come to more states than the explorer expands by itself.
SHORT = 2000


def is_short(settings: Settings, rounds: int) -> bool:
    """Whether the explorer may answer for all orders: of several processors, without sources, and at rest after few turns by rounds."""
    return settings.cpus > 1 and not settings.sources and 0 < rounds <= SHORT


def for_all(scenario: Path, question: str) -> str:
    """What to ask where all orders are meant."""
    return f"orders: of other orders nothing is known; of all, which in so short a run may be few states: ./nova-explore {scenario} {question}"


class Progress:
    """A line that says how far the work is, written anew from time to time; on a terminal in the same place."""

    def __init__(self, stream: TextIO, wanted: bool) -> None:
        self.stream = stream
        self.is_terminal = stream.isatty()
        self.is_wanted = wanted or self.is_terminal
        self._next = time.monotonic() + SECONDS
        self._is_open = False

    def tell(self, text: str) -> None:
        """Writes the text, if it is time to."""
        if not self.is_wanted or time.monotonic() < self._next:
            return
        self._next = time.monotonic() + SECONDS
        self.stream.write(f"\r\x1b[K{text}" if self.is_terminal else f"{text}\n")
        self.stream.flush()
        self._is_open = self.is_terminal

    def end(self) -> None:
        """Takes the line from the terminal."""
        if self._is_open:
            self.stream.write("\r\x1b[K")
            self.stream.flush()
            self._is_open = False


def size_of(blocks: Blocks) -> str:
    """How large an order is."""
    return f"{counted(len(blocks), 'block', 'blocks')}, {counted(turns_of(blocks), 'turn', 'turns')}"


def parting_text(mine: Blocks, other: Blocks) -> str:
    """Where an order parts from that of outcome 1."""
    place = parting(mine, other)
    if place is None:
        return "the same order"
    here = "ended" if place.cpu is None else f"processor {place.cpu}"
    there = "ended" if place.other is None else f"processor {place.other}"
    return f"parts from order 1 in turn {place.turn}, line {place.line}: {here}, there {there}"


def outcome_texts(tally: Tally[Outcome], names: list[Path], named: Callable[[str], str] = str) -> Iterator[str]:
    """What is said of each outcome: how often it was seen, its simplest order and where that parts from the first one's, and its lines, as `named`
    has them."""
    groups = tally.groups()
    for number, (group, name) in enumerate(zip(groups, names), 1):
        yield f"outcome {number}: {counted(group.orders, 'order', 'orders')}; the simplest, {size_of(group.simplest)}: {name}"
        if number > 1:
            yield f"  {parting_text(group.simplest, groups[0].simplest)}"
        yield from (f"  {named(line)}" for line in group.outcome or ("nothing of what was asked for",))


def write_orders(groups: list[Group[Outcome]], folder: Path) -> list[Path]:
    """Writes the simplest order of each outcome into the folder, by its number, and removes those that an earlier search left there."""
    folder.mkdir(parents=True, exist_ok=True)
    names = [folder / f"{number}.order" for number in range(1, len(groups) + 1)]
    for name, group in zip(names, groups):
        name.write_text(text_of(group.simplest))
    number = len(groups) + 1
    while (left := folder / f"{number}.order").is_file():
        left.unlink()
        number += 1
    return names
