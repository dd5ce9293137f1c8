"""The turns of each processor beside its lanes, where the order of the run is given."""

from __future__ import annotations

from collections import defaultdict
from collections.abc import Iterator
from dataclasses import dataclass

from order import Order
from scene import Box, Item, Label
from timeline import Timeline

STRIP = 40.0
# The least height in which a number is written.
READABLE = 11.0


@dataclass(frozen=True, slots=True)
class Section:
    """Turns one after another that are all folded or all not."""

    folded: bool
    first: int
    last: int


def draw_strips(order: Order, timeline: Timeline, strips: dict[int, float]) -> Iterator[Item]:
    """A box for each block of the order, and one for each processor in a folded stretch, with the number of its turns."""
    for section in _sections(timeline):
        if section.folded:
            yield from _folded(order, section, timeline, strips)
            continue
        for cpu, first, last in order.within(section.first, section.last):
            yield from _turns(strips[cpu], timeline.end_of(first - 1), timeline.end_of(last), last - first + 1)


def _folded(order: Order, section: Section, timeline: Timeline, strips: dict[int, float]) -> Iterator[Item]:
    counts: dict[int, int] = defaultdict(int)
    for cpu, first, last in order.within(section.first, section.last):
        counts[cpu] += last - first + 1
    part = timeline.part_of(section.first)
    for cpu in sorted(counts):
        yield from _turns(strips[cpu], part.top + 3, part.bottom - 3, counts[cpu])


def _sections(timeline: Timeline) -> Iterator[Section]:
    """The folded stretches, and what lies between them."""
    first: int | None = None
    for part in timeline.parts:
        if not part.is_short:
            first = part.first if first is None else first
            continue
        if first is not None:
            yield Section(False, first, part.first - 1)
            first = None
        yield Section(True, part.first, part.last)
    if first is not None:
        yield Section(False, first, timeline.window.last)


def _turns(x: float, top: float, bottom: float, count: int) -> Iterator[Item]:
    yield Box(x + 4, top + 0.5, STRIP - 8, max(1.0, bottom - top - 1), "tick bar", 2)
    if bottom - top >= READABLE:
        yield Label(x + STRIP / 2, (top + bottom) / 2 + 3, str(count), "mid small")
