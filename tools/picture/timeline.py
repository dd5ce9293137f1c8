"""Where each turn lies on a picture whose time goes from top to bottom, and which stretches without events are folded."""

from __future__ import annotations

from bisect import bisect_left
from collections.abc import Callable, Iterable, Iterator
from dataclasses import dataclass
from enum import Enum


class Stretch(Enum):
    """What a part of the time axis is."""

    EVENT = "one turn with an event"
    PLAIN = "turns without an event, drawn to scale"
    FOLD = "turns without an event, drawn short"
    TICKS = "ticks alone, drawn short"


ROW = 20.0
TURN = 4.0
FOLD = 26.0


@dataclass(frozen=True, slots=True)
class Part:
    """Turns `first` to `last`, from `top` to `bottom`."""

    stretch: Stretch
    first: int
    last: int
    top: float
    bottom: float

    @property
    def turns(self) -> int:
        return self.last - self.first + 1

    @property
    def is_short(self) -> bool:
        """Whether its turns have no places of their own."""
        return self.stretch in (Stretch.FOLD, Stretch.TICKS)

    @property
    def middle(self) -> float:
        return (self.top + self.bottom) / 2

    def end_of(self, turn: int) -> float:
        """Where a turn of the part ends."""
        return self.top + (self.bottom - self.top) * (turn - self.first + 1) / self.turns


@dataclass(frozen=True, slots=True)
class Window:
    """The turns that are drawn, both ends included. `asked` is the last turn that was asked for, where the picture is cut before it."""

    first: int
    last: int
    asked: int | None = None

    def note(self, turns: int) -> str:
        """What is said of a picture that is cut; empty where it is not."""
        if self.asked is None:
            return ""
        shown = f"Turns {self.first:,} to {self.last:,} of {turns:,} are drawn"
        return f"{shown}: up to turn {self.asked:,} the picture would pass 5 MB, and --all draws it."

    def has(self, turn: int) -> bool:
        return self.first <= turn <= self.last


class Timeline:
    """The parts of a window, one after another. `ticks` tells how many of some turns without an event are ticks, if that is told."""

    def __init__(
        self, places: Iterable[int], window: Window, fold: int, top: float, ticks: Callable[[int, int], int | None] = lambda *_: None
    ) -> None:
        self.window = window
        self.parts = list(_parts(places, window, fold, top, ticks))
        self.lasts = [part.last for part in self.parts]
        self.top = top
        self.bottom = self.parts[-1].bottom if self.parts else top

    def part_of(self, turn: int) -> Part:
        """The part in which a turn of the window lies."""
        return self.parts[bisect_left(self.lasts, turn)]

    def end_of(self, turn: int) -> float:
        """Where a turn ends; for one outside the window the nearer end of the picture."""
        if turn < self.window.first or not self.parts:
            return self.top
        if turn >= self.window.last:
            return self.bottom
        return self.part_of(turn).end_of(turn)

    def change_at(self, turn: int) -> float:
        """Where what changes in a turn is drawn: the middle of its row, where the event's mark is."""
        if self.window.has(turn):
            part = self.part_of(turn)
            if part.stretch is Stretch.EVENT:
                return part.middle
        return self.end_of(turn)


def _parts(
    places: Iterable[int], window: Window, fold: int, top: float, ticks: Callable[[int, int], int | None]
) -> Iterator[Part]:
    at = window.first
    for place in (*(place for place in places if window.has(place)), window.last + 1):
        if at < place:
            gap = place - at
            stretch = Stretch.TICKS if ticks(at, place - 1) == gap else Stretch.FOLD if gap > fold else Stretch.PLAIN
            bottom = top + (gap * TURN if stretch is Stretch.PLAIN else FOLD)
            yield Part(stretch, at, place - 1, top, bottom)
            top = bottom
        if place <= window.last:
            yield Part(Stretch.EVENT, place, place, top, top + ROW)
            top += ROW
        at = place + 1
