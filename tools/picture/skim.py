"""Shortens a large report to the events that a window is drawn from, so that the others are looked at and not built.

What an execution context does where the window begins follows from its last events before it, and who is woken or ends a transfer in
the window from the next ones after it. So of events that say the same the first of the run, the last before the window and the first
after it are kept, beside those of the window and those that made objects, whose numbers are counted.
"""

from __future__ import annotations

import re
from bisect import bisect_left, bisect_right
from collections.abc import Iterator
from dataclasses import dataclass
from itertools import compress
from operator import itemgetter, lt

from report import HEAD, Kind
from timeline import Window

# A report of fewer bytes is not shortened.
LARGE = 1_000_000
# A picture that is cut has at most so many events.
MOST = 1000

_NUMBER = r"(?:0|[1-9][0-9]{0,19}+)"
# Events whose last two numbers change nothing of what execution contexts do: all of one context say the same.
_TOLD = (Kind.ANSWER, Kind.BEGIN, Kind.HELP, Kind.SENT, Kind.ABORT, Kind.IRQ)
_ALIKE = "|".join(kind.value for kind in Kind if kind not in _TOLD)
# A line `at`: its turn, and what it says.
_LINE = re.compile(
    rf"^at ({_NUMBER}) ({_NUMBER} {_NUMBER} "
    rf"(?:(?:{'|'.join(kind.value for kind in _TOLD)}) {_NUMBER} {_NUMBER}$|(?:{_ALIKE})(?= {_NUMBER} {_NUMBER}$)))",
    re.MULTILINE,
)
_CREATES = re.compile(r" (?:answer [2-6] 0|begin 2 [0-9]+)$")
_RANGES = re.compile(r" (?:made|gone|answer [2-6] 0|begin 2 [0-9]+)$")


@dataclass(frozen=True, slots=True)
class Events:
    """The lines `at` of a report: where they lie in its text, the turn of each, and what it says."""

    start: int
    end: int
    turns: list[int]
    says: list[str]

    def cpus(self) -> list[int]:
        """The processor of each event."""
        known = {said: int(said.split(" ", 1)[0]) for said in set(self.says)}
        return list(map(known.__getitem__, self.says))

    def firings(self) -> Iterator[tuple[int, int]]:
        """The turn and the source of each interrupt."""
        for turn, said in zip(self.turns, self.says):
            _, _, kind, *numbers = said.split(" ")
            if kind == Kind.IRQ.value:
                yield turn, int(numbers[0])

    def within(self, window: Window) -> range:
        """The places of the events of the window."""
        return range(bisect_left(self.turns, window.first), bisect_right(self.turns, window.last))

    def cut(self, window: Window) -> Window:
        """A shorter window: up to its event MOST, or where it has not more, half of its turns."""
        inside = self.within(window)
        if len(inside) > MOST:
            last = self.turns[inside[MOST - 1]]
        else:
            last = (window.first + window.last) // 2
        return Window(window.first, last, window.last if window.asked is None else window.asked)


def turns_of(text: str) -> int | None:
    """The turns of the run, by the report's first line."""
    head = HEAD.fullmatch(text[: text.find("\n")])
    return int(head[2]) if head is not None else None


def shorten(text: str, events: Events, window: Window, with_ranges: bool) -> str:
    """The report with those events alone that the window is drawn from, and with all of capability ranges where these are wanted."""
    kept = _kept(events, window, _RANGES if with_ranges else _CREATES)
    lines = text[events.start : events.end].split("\n")
    return text[: events.start] + "".join(f"{lines[at]}\n" for at in kept) + text[events.end :]


def find_events(text: str) -> Events | None:
    """The events, if each line between the first and the last one is of the form, and the turns rise; the reader says what is wrong."""
    start = text.find("\n") + 1
    end = text.find("\n", text.rfind("\nat ") + 1) + 1
    found = _LINE.findall(text, start, end)
    if len(found) != text.count("\n", start, end):
        return None
    turns = list(map(int, map(itemgetter(0), found)))
    rise = all(map(lt, [0, *turns], [*turns, (turns_of(text) or 0) + 1]))
    return Events(start, end, turns, list(map(itemgetter(1), found))) if rise else None


def _kept(events: Events, window: Window, wanted: re.Pattern[str]) -> list[int]:
    """The places of the events that are kept, in their order."""
    inside = events.within(window)
    before, after = range(inside.start), range(inside.stop, len(events.says))
    firsts, lasts = _first_of_each(events.says, before), _last_of_each(events.says, before)
    nexts = _first_of_each(events.says, after)
    kept = {*inside, *firsts.values(), *lasts.values(), *nexts.values()}
    made = {said for said in (*firsts, *nexts) if wanted.search(said)}
    return sorted(kept.union(compress(range(len(events.says)), map(made.__contains__, events.says))))


def _first_of_each(says: list[str], places: range) -> dict[str, int]:
    """By what the events at these places say, the first that says it."""
    return dict(zip(reversed(says[places.start : places.stop]), reversed(places)))


def _last_of_each(says: list[str], places: range) -> dict[str, int]:
    return dict(zip(says[places.start : places.stop], places))
