"""The legend of a picture: samples with what they mean, in columns."""

from __future__ import annotations

from collections.abc import Callable
from dataclasses import dataclass

from scene import Item, Label, text_width

TITLE_BASE, LEGEND = 26.0, 40.0
LINE_HEIGHT = 18.0
SAMPLE = 40.0
GAP = 22.0

# Draws a sample whose middle is at these places.
Sample = Callable[[float, float], tuple[Item, ...]]


@dataclass(frozen=True, slots=True)
class Entry:
    """A sample and its meaning."""

    sample: Sample
    text: str


def place_title(title: str, note: str, x: float) -> tuple[list[Item], float]:
    """The title, the note under it if there is one, and where the legend begins."""
    items: list[Item] = [Label(x, TITLE_BASE, title, "title")]
    if not note:
        return items, LEGEND
    return [*items, Label(x, TITLE_BASE + LINE_HEIGHT, note, "soft")], LEGEND + LINE_HEIGHT


def place_legend(entries: list[Entry], x: float, y: float, width: float) -> tuple[list[Item], float]:
    """The legend from a corner on, in as many columns as fit, and where it ends. Its columns are read from top to bottom."""
    columns = _columns(entries, width)
    items: list[Item] = []
    for column in columns:
        for at, entry in enumerate(column):
            middle = y + (at + 0.5) * LINE_HEIGHT
            items += entry.sample(x + SAMPLE / 2 - 4, middle)
            items.append(Label(x + SAMPLE, middle + 4, entry.text))
        x += _column_width(column)
    return items, y + max(map(len, columns), default=0) * LINE_HEIGHT


def _columns(entries: list[Entry], width: float) -> list[list[Entry]]:
    """The entries in the least number of lines for which the columns fit; at least one column."""
    for rows in range(1, len(entries) + 1):
        columns = [entries[at : at + rows] for at in range(0, len(entries), rows)]
        if sum(map(_column_width, columns)) - GAP <= width:
            return columns
    return [entries] if entries else []


def _column_width(column: list[Entry]) -> float:
    return SAMPLE + max(text_width(entry.text) for entry in column) + GAP
