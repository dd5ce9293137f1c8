"""The legend of the picture of a run: only what the picture shows."""

from __future__ import annotations

from collections.abc import Iterator
from functools import partial

from history import Doing, Lead
from legend import Entry
from naming import Names
from report import UNPAID
from run import Run
from scene import Arrow, Box, Item, Line, Mark, Shape
from signs import BARS, DUE, LEADS, LINES, MEANINGS, NOBODY, OPEN_HEADS, bar_half, colours_of, shape_of
from words import counted

# More scheduling contexts than this are not listed.
MOST_PAYERS = 24


def run_entries(run: Run, names: Names = Names()) -> Iterator[Entry]:
    """All entries: the marks, the arrows, the lines and bars, and who pays."""
    drawn = {shape_of(event) for event, _ in run.events}
    for shape in (shape for shape in Shape if shape in drawn):
        yield Entry(partial(_mark, shape, ("unknown",)), MEANINGS[shape])
    arrows = [arrow for arrows in run.arrows.values() for arrow in arrows]
    leads = {arrow.lead for arrow in arrows if arrow.sure}
    for lead in (lead for lead in Lead if lead in leads):
        yield Entry(partial(_arrow, LEADS[lead], lead in OPEN_HEADS), lead.value)
    if any(not arrow.sure for arrow in arrows):
        yield Entry(partial(_arrow, "wake unsure", False), "the first that may have woken it")
    doings = {span.doing for span in run.spans}
    for doing in (doing for doing in Doing if doing in doings):
        yield Entry(partial(_doing, doing), doing.value)
    if any(firing.delay for firing in run.firings.values()):
        yield Entry(_due, "a source is due, and fires at the end")
    yield from _payer_entries(run, names)


def _payer_entries(run: Run, names: Names) -> Iterator[Entry]:
    used = {payer for _, payers in run.events for payer in payers}
    shown = [payer for payer in run.report.payers if len(run.report.payers) <= MOST_PAYERS or payer.number in used]
    for payer in shown[:MOST_PAYERS]:
        owner = run.history.owners.get(payer.number)
        whose = f" of EC {owner}" if owner is not None else ""
        colours = colours_of(frozenset({payer.number}), run.ranks)
        yield Entry(partial(_mark, Shape.SQUARE, colours), names.text(f"SC {payer.number}{whose} pays: {counted(payer.ticks, 'turn', 'turns')}"))
    if any(event.kind in UNPAID for event, _ in run.events):
        yield Entry(partial(_mark, Shape.SQUARE, NOBODY), "nobody pays")
    if any(not payers and event.kind not in UNPAID for event, payers in run.events):
        yield Entry(partial(_mark, Shape.SQUARE, ("unknown",)), "who pays is not told")
    several = next((payers for _, payers in run.events if len(payers) > 1), None)
    if several is not None:
        yield Entry(partial(_mark, Shape.SQUARE, colours_of(several, run.ranks)), "one of these pays, which is not told")


def _mark(shape: Shape, colours: tuple[str, ...], x: float, y: float) -> tuple[Item, ...]:
    return (Mark(x, y, shape, colours),)


def _arrow(style: str, open_head: bool, x: float, y: float) -> tuple[Item, ...]:
    return (Arrow(x - 15, x + 15, y, style, open_head),)


def _due(x: float, y: float) -> tuple[Item, ...]:
    return (Box(x - 8, y - 7, 16, 14, DUE, 3),)


def _doing(doing: Doing, x: float, y: float) -> tuple[Item, ...]:
    if doing in BARS:
        half = bar_half(doing)
        return (Box(x - half, y - 7, half * 2, 14, f"bar {BARS[doing]}", 3),)
    return (Line(x, y - 8, x, y + 8, LINES[doing]),)
