"""Lays out the picture of a run: time from top to bottom, a lane for each execution context, a row for each event."""

from __future__ import annotations

from collections import defaultdict
from collections.abc import Iterator
from dataclasses import dataclass, field

import scene
from clocks import Firing
from history import Arrow, Doing, Lead, Span, Wakes
from legend import place_legend, place_title
from naming import Names
from objects import ROOT
from order import Order
from report import Event, Kind, Report, Source
from run import Run, gather, paid_by, row_text, title_of
from run_legend import run_entries
from scene import TITLE, Box, Group, Item, Label, Line, Mark, Scene, text_width
from signs import BARS, DUE, LEADS, LINES, OPEN_HEADS, bar_half, mark_of
from strips import STRIP, draw_strips
from timeline import Stretch, Timeline, Window
from words import counted

MARGIN = 14.0
LEAST_WIDTH = 720.0
LANE, SOURCE_LANE = 62.0, 76.0
BETWEEN = 18.0
HEAD = 62.0
# With more execution contexts than this, only those that something happens to are drawn.
MOST_LANES = 32
# With at least so many lanes their heads are far from the rows, and the name of a lane stands beside each mark.
WIDE = 20


@dataclass(slots=True)
class Lanes:
    """Where the lanes, those of the sources and the strips of the processors' turns are, from left to right, between the turns and the texts."""

    left: float
    right: float
    groups: list[tuple[int | None, float, float]] = field(default_factory=list)
    lanes: dict[int, float] = field(default_factory=dict)
    sources: dict[int, float] = field(default_factory=dict)
    strips: dict[int, float] = field(default_factory=dict)


def draw_run(
    name: str,
    report: Report,
    order: Order | None,
    window: Window,
    fold: int,
    firings: dict[int, Firing] | None = None,
    ask: Wakes | None = None,
    names: Names = Names(),
) -> Scene:
    """The picture of the turns of the window; a stretch of more than `fold` turns without an event is drawn short, and so is one of ticks
    alone. `firings` are those of the sources by their turns, where it is told when they were due. Who was woken when is asked, where one can."""
    run = gather(report, order, window, firings or {}, ask)
    lanes = _place_lanes(run)
    texts = [names.text(row_text(event, run)) for event, _ in run.events]
    text_x = lanes.right + BETWEEN
    widest = max(map(text_width, [*texts, _fold_text(report.turns, None)]))
    title = f"{name}: {title_of(run)}"
    note = window.note(report.turns)
    width = max(LEAST_WIDTH, text_x + widest + MARGIN, max(text_width(title, TITLE), text_width(note)) + 2 * MARGIN)
    picture = Scene(title, width)
    titles, above = place_title(title, note, MARGIN)
    legend, below = place_legend(list(run_entries(run, names)), MARGIN, above, width - 2 * MARGIN)
    head = below + 12
    timeline = Timeline([event.place for event, _ in run.events], window, fold, head + HEAD, run.ticks.within)
    picture.items += [*titles, *legend]
    picture.items += _folds(run, timeline, width, text_x)
    if order is not None:
        picture.items += draw_strips(order, timeline, lanes.strips)
    picture.items += _heads(run, lanes, head, names)
    picture.items += _spans(run, lanes, timeline)
    picture.items += _source_lanes(run, lanes, timeline)
    for (event, payers), text in zip(run.events, texts):
        picture.items.append(_row(event, payers, text, run, lanes, timeline.change_at(event.place), text_x))
    picture.items += _feet(run, lanes, timeline)
    picture.height = timeline.bottom + (42 if lanes.sources else 30)
    return picture


def _shown(run: Run) -> list[int]:
    """The execution contexts that have a lane: those that are alive in the window, or where they are many, only the busy ones."""
    busy = {event.context for event, _ in run.events if event.kind is not Kind.IRQ}
    busy |= {arrow.target for arrows in run.arrows.values() for arrow in arrows}
    busy |= {arrow.source for arrows in run.arrows.values() for arrow in arrows if arrow.lead is not Lead.INTERRUPT}
    alive = busy | {span.context for span in run.spans}
    if run.is_whole:
        alive = {context.number for context in run.report.contexts}
    return sorted(alive if len(alive) <= MOST_LANES else busy)


def _shown_sources(run: Run) -> list[Source]:
    """The sources that have a lane: all of them, or those that fire in the window."""
    fired = {event.a for event, _ in run.events if event.kind is Kind.IRQ}
    return [source for source in run.report.sources if run.is_whole or source.number in fired]


def _place_lanes(run: Run) -> Lanes:
    groups: dict[int | None, list[int]] = defaultdict(list)
    groups.update({cpu: [] for cpu in set(run.order.cpus if run.order is not None else ())})
    for number in _shown(run):
        groups[run.history.processors.get(number)].append(number)
    sources: dict[int | None, list[int]] = defaultdict(list)
    for source in _shown_sources(run):
        sources[source.cpu].append(source.number)
        groups[source.cpu] += []
    x = MARGIN + max(text_width(str(run.report.turns)), text_width("turn"))
    placed = Lanes(x, x)
    for cpu in sorted(groups, key=lambda cpu: (cpu is None, cpu or 0)):
        x += BETWEEN
        left = x
        if run.order is not None and cpu is not None:
            placed.strips[cpu] = x
            x += STRIP
        for number in groups[cpu]:
            placed.lanes[number] = x + LANE / 2
            x += LANE
        for number in sources[cpu]:
            placed.sources[number] = x + SOURCE_LANE / 2
            x += SOURCE_LANE
        x = max(x, left + text_width(_group_name(cpu)))
        placed.groups.append((cpu, left, x))
    placed.right = x
    return placed


def _group_name(cpu: int | None) -> str:
    return f"processor {cpu}" if cpu is not None else "without a turn"


def _heads(run: Run, lanes: Lanes, top: float, names: Names) -> Iterator[Item]:
    """The names of the processors and of the execution contexts."""
    yield Label(lanes.left, top + 48, "turn", "end small")
    for cpu, left, right in lanes.groups:
        yield Line(left, top + 17, right, top + 17, "rule")
        yield Label((left + right) / 2, top + 12, _group_name(cpu), "mid soft")
    contexts = {context.number: context for context in run.report.contexts}
    for number, x in lanes.lanes.items():
        context = contexts[number]
        sort = "root" if number == ROOT else context.sort
        yield _head(f"EC {number}", names.head(number, sort), context.line, x, top, LANE)
    for number, x in lanes.sources.items():
        source = run.report.sources[number]
        yield _head(f"source {number}", names.head(source.semaphore, f"ups SM {source.semaphore}"), source.line, x, top, SOURCE_LANE)
    for x in lanes.strips.values():
        yield Label(x + STRIP / 2, top + 48, "turns", "mid small")


def _head(name: str, sort: str, line: str, x: float, top: float, width: float) -> Item:
    items = (
        Box(x - width / 2 + 4, top + 23, width - 8, 30, "headbox", 4),
        Label(x, top + 36, name, "mid head"),
        Label(x, top + 48, sort, "mid small"),
    )
    return Group(line, items)


def _feet(run: Run, lanes: Lanes, timeline: Timeline) -> Iterator[Item]:
    """The states at the end of the run, where the picture reaches it."""
    if run.window.last < run.report.turns:
        return
    states = {context.number: context.state for context in run.report.contexts}
    for number, x in lanes.lanes.items():
        yield Label(x, timeline.bottom + 16, states[number], "mid small")
    for number, x in lanes.sources.items():
        source = run.report.sources[number]
        yield Label(x, timeline.bottom + 16, f"fired {source.fired}", "mid small")
        yield Label(x, timeline.bottom + 28, f"worst {source.worst}", "mid small")


def _source_lanes(run: Run, lanes: Lanes, timeline: Timeline) -> Iterator[Item]:
    """A line for each source, and a bar where a firing was due before its turn came."""
    for x in lanes.sources.values():
        yield Line(x, timeline.top, x, timeline.bottom, LINES[Doing.PARKED])
    for event, _ in run.events:
        firing = run.firings.get(event.place)
        if event.kind is Kind.IRQ and firing is not None and firing.delay:
            top, bottom = timeline.end_of(firing.place - 1), timeline.change_at(event.place)
            yield Box(lanes.sources[event.a] - 8, top, 16, bottom - top, DUE, 3)


def _folds(run: Run, timeline: Timeline, width: float, text_x: float) -> Iterator[Item]:
    for part in timeline.parts:
        if part.is_short:
            yield Box(0, part.top + 3, width, part.bottom - part.top - 6, "band")
            yield Label(text_x, part.middle + 4, _fold_text(part.turns, run.ticks.within(part.first, part.last)), "soft")


def _fold_text(turns: int, ticks: int | None) -> str:
    if ticks == turns:
        return counted(turns, "tick", "ticks")
    told = f", of them {counted(ticks, 'tick', 'ticks')}" if ticks else ""
    return f"{counted(turns, 'turn', 'turns')} without an event{told}"


def _spans(run: Run, lanes: Lanes, timeline: Timeline) -> Iterator[Item]:
    """What each execution context does: bars first, and lines over them."""
    spans = [span for span in run.spans if span.context in lanes.lanes]
    for span in (span for span in spans if span.doing in BARS):
        yield _bar(span, lanes.lanes[span.context], timeline)
    for span in spans:
        x = lanes.lanes[span.context]
        style = LINES.get(span.doing, "runs")
        if span.doing is not Doing.HELPED:
            yield Line(x, timeline.change_at(span.start), x, timeline.change_at(span.end), style)


def _bar(span: Span, x: float, timeline: Timeline) -> Item:
    top, bottom = timeline.change_at(span.start), timeline.change_at(span.end)
    half = bar_half(span.doing)
    return Box(x - half, top, half * 2, bottom - top, f"bar {BARS[span.doing]}", 3)


def _row(event: Event, payers: frozenset[int], text: str, run: Run, lanes: Lanes, y: float, text_x: float) -> Item:
    """The row of an event: its turn, its mark, its arrows and its text."""
    of_source = event.kind is Kind.IRQ
    x = lanes.sources[event.a] if of_source else lanes.lanes[event.context]
    arrows = [arrow for arrow in run.arrows.get(event.place, ()) if of_source or {arrow.source, arrow.target} <= lanes.lanes.keys()]
    ends = [end for arrow in arrows for end in _ends(arrow, lanes)]
    name = f"source {event.a}" if of_source else f"EC {event.context}"
    items: list[Item] = [
        Box(0, y - 10, text_x + text_width(text) + MARGIN, 20, "hit"),
        Label(lanes.left, y + 4, str(event.place), "end soft"),
        Line(max([x, *ends]) + 12, y, text_x - 6, y, "guide"),
        *(_arrow(arrow, lanes, y) for arrow in arrows),
        Mark(x, y, *mark_of(event, payers, run.ranks)),
        *([Label(x + 12, y - 3, name, "small")] if len(lanes.lanes) + len(lanes.sources) >= WIDE else []),
        Label(text_x, y + 4, text),
    ]
    due = f"\ndue at clock {run.firings[event.place].moment}" if event.place in run.firings else ""
    return Group(f"{event.line}\n{paid_by(event, payers)}{due}", tuple(items))


def _ends(arrow: Arrow, lanes: Lanes) -> tuple[float, float]:
    """Where an arrow begins and ends."""
    source = lanes.sources if arrow.lead is Lead.INTERRUPT else lanes.lanes
    return source[arrow.source], lanes.lanes[arrow.target]


def _arrow(arrow: Arrow, lanes: Lanes, y: float) -> scene.Arrow:
    x1, x2 = _ends(arrow, lanes)
    side = 1 if x2 > x1 else -1
    near, far = (0, 9) if arrow.lead is Lead.ABORT else (9, 2)
    style = LEADS[arrow.lead] + ("" if arrow.sure else " unsure")
    return scene.Arrow(x1 + side * near, x2 - side * far, y, style, arrow.lead in OPEN_HEADS)
