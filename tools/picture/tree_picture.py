"""Lays out the picture of the delegations: each capability range under the one that it was given from."""

from __future__ import annotations

from collections import defaultdict
from collections.abc import Callable, Iterator
from dataclasses import dataclass, field
from functools import partial

from drawing import colour
from legend import Entry, place_legend, place_title
from naming import Names
from objects import Life, Objects, find_lives, find_objects
from report import CapRange, Kind, Report, Space
from scene import TITLE, Box, Group, Item, Label, Line, Scene, text_width
from timeline import Window
from words import counted, places, rights_of

MARGIN = 14.0
LEAST_WIDTH = 720.0
ROW = 22.0
INDENT = 26.0
BETWEEN = 22.0
# More protection domains than this are not listed.
MOST_DOMAINS = 24
# How many of a folded stretch are drawn at its beginning and at its end.
KEPT = 3


@dataclass(slots=True)
class Forest:
    """The capability ranges that are drawn: what is known of each, and the children of each, by rising number."""

    report: Report
    objects: Objects
    lives: dict[int, Life]
    held: dict[int, CapRange]
    lines: dict[int, list[str]]
    children: dict[int | None, list[int]] = field(default_factory=lambda: defaultdict(list))

    def is_leaf(self, number: int) -> bool:
        return number not in self.children


@dataclass(frozen=True, slots=True)
class Row:
    """A line of the picture: a range with its depth, or so many of them that are left out."""

    depth: int
    number: int
    left_out: int = 0


@dataclass(frozen=True, slots=True)
class Column:
    """A column of texts."""

    name: str
    text: Callable[[Forest, int], str]


def draw_delegations(name: str, report: Report, window: Window, fold: int, names: Names = Names()) -> Scene:
    """The ranges made or removed in the window and what these came from; all of them where the window is the whole run.

    Of more than `fold` ranges one under another that nothing was given from, only the first and last are drawn.
    """
    forest = _plant(report, window)
    rows = list(_rows(forest, fold))
    named = [Column(column.name, partial(_named, names, column)) for column in COLUMNS]
    columns = [column for column in named if any(column.text(forest, row.number) for row in rows)]
    xs = _column_places(forest, rows, columns)
    scene = Scene(f"{name}: {_title(report, window, forest)}")
    note = window.note(report.turns)
    titles_width = max(text_width(scene.title, TITLE), text_width(note))
    scene.width = max(LEAST_WIDTH, xs[-1] - BETWEEN + MARGIN, titles_width + 2 * MARGIN)
    ranks = _ranks(forest)
    titles, above = place_title(scene.title, note, MARGIN)
    legend, below = place_legend(list(_entries(forest, ranks)), MARGIN, above, scene.width - 2 * MARGIN)
    scene.items += [*titles, *legend]
    top = below + 14
    scene.items += [Label(x, top + 12, column.name, "soft") for x, column in zip(xs, columns)]
    scene.items += [Label(MARGIN, top + 12, "range", "soft"), Line(MARGIN, top + 18, scene.width - MARGIN, top + 18, "rule")]
    ys = [top + 24 + (at + 0.5) * ROW for at in range(len(rows))]
    scene.items += _branches(rows, ys)
    for row, y in zip(rows, ys):
        scene.items.append(_left_out(row, y) if row.left_out else _row(forest, row, y, zip(xs, columns), ranks, scene.width))
    scene.height = top + 24 + len(rows) * ROW + MARGIN
    return scene


def _plant(report: Report, window: Window) -> Forest:
    objects = find_objects(report)
    lives = find_lives(report, objects)
    held = {cap.number: cap for cap in report.ranges}
    lines: dict[int, list[str]] = defaultdict(list)
    for event in report.events:
        if event.kind in (Kind.MADE, Kind.GONE):
            lines[event.a].append(event.line)
    for cap in report.ranges:
        lines[cap.number].append(cap.line)
    forest = Forest(report, objects, lives, held, lines)
    for number in sorted(_shown(report, lives, window), key=lambda number: _root_rank(forest, number)):
        forest.children[lives[number].parent].append(number)
    return forest


def _shown(report: Report, lives: dict[int, Life], window: Window) -> set[int]:
    """The numbers of the ranges that are drawn. A parent of which nothing else is told gets a life too."""
    whole = window == Window(1, report.turns)
    shown: set[int] = set()
    for number, life in list(lives.items()):
        if whole or any(turn is not None and window.has(turn) for turn in (life.made, life.gone)):
            at: int | None = number
            while at is not None and at not in shown:
                shown.add(at)
                at = lives.setdefault(at, Life(None, None, None, None, None)).parent
    return shown


def _root_rank(forest: Forest, number: int) -> tuple[bool, int]:
    """Memory comes first among those without a parent; then the numbers rise."""
    cap = forest.held.get(number)
    is_root = forest.lives[number].parent is None
    return (is_root and not (cap is not None and cap.space is Space.MEMORY), number)


def _rows(forest: Forest, fold: int) -> Iterator[Row]:
    """The ranges from top to bottom, each before what was given from it."""
    roots = [Row(0, number) for number in forest.children.get(None, ())]
    way = list(reversed(_folded(forest, roots, fold)))
    while way:
        row = way.pop()
        yield row
        if not row.left_out and not forest.is_leaf(row.number):
            below = [Row(row.depth + 1, number) for number in forest.children[row.number]]
            way.extend(reversed(_folded(forest, below, fold)))


def _folded(forest: Forest, rows: list[Row], fold: int) -> list[Row]:
    """Siblings, where each long stretch of leaves is cut to its ends."""
    kept: list[Row] = []
    leaves: list[Row] = []
    for row in [*rows, None]:
        if row is not None and forest.is_leaf(row.number):
            leaves.append(row)
            continue
        if len(leaves) > max(fold, 2 * KEPT):
            cut = Row(leaves[0].depth, leaves[KEPT].number, len(leaves) - 2 * KEPT)
            leaves = [*leaves[:KEPT], cut, *leaves[-KEPT:]]
        kept += leaves
        leaves = []
        if row is not None:
            kept.append(row)
    return kept


def _domain(forest: Forest, number: int) -> str:
    domain = forest.lives[number].domain
    return f"PD {domain}" if domain is not None else ""


def _places(forest: Forest, number: int) -> str:
    cap = forest.held.get(number)
    if cap is None:
        return ""
    memory = cap.space is Space.MEMORY
    return places(cap.base, cap.order, "page" if memory else "selector", "pages" if memory else "selectors")


def _order(forest: Forest, number: int) -> str:
    return str(forest.held[number].order) if number in forest.held else ""


def _rights(forest: Forest, number: int) -> str:
    cap = forest.held.get(number)
    return rights_of(cap, forest.objects.sorts.get(cap.target)) if cap is not None else ""


def _target(forest: Forest, number: int) -> str:
    cap = forest.held.get(number)
    if cap is None:
        target = forest.lives[number].target
        return _object(forest, target) if target is not None else ""
    if cap.space is Space.OBJECTS:
        return _object(forest, cap.target)
    console = cap.target - _frames(forest)
    return f"console {console}" if console in forest.report.consoles else places(cap.target, cap.order, "frame", "frames")


def _object(forest: Forest, number: int) -> str:
    sort = forest.objects.sorts.get(number)
    return f"{sort.short} {number}" if sort else f"object {number}"


def _frames(forest: Forest) -> int:
    """How many frames of memory there are: the first range is all of them. Consoles come after them."""
    first = forest.held.get(0)
    return 1 << first.order if first is not None and first.space is Space.MEMORY else 1 << 32


def _life(forest: Forest, number: int) -> str:
    life = forest.lives[number]
    parts = [f"made in turn {life.made}"] if life.made is not None else []
    parts += [f"removed in turn {life.gone}"] if life.gone is not None else []
    return ", ".join(parts)


COLUMNS = (
    Column("held by", _domain),
    Column("places", _places),
    Column("order", _order),
    Column("rights", _rights),
    Column("leads to", _target),
    Column("when", _life),
)


def _named(names: Names, column: Column, forest: Forest, number: int) -> str:
    """A text of a column, with names."""
    return names.text(column.text(forest, number))


def _column_places(forest: Forest, rows: list[Row], columns: list[Column]) -> list[float]:
    """Where each column begins, and where the last one ends."""
    x = MARGIN + max((row.depth * INDENT + _box_width(row.number) for row in rows), default=0) + BETWEEN
    xs = [x]
    for column in columns:
        texts = [column.text(forest, row.number) for row in rows if not row.left_out]
        x += max(map(text_width, [column.name, *texts])) + BETWEEN
        xs.append(x)
    return xs


def _box_width(number: int) -> float:
    return max(26.0, text_width(str(number)) + 12)


def _title(report: Report, window: Window, forest: Forest) -> str:
    turns = counted(report.turns, "turn", "turns")
    if window != Window(1, report.turns):
        return f"capability ranges made or removed in turns {window.first:,} to {window.last:,} of {turns}"
    gone = any(life.gone is not None for life in forest.lives.values())
    return f"capability ranges after {turns}" + (", and those removed before" if gone else "")


def _ranks(forest: Forest) -> dict[int, int]:
    """The domains that hold something that is drawn, each with the place of its colour."""
    numbers = [number for siblings in forest.children.values() for number in siblings]
    domains = {domain for number in numbers if (domain := forest.lives[number].domain) is not None}
    return {domain: rank for rank, domain in enumerate(sorted(domains))}


def _entries(forest: Forest, ranks: dict[int, int]) -> Iterator[Entry]:
    for domain, rank in list(ranks.items())[:MOST_DOMAINS]:
        name = f"of the root’s domain, PD {domain}" if domain == 0 else f"of PD {domain}"
        yield Entry(partial(_sample, colour(rank)), name)
    if any(life.gone is not None for life in forest.lives.values()):
        yield Entry(partial(_sample, "frame gone"), "removed during the run")


def _sample(style: str, x: float, y: float) -> tuple[Item, ...]:
    return (Box(x - 10, y - 7, 20, 14, style, 4),)


def _branches(rows: list[Row], ys: list[float]) -> Iterator[Item]:
    """From each range down and across to what was given from it."""
    above: list[float] = []
    for row, y in zip(rows, ys):
        del above[row.depth :]
        if row.depth:
            x = MARGIN + (row.depth - 1) * INDENT + 13
            yield Line(x, above[-1], x, y, "rule")
            yield Line(x, y, MARGIN + row.depth * INDENT, y, "rule")
        above.append(y)


def _left_out(row: Row, y: float) -> Item:
    return Label(MARGIN + row.depth * INDENT + 8, y + 4, f"⋮ {counted(row.left_out, 'more range', 'more ranges')}", "soft")


def _row(forest: Forest, row: Row, y: float, columns: Iterator[tuple[float, Column]], ranks: dict[int, int], width: float) -> Item:
    life = forest.lives[row.number]
    x, size = MARGIN + row.depth * INDENT, _box_width(row.number)
    there = row.number in forest.held
    known = colour(ranks[life.domain]) if life.domain is not None else "unknown"
    items: list[Item] = [Box(0, y - ROW / 2, width, ROW, "hit"), Box(x, y - 8, size, 16, known if there else "hollow", 4)]
    if not there:
        items.append(Box(x, y - 8, size, 16, f"frame gone r-{known}", 4))
    items.append(Label(x + size / 2, y + 4, str(row.number), "mid head on" if there else "mid soft"))
    items += [Label(at, y + 4, column.text(forest, row.number), "" if there else "soft") for at, column in columns]
    return Group("\n".join(forest.lines[row.number]), tuple(items))
