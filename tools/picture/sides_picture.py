"""Lays out the sides of a state: protection domains in their sides, trusted ones first, and below each what ties it to others, with a line to those;
below all of a side its memory that others reach, with an arrow to these where it flows; then semaphores that sides share.

A tie that the sides don't respect is red, and so is where the capabilities of the first came from.
"""

from __future__ import annotations

from collections.abc import Iterator
from dataclasses import dataclass, field

from drawing import colour
from scene import LETTER, Box, Group, Item, Label, Line, Scene, text_width
from sides import TRUSTED, Link, Told
from sides_lines import Edge, Stream, Way, edges_of, red_tie, side_text, sides_of, span, streams_of

# Rows, what a box is wide, and how far lanes lie apart.
ROW, WIDE, LANE, MARGIN = 20, 92, 14, 16
RED = "c7"
# Colours of sides: all but red.
COLOURS = 7


@dataclass(frozen=True, slots=True)
class Lead:
    """A line from the end of a text to the box of a domain, by its number, or to the frame of a side, by its name."""

    hint: str
    x: float
    y: float
    target: int | str
    style: str
    head: str
    broken: bool


@dataclass(slots=True)
class Layout:
    """The scene, where its texts end, the height of each domain's box and of each side's frame, and the lines that lead there."""

    scene: Scene
    y: float = 0
    right: float = MARGIN + WIDE + 60.0
    heights: dict[int | str, float] = field(default_factory=dict)
    leads: list[Lead] = field(default_factory=list)


def verdict(told: Told) -> str:
    """What the sides are, in a heading."""
    served = f"served ({told.why})" if told.why else told.verdict
    return f"{served} after turn {told.turn}"


def place_text(layout: Layout, text: str, style: str, hint: str, x: float = MARGIN + 30) -> tuple[float, float]:
    """Places a text in a row of its own. Answers where a line from it begins."""
    label = Label(x, layout.y + 11, text, style)
    layout.scene.items.append(Group(hint, (label,)))
    end, middle = x + 2 + text_width(text), layout.y + 7
    layout.right = max(layout.right, end + 4)
    layout.y += ROW
    return end, middle


def place_box(layout: Layout, text: str, wide: float, corners: float) -> None:
    """Places a box with a text in it."""
    layout.scene.items.append(Box(MARGIN + 8, layout.y, wide, 22, "headbox", corners))
    layout.scene.items.append(Label(MARGIN + 8 + wide / 2, layout.y + 15, text, "mid"))
    layout.y += 28


def place_domain(layout: Layout, domain: int, edges: list[Edge]) -> None:
    """Places the box of a domain with the texts of its ties."""
    layout.heights[domain] = layout.y + 11
    place_box(layout, f"domain {domain}", WIDE, 3)
    for edge in (edge for edge in edges if edge.source == domain):
        x, y = place_text(layout, f"{edge.text} to {edge.target}", RED if edge.broken else "soft", edge.hint)
        rule = f"r-{RED}" if edge.broken else "rule"
        layout.leads.append(Lead(edge.hint, x, y, edge.target, f"{'call' if edge.strict else 'reply'} {rule}", f"call {rule}", edge.broken))


def place_stream(layout: Layout, stream: Stream, shade: str) -> None:
    """Places the texts of memory of a side and another."""
    shade = RED if stream.broken else shade
    reads = stream.way is Way.READS
    x, y = place_text(layout, stream.text, "soft" if reads else f"head {shade}", stream.hint, MARGIN + 8)
    style = "wake rule" if reads else f"runs r-{shade}"
    layout.leads.append(Lead(stream.hint, x, y, stream.target, style, "" if reads else style, stream.broken))
    for text in stream.texts:
        place_text(layout, text, RED if stream.broken else "soft", stream.hint)


def place_sides(layout: Layout, sides: dict[str, list[int]], edges: list[Edge], streams: list[Stream]) -> list[tuple[float, float, str]]:
    """Places the domains of each side, the texts of their ties, and of its memory that others reach. Answers where the frame of each begins and ends, and its style."""
    frames: list[tuple[float, float, str]] = []
    for rank, (name, domains) in enumerate(sides.items()):
        if not domains:
            continue
        top, shade = layout.y, colour((rank - 1) % COLOURS)
        layout.y += ROW + 4
        layout.heights[name] = top + 13
        layout.scene.items.append(Label(MARGIN + 8, top + 17, side_text(name), "head" if name == TRUSTED else f"head {shade}"))
        for domain in domains:
            place_domain(layout, domain, edges)
        for stream in (stream for stream in streams if stream.source == name):
            place_stream(layout, stream, shade)
        layout.y += 6
        frames.append((top, layout.y, "band" if name == TRUSTED else f"frame r-{shade}"))
        layout.y += 14
    return frames


def draw_frames(layout: Layout, frames: list[tuple[float, float, str]]) -> None:
    """Draws the frames of sides, below all else and as wide as the longest text."""
    for top, bottom, style in frames:
        layout.scene.items.insert(0, Box(MARGIN, top, layout.right - MARGIN, bottom - top, style, 6))


def place_shared(layout: Layout, told: Told) -> None:
    """Places each semaphore that sides share, and below it which do, and what each may do there."""
    for shared in told.shared:
        text = f"semaphore {shared.semaphore}"
        place_box(layout, text, max(WIDE, text_width(text) + 12), 11)
        for name, may in shared.sharers:
            hint = f"shared {shared.semaphore}: {name} {may}"
            x, y = place_text(layout, f"{side_text(name)}: {may}", "soft", hint)
            if name in layout.heights:
                layout.leads.append(Lead(hint, x, y, name, "make rule", "", False))
        layout.y += 8


def lanes_of(layout: Layout) -> list[int]:
    """The lane of each line, so that lines in one lane don't meet; short lines are the nearest."""
    taken: list[list[tuple[float, float]]] = []
    lanes = [0] * len(layout.leads)
    spans = [tuple(sorted((lead.y, layout.heights[lead.target]))) for lead in layout.leads]
    for at in sorted(range(len(spans)), key=lambda at: (spans[at][1] - spans[at][0], at)):
        low, high = spans[at]
        lane = next((lane for lane, others in enumerate(taken) if all(high < a - 4 or b + 4 < low for a, b in others)), len(taken))
        if lane == len(taken):
            taken.append([])
        taken[lane].append((low, high))
        lanes[at] = lane
    return lanes


def line_items(lead: Lead, x: float, end: float, to: float) -> Iterator[Item]:
    """A line from a text to its lane, along that, and back to where it leads, with a head if it has one."""
    yield Line(lead.x, lead.y, x, lead.y, lead.style)
    yield Line(x, lead.y, x, to, lead.style)
    yield Line(x, to, end, to, lead.style)
    if lead.head:
        yield Line(end + 7, to - 4, end, to, lead.head)
        yield Line(end + 7, to + 4, end, to, lead.head)


def draw_lines(layout: Layout) -> float:
    """Draws the lines of ties, of memory of two sides and of what is shared. Answers where the lanes end."""
    found = lanes_of(layout)
    incoming: dict[int | str, int] = {}
    # Red lines are the last, and so lie over the others.
    for lead, lane in sorted(zip(layout.leads, found, strict=True), key=lambda row: row[0].broken):
        nth = incoming[lead.target] = incoming.get(lead.target, -1) + 1
        to = layout.heights[lead.target] - 6 + 3 * (nth % 5)
        end = MARGIN + 8 + WIDE if isinstance(lead.target, int) else layout.right
        layout.scene.items.append(Group(lead.hint, tuple(line_items(lead, layout.right + LANE * (lane + 1), end, to))))
    return layout.right + LANE * (max(found, default=0) + 1)


def link_text(link: Link) -> str:
    """Where a capability came from, in words."""
    _, parent, domain, space, base, order, rights, target = link.text.split(" ")
    place, thing = ("page", "frame") if space == "mem" else ("selector", "object")
    where, what = (span(word, int(first), int(first) + 2 ** int(order) - 1) for word, first in ((place, base), (thing, target)))
    came = "derived from none" if parent == "-" else f"derived from {parent}"
    return f"capability {link.number} of domain {domain}: {where}, rights {rights}, to {what}; {came}"


def meanings(told: Told, edges: list[Edge], streams: list[Stream]) -> Iterator[str]:
    """What the lines mean that are drawn."""
    if edges:
        yield "a full line: only to the same side; a dashed one: or to what is trusted"
    if any(stream.way is not Way.READS for stream in streams):
        yield f"a thick arrow: what a side may write another reaches{'; a red one: against the policy' if any(stream.broken for stream in streams) else ''}"
    if told.memory:
        yield "a line without a head: two sides reach memory that neither may write"
    if told.shared:
        yield "dots: sides that share a semaphore"


def notes_of(told: Told, edges: list[Edge], streams: list[Stream]) -> list[tuple[str, str]]:
    """The lines below the sides: the red tie with where its capabilities came from, and what lines mean."""
    red, notes = red_tie(told), []
    if red is not None:
        word = "breach" if told.breach else "stuck"
        notes.append((f"{word}: {red.source} to {red.target}, {red.text}{', strict' if red.strict else ''}", f"head {RED}"))
    # Where there are no finest sides either, the same lines come once more.
    links = list(dict.fromkeys(told.links)) if red else told.links
    notes += [(link_text(link), RED if red else "soft") for link in links]
    return notes + [(text, "soft") for text in meanings(told, edges, streams)]


def draw_sides(title: str, told: Told, named: dict[int, str]) -> Scene:
    """The picture of an answer. `named` has the side of each domain that a policy names."""
    scene = Scene(f"{title}: {verdict(told)}")
    layout = Layout(scene, 44)
    sides, edges = sides_of(told, named), edges_of(told)
    streams = streams_of(told, sides)
    frames = place_sides(layout, sides, edges, streams)
    place_shared(layout, told)
    draw_frames(layout, frames)
    end = draw_lines(layout)
    scene.items.append(Label(MARGIN, 26, scene.title, "title"))
    notes = notes_of(told, edges, streams)
    for text, style in notes:
        scene.items.append(Label(MARGIN, layout.y + 12, text, style))
        layout.y += 17
    widest = max([text_width(text) for text, _ in notes] + [len(scene.title) * 15 * LETTER])
    scene.width, scene.height = max(end, MARGIN + widest) + MARGIN, layout.y + MARGIN
    return scene
