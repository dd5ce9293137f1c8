"""A window of a run, with all that its picture shows, and the texts of the picture."""

from __future__ import annotations

from collections import defaultdict
from dataclasses import dataclass

from clocks import Firing, Ticks
from history import Arrow, Doing, History, Lead, Span, Wakes, find_history
from order import Order
from report import UNPAID, CapRange, Event, Kind, Report, Space
from signs import ranks_of
from timeline import Window
from words import counted, hypercall, places, sentence


@dataclass(slots=True)
class Run:
    """All that the picture is laid out from.

    Events stand with who may have paid, arrows by their turn, and both and the spans are of the window. `held` are the capability ranges
    at the end by number, `ranks` the scheduling contexts' places among the colours, `firings` those of the sources by their turns, where it is
    told when they were due.
    """

    report: Report
    order: Order | None
    window: Window
    history: History
    events: list[tuple[Event, frozenset[int]]]
    arrows: dict[int, list[Arrow]]
    spans: list[Span]
    held: dict[int, CapRange]
    ranks: dict[int, int]
    ticks: Ticks
    firings: dict[int, Firing]

    @property
    def is_whole(self) -> bool:
        """Whether the window is all of the run."""
        return self.window == Window(1, self.report.turns)


def gather(report: Report, order: Order | None, window: Window, firings: dict[int, Firing], ask: Wakes | None) -> Run:
    """The window of the run."""
    history = find_history(report, ask)
    events = [(event, paid) for event, paid in zip(report.events, history.payers) if window.has(event.place)]
    arrows: dict[int, list[Arrow]] = defaultdict(list)
    for arrow in history.arrows:
        if window.has(arrow.place):
            arrows[arrow.place].append(arrow)
    spans = [span for span in history.spans if span.end >= window.first and span.start < window.last]
    spans.sort(key=lambda span: (span.context, span.doing is Doing.HELPED) if span.end > window.last else (-1, False))
    held = {cap.number: cap for cap in report.ranges}
    ticks = Ticks(report, history, order)
    seen = {place: firing for place, firing in firings.items() if window.has(place)}
    return Run(report, order, window, history, events, arrows, spans, held, ranks_of(report), ticks, seen)


def title_of(run: Run) -> str:
    """What the picture shows."""
    report, window = run.report, run.window
    end = "came to rest" if report.quiet else "was stopped"
    whole = f"a run that {end} after {counted(report.turns, 'turn', 'turns')}"
    return whole if run.is_whole else f"{whole}, turns {window.first:,} to {window.last:,}"


def row_text(event: Event, run: Run) -> str:
    """The sentence of an event, with what the other events tell of it."""
    who = f"EC {event.context}"
    if event.kind is Kind.IRQ:
        firing = run.firings.get(event.place)
        late = f" ({counted(firing.delay, 'turn', 'turns')} late)" if firing is not None and firing.delay else ""
        return f"{sentence(event)}{late}"
    leads = {arrow.lead: arrow for arrow in run.arrows.get(event.place, ())}
    objects = run.history.objects
    made = objects.made_in.get(event.place)
    if event.kind is Kind.ANSWER and made is not None:
        owner = run.history.owners.get(made)
        whose = f" for EC {owner}" if owner is not None else ""
        return f"{who} {hypercall(event.a)}: makes {objects.sorts[made].short} {made}{whose}"
    if Lead.REPLY in leads:
        to = f"EC {leads[Lead.REPLY].target}"
        return f"{who} replies to {to}" if event.kind is Kind.ANSWER else f"{sentence(event)}; its reply gets to {to}"
    if event.kind is Kind.MADE and event.a in run.held:
        return _given(event, run.held[event.a], run)
    wakes = [arrow for arrow in run.arrows.get(event.place, ()) if arrow.lead is Lead.WAKE]
    if wakes:
        verb = "wakes" if all(arrow.sure for arrow in wakes) else "may wake"
        return f"{who} {hypercall(event.a)}: {verb} {', '.join(f'EC {arrow.target}' for arrow in wakes)}"
    return sentence(event)


def _given(event: Event, cap: CapRange, run: Run) -> str:
    """A sentence of a range that was given and is still there."""
    sort = run.history.objects.sorts.get(cap.target)
    if cap.space is Space.MEMORY:
        what = places(cap.base, cap.order, "page", "pages")
    else:
        what = f"{sort.short if sort else 'object'} {cap.target}"
    return f"EC {event.context} gives {what} to PD {cap.domain}: range {event.a}, from range {event.b}"


def paid_by(event: Event, payers: frozenset[int]) -> str:
    """Who paid for the turn of an event, as far as the report tells."""
    if event.kind in UNPAID:
        return "nobody pays"
    return f"paid by {' or '.join(f'SC {payer}' for payer in sorted(payers))}" if payers else "who paid is not told"
