"""The signs of the picture of a run: marks, arrows, lines and bars, and the colours of who pays."""

from __future__ import annotations

from drawing import colour
from history import Doing, Lead
from report import UNPAID, Event, Kind, Report
from scene import Shape

SHAPES = {
    Kind.RAISE: Shape.DIAMOND,
    Kind.ANSWER: Shape.DOT,
    Kind.BEGIN: Shape.DOWN,
    Kind.HELP: Shape.GLASS,
    Kind.SENT: Shape.SQUARE,
    Kind.DIED: Shape.CROSS,
    Kind.ABORT: Shape.STRUCK,
    Kind.MADE: Shape.PLUS,
    Kind.SKIP: Shape.SLASHED,
    Kind.XLAT: Shape.SLANTED,
    Kind.ENDED: Shape.BAR,
    Kind.GONE: Shape.MINUS,
    Kind.LATE: Shape.CLOCK,
    Kind.IRQ: Shape.BOLT,
}
MEANINGS = {
    Shape.DIAMOND: "raise",
    Shape.DOT: "hypercall answered: SUCCESS",
    Shape.RING: "hypercall refused",
    Shape.DOWN: "hypercall begun",
    Shape.GLASS: "handler found busy",
    Shape.SQUARE: "exit sent",
    Shape.CROSS: "death",
    Shape.STRUCK: "call or exit aborted",
    Shape.PLUS: "capability range given",
    Shape.SLASHED: "part skipped",
    Shape.SLANTED: "item translated",
    Shape.BAR: "item ended",
    Shape.MINUS: "capability range removed",
    Shape.CLOCK: "deadline: who waits gives up",
    Shape.BOLT: "interrupt of a source",
}
LEADS = {
    Lead.CALL: "call",
    Lead.REPLY: "reply",
    Lead.EXIT: "exit",
    Lead.HELP: "help",
    Lead.ABORT: "abort",
    Lead.WAKE: "wake",
    Lead.INTERRUPT: "wake",
    Lead.MAKE: "make",
}
# What is told from a call by an open head.
OPEN_HEADS = frozenset({Lead.EXIT, Lead.ABORT, Lead.MAKE})
LINES = {Doing.RUNS: "runs", Doing.PARKED: "parked", Doing.WAITS: "waits", Doing.HELPS: "helps", Doing.UNTOLD: "runs unsure"}
# The colour of a mark that nobody pays for, and the bar of a firing that is due and has not come yet.
NOBODY, DUE = ("head-full",), "bar unknown"
BARS = {Doing.GIVES: "gives", Doing.REVOKES: "revokes", Doing.HELPED: "helped"}


def shape_of(event: Event) -> Shape:
    """The outline of an event's mark."""
    return Shape.RING if event.kind is Kind.ANSWER and event.b else SHAPES[event.kind]


def ranks_of(report: Report) -> dict[int, int]:
    """The place of the colour of each scheduling context."""
    return {payer.number: rank for rank, payer in enumerate(report.payers)}


def colours_of(payers: frozenset[int], ranks: dict[int, int]) -> tuple[str, ...]:
    """The colours of those that may have paid."""
    return tuple(dict.fromkeys(colour(ranks[payer]) for payer in sorted(payers) if payer in ranks)) or ("unknown",)


def mark_of(event: Event, payers: frozenset[int], ranks: dict[int, int]) -> tuple[Shape, tuple[str, ...]]:
    """The outline of an event's mark, and its colours: those of who may have paid, or that of nobody."""
    return shape_of(event), NOBODY if event.kind in UNPAID else colours_of(payers, ranks)


def bar_half(doing: Doing) -> float:
    """Half the width of a bar. That of who is helped is seen behind the others."""
    return 11 if doing is Doing.HELPED else 8
