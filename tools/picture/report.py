"""Reads the report of a run, line by line, and refuses what is not of its form."""

from __future__ import annotations

import re
from collections.abc import Iterator
from dataclasses import dataclass, field
from enum import Enum


class Fault(Exception):
    """A text is not of its form. `line` counts from 1."""

    def __init__(self, line: int, why: str) -> None:
        super().__init__(f"line {line}: {why}")
        self.line = line
        self.why = why


class Kind(Enum):
    """What an event says, by the word of the report."""

    RAISE = "raise"
    ANSWER = "answer"
    BEGIN = "begin"
    HELP = "help"
    SENT = "sent"
    DIED = "died"
    ABORT = "abort"
    MADE = "made"
    SKIP = "skip"
    XLAT = "xlat"
    ENDED = "ended"
    GONE = "gone"
    LATE = "late"
    IRQ = "irq"


# Parts of a transfer of items, each a turn of who gives.
PARTS = frozenset({Kind.MADE, Kind.SKIP, Kind.XLAT, Kind.ENDED})
# What no scheduling context is charged for.
UNPAID = frozenset({Kind.LATE, Kind.IRQ})


class Space(Enum):
    """What a capability range leads to, by the word of the report."""

    MEMORY = "mem"
    OBJECTS = "obj"


@dataclass(frozen=True, slots=True)
class Event:
    """What happened in turn `place`, counted from 1; `line` is the line of the report, `number` its number. Of an interrupt `context` is who was
    woken, on whatever processor, or 0."""

    place: int
    cpu: int
    context: int
    kind: Kind
    a: int
    b: int
    line: str
    number: int


@dataclass(frozen=True, slots=True)
class Context:
    """An execution context at the end of the run."""

    number: int
    sort: str
    state: str
    line: str


@dataclass(frozen=True, slots=True)
class Payer:
    """A scheduling context at the end of the run, with the turns that it was charged for."""

    number: int
    cpu: int
    ticks: int


@dataclass(frozen=True, slots=True)
class Source:
    """A source of interrupts at the end of the run: its semaphore, how often it fired, and by how many turns the latest firing was late."""

    number: int
    cpu: int
    semaphore: int
    fired: int
    worst: int
    line: str


@dataclass(frozen=True, slots=True)
class CapRange:
    """A capability range that is there at the end of the run."""

    number: int
    parent: int | None
    domain: int
    space: Space
    base: int
    order: int
    rights: int
    target: int
    line: str


@dataclass(slots=True)
class Report:
    """A whole report. Each list is in the order of the text."""

    quiet: bool
    turns: int
    events: list[Event] = field(default_factory=list)
    contexts: list[Context] = field(default_factory=list)
    payers: list[Payer] = field(default_factory=list)
    semaphores: list[int] = field(default_factory=list)
    sources: list[Source] = field(default_factory=list)
    consoles: list[int] = field(default_factory=list)
    ranges: list[CapRange] = field(default_factory=list)


# A decimal number without leading zeros, of at most twenty digits.
NUMBER = r"(0|[1-9][0-9]{0,19})"
MOST_ORDER = 20
STATES = "fresh|ready|parked|calling|helping|exiting|sending|granting|replying|revoking|blocked|dead"
HEAD = re.compile(rf"run (quiet|open) {NUMBER}")
# The lines after the first, in their order, by their first word.
FORMS: dict[str, re.Pattern[str]] = {
    "at": re.compile(rf"at {NUMBER} {NUMBER} {NUMBER} ({'|'.join(kind.value for kind in Kind)}) {NUMBER} {NUMBER}"),
    "ec": re.compile(rf"ec {NUMBER} (global|local|vcpu) ({STATES}) [0-9a-f]{{8}}((?: x[1-9][0-9]?=[0-9a-f]{{8}})*)"),
    "sc": re.compile(rf"sc {NUMBER} {NUMBER} {NUMBER}"),
    "sm": re.compile(rf"sm {NUMBER} {NUMBER} {NUMBER}"),
    "source": re.compile(rf"source {NUMBER} {NUMBER} {NUMBER} {NUMBER} {NUMBER}"),
    "console": re.compile(rf"console {NUMBER} (-|(?:[0-9a-f]{{2}})+)"),
    "cap": re.compile(rf"cap {NUMBER} (-|{NUMBER}) {NUMBER} (mem|obj) {NUMBER} {NUMBER} {NUMBER} {NUMBER}"),
}
SECTIONS = {word: rank for rank, word in enumerate(FORMS)}


# The first lines of other programs' answers, with what is to be done with them.
OTHERS = (
    (re.compile(r"turn \d+"), "this is an answer of nova_policy, which `tools/picture sides` draws"),
    (
        re.compile(r"one order|found|cut|never (all|within \d+)|ends \d+ (all|cut|within \d+)"),
        "this is an answer of nova_explore, and `./nova solo SCENARIO ORDER` makes the report of an order that it tells",
    ),
    (re.compile(r"\d+ \d+"), "this is an order, and `./nova solo SCENARIO ORDER` makes its report"),
    (re.compile(r"cpus .*"), "this is a scenario, and `./nova solo SCENARIO` makes its report"),
)


def otherwise(line: str) -> str:
    """What a text is whose first line is that of no report, where that is seen."""
    return next((f"; {said}" for first, said in OTHERS if first.fullmatch(line)), "")


def text_lines(text: str) -> Iterator[tuple[int, str]]:
    """The lines of a text with their numbers; each must end with a line feed."""
    lines = text.split("\n")
    yield from enumerate(lines[:-1], start=1)
    if lines[-1]:
        raise Fault(len(lines), "the text ends without a line feed")


def read_report(text: str) -> Report:
    """The report that the text is. Raises Fault at the first line that is not of the form, or that speaks of what is not there."""
    lines = text_lines(text)
    number, line = next(lines, (1, ""))
    head = HEAD.fullmatch(line)
    if head is None:
        raise Fault(number, f"`run quiet N` or `run open N` is wanted{otherwise(line)}")
    report = Report(head[1] == "quiet", int(head[2]))
    section = 0
    for number, line in lines:
        word = line.split(" ", 1)[0]
        if word not in FORMS:
            raise Fault(number, "no line of a report begins so")
        found = FORMS[word].fullmatch(line)
        if found is None:
            raise Fault(number, f"not of the form of a line `{word}`")
        if SECTIONS[word] < section:
            raise Fault(number, f"a line `{word}` stands too late")
        section = SECTIONS[word]
        _ADD[word](report, found, line, number)
    _check_contexts(report)
    _check_sources(report)
    return report


def _add_event(report: Report, found: re.Match[str], line: str, number: int) -> None:
    place = int(found[1])
    before = report.events[-1].place if report.events else 0
    if not before < place <= report.turns:
        raise Fault(number, f"turn {place} is not after turn {before} and among the {report.turns} turns of the run")
    kind = Kind(found[4])
    report.events.append(Event(place, int(found[2]), int(found[3]), kind, int(found[5]), int(found[6]), line, number))


def _rising(last: int, now: int, number: int) -> int:
    """`now`, which must be greater than `last`."""
    if now <= last:
        raise Fault(number, f"number {now} does not come after {last}")
    return now


def _add_context(report: Report, found: re.Match[str], line: str, number: int) -> None:
    last = report.contexts[-1].number if report.contexts else -1
    _check_registers(found[4], number)
    report.contexts.append(Context(_rising(last, int(found[1]), number), found[2], found[3], line))


def _check_registers(text: str, number: int) -> None:
    """Registers rise, none is above 31, and none is 0."""
    last = 0
    for token in text.split():
        name, value = token[1:].split("=")
        last = _rising(last, int(name), number)
        if last > 31 or value == "00000000":
            raise Fault(number, f"no register is written as {token}")


def _add_payer(report: Report, found: re.Match[str], line: str, number: int) -> None:
    last = report.payers[-1].number if report.payers else -1
    report.payers.append(Payer(_rising(last, int(found[1]), number), int(found[2]), int(found[3])))


def _add_semaphore(report: Report, found: re.Match[str], line: str, number: int) -> None:
    last = report.semaphores[-1] if report.semaphores else -1
    report.semaphores.append(_rising(last, int(found[1]), number))


def _add_source(report: Report, found: re.Match[str], line: str, number: int) -> None:
    mine, cpu, semaphore, fired, worst = (int(found[place]) for place in range(1, 6))
    if mine != len(report.sources):
        raise Fault(number, f"source {len(report.sources)} is wanted")
    if semaphore not in report.semaphores:
        raise Fault(number, f"its semaphore, {semaphore}, has no line `sm`")
    report.sources.append(Source(mine, cpu, semaphore, fired, worst, line))


def _add_console(report: Report, found: re.Match[str], line: str, number: int) -> None:
    last = report.consoles[-1] if report.consoles else -1
    report.consoles.append(_rising(last, int(found[1]), number))


def _add_range(report: Report, found: re.Match[str], line: str, number: int) -> None:
    last = report.ranges[-1].number if report.ranges else -1
    mine = _rising(last, int(found[1]), number)
    parent = None if found[2] == "-" else int(found[2])
    base, order, rights, target = (int(found[place]) for place in range(6, 10))
    if order > MOST_ORDER:
        raise Fault(number, f"no order is above {MOST_ORDER}")
    report.ranges.append(CapRange(mine, parent, int(found[4]), Space(found[5]), base, order, rights, target, line))
    if parent is not None and not _is_there(report.ranges, parent):
        raise Fault(number, f"its parent, capability range {parent}, is not there")


def _is_there(ranges: list[CapRange], number: int) -> bool:
    """Whether an earlier range than the last has that number. The numbers rise."""
    low, high = 0, len(ranges) - 1
    while low < high:
        middle = (low + high) // 2
        if ranges[middle].number < number:
            low = middle + 1
        else:
            high = middle
    return low < len(ranges) - 1 and ranges[low].number == number


_ADD = {
    "at": _add_event,
    "ec": _add_context,
    "sc": _add_payer,
    "sm": _add_semaphore,
    "source": _add_source,
    "console": _add_console,
    "cap": _add_range,
}


def partner(event: Event) -> int | None:
    """The other execution context that an event names."""
    if event.kind is Kind.SENT or (event.kind is Kind.BEGIN and event.a in (0, 1)):
        return event.b
    return event.a if event.kind in (Kind.HELP, Kind.ABORT) else None


def _check_contexts(report: Report) -> None:
    """Each execution context that an event names has its line, and acts on one processor. An interrupt may wake one of another, or none."""
    there = {context.number for context in report.contexts}
    processors: dict[int, int] = {}
    for event in report.events:
        for context in (event.context or None if event.kind is Kind.IRQ else event.context, partner(event)):
            if context is not None and context not in there:
                raise Fault(event.number, f"execution context {context} has no line `ec`")
        if event.kind is not Kind.IRQ and processors.setdefault(event.context, event.cpu) != event.cpu:
            raise Fault(event.number, f"execution context {event.context} was on processor {processors[event.context]} before")


def _check_sources(report: Report) -> None:
    """Each source that an event names has its line, and fires on its processor."""
    for event in report.events:
        if event.kind is not Kind.IRQ:
            continue
        if event.a >= len(report.sources):
            raise Fault(event.number, f"source {event.a} has no line `source`")
        if report.sources[event.a].cpu != event.cpu:
            raise Fault(event.number, f"source {event.a} is of processor {report.sources[event.a].cpu}")
