"""What the events of a report mean together: what each execution context does when, what leads from one to another, and who pays."""

from __future__ import annotations

from bisect import bisect_left, bisect_right
from collections import defaultdict
from collections.abc import Callable
from dataclasses import dataclass, field
from enum import Enum

from objects import Objects, find_objects, find_owners, find_processors
from report import PARTS, UNPAID, Event, Kind, Report
from words import CALL, CREATE_EC, REPLY, SM_CTRL


class Doing(Enum):
    """What an execution context does in a stretch of turns."""

    RUNS = "waits for nobody"
    PARKED = "a handler that nobody calls"
    WAITS = "waits for a reply or at a semaphore"
    HELPS = "found its handler busy"
    HELPED = "is helped by another"
    GIVES = "gives or takes items"
    REVOKES = "revokes"
    UNTOLD = "waits, or was woken: not told"
    DEAD = "dead"


class Lead(Enum):
    """What leads from one execution context to another."""

    CALL = "a call"
    REPLY = "a reply"
    EXIT = "an exit"
    HELP = "help for a busy handler"
    ABORT = "an abort: the handler died"
    WAKE = "a wake-up"
    INTERRUPT = "an interrupt wakes who waits"
    MAKE = "an execution context is made"


@dataclass(frozen=True, slots=True)
class Span:
    """What a context does from the end of turn `start` to the end of turn `end`."""

    context: int
    doing: Doing
    start: int
    end: int


@dataclass(frozen=True, slots=True)
class Arrow:
    """What leads from one context to another in a turn. One that is not sure is the first of several that the report allows. An interrupt leads
    from a source."""

    place: int
    source: int
    target: int
    lead: Lead
    sure: bool = True


# Finds out in which of some turns a context that waits at a semaphore was woken; None where that is not told.
Wakes = Callable[[int, list[int]], int | None]


@dataclass(slots=True)
class Woken:
    """Who is woken by the events of a report, by their numbers: with whether no other can have done it, and who is awake for certain."""

    by: dict[int, list[tuple[int, bool]]] = field(default_factory=lambda: defaultdict(list))
    awake: dict[int, list[int]] = field(default_factory=lambda: defaultdict(list))


@dataclass(slots=True)
class History:
    """All that a picture of a run shows beside the events themselves. `payers` has a set for each event, empty where unknown or nobody."""

    objects: Objects
    processors: dict[int, int]
    owners: dict[int, int]
    spans: list[Span] = field(default_factory=list)
    arrows: list[Arrow] = field(default_factory=list)
    payers: list[frozenset[int]] = field(default_factory=list)


@dataclass(slots=True)
class Transfers:
    """Transfers of items, by the numbers of events in the report: calls whose handler takes items, and the last part of each."""

    taken: set[int] = field(default_factory=set)
    ends: set[int] = field(default_factory=set)


def find_transfers(report: Report) -> Transfers:
    """The parts of a transfer stand one after another among the events of who gives, and a new call or exit begins a new one."""
    found = Transfers()
    called: dict[int, int] = {}
    last: dict[int, int] = {}
    for at, event in enumerate(report.events):
        if event.kind in PARTS:
            if event.context in called:
                found.taken.add(called.pop(event.context))
            last[event.context] = at
            continue
        called.pop(event.context, None)
        _close(found, last, event.context)
        if event.kind is Kind.SENT or _is_call(event):
            _close(found, last, event.b)
            called[event.b] = at
    _close_at_end(report, found, called, last)
    return found


def _is_call(event: Event) -> bool:
    return event.kind is Kind.BEGIN and event.a == CALL


def _close(found: Transfers, last: dict[int, int], context: int) -> None:
    if context in last:
        found.ends.add(last.pop(context))


def _close_at_end(report: Report, found: Transfers, called: dict[int, int], last: dict[int, int]) -> None:
    """By the states at the end: whose last transfer goes on, and who takes a call's items without a part so far."""
    states = {context.number: context.state for context in report.contexts}
    for context in list(last):
        if states[context] not in ("granting", "replying"):
            _close(found, last, context)
    found.taken |= {at for context, at in called.items() if states[context] == "granting"}


def find_wakes(report: Report, ask: Wakes | None = None) -> Woken:
    """Which events may have woken whom. Where several may have done it, it is the first of them, unless one can ask; after the last who was
    woken is awake."""
    ups = [at for at, event in enumerate(report.events) if _is_sm_ctrl(event)]
    following: dict[int, int] = {}
    states = {context.number: context.state for context in report.contexts}
    woken = Woken()
    for at in reversed(range(len(report.events))):
        event = report.events[at]
        after = following.get(event.context)
        following[event.context] = at
        if event.kind is not Kind.BEGIN or event.a != SM_CTRL or (after is None and states[event.context] == "blocked"):
            continue
        if after is not None and report.events[after].kind in (Kind.LATE, Kind.IRQ):
            continue  # That event ends the wait, whatever ups there are before it.
        first, end = bisect_right(ups, at), len(ups) if after is None else bisect_left(ups, after)
        able = ups[first:end]
        if len(able) > 1 and ask is not None:
            place = ask(event.context, [report.events[up].place for up in able])
            able = [up for up in able if place in (None, report.events[up].place)]
        if able:
            woken.by[able[0]].append((event.context, len(able) == 1))
            woken.awake[able[-1]].append(event.context)
    return woken


def _is_sm_ctrl(event: Event) -> bool:
    return event.kind is Kind.ANSWER and event.a == SM_CTRL and event.b == 0


class Replay:
    """Follows the events and keeps what each context does, and whom it waits for."""

    def __init__(self, report: Report, ask: Wakes | None = None) -> None:
        self.report = report
        objects = find_objects(report)
        processors = find_processors(report)
        self.history = History(objects, processors, find_owners(report, objects, processors))
        for payer in report.payers:
            owner = self.history.owners.get(payer.number)
            if owner is not None:
                processors.setdefault(owner, payer.cpu)
        self.transfers = find_transfers(report)
        self.woken = find_wakes(report, ask)
        self.paid_by = {owner: payer for payer, owner in self.history.owners.items()}
        self.doing: dict[int, tuple[Doing, int]] = {}
        self.waits_for: dict[int, int] = {}
        self.waiters: dict[int, set[int]] = defaultdict(set)
        self.caller: dict[int, int] = {}
        self.replying: set[int] = set()
        self.helpers: dict[int, set[int]] = defaultdict(set)
        self.helped_since: dict[int, int] = {}
        for context in report.contexts:
            doing = Doing.PARKED if context.sort == "local" else Doing.RUNS
            self.doing[context.number] = (doing, objects.births.get(context.number, 0))

    def follow(self) -> None:
        """All events, one after another."""
        for at, event in enumerate(self.report.events):
            self.history.payers.append(frozenset() if event.kind in UNPAID else self.payers_of(event.context))
            self.apply(at, event)

    def close(self) -> History:
        """Ends the spans that last to the end of the run."""
        for context in list(self.doing):
            self.turn_to(context, Doing.DEAD, self.report.turns)
        for handler in list(self.helped_since):
            self.end_help(handler, self.report.turns)
        return self.history

    def payers_of(self, context: int) -> frozenset[int]:
        """The scheduling contexts that may have paid: the context's own, or those of who waits for it, directly or by others."""
        found: set[int] = set()
        seen = {context}
        way = [context]
        while way:
            at = way.pop()
            if at in self.paid_by:
                found.add(self.paid_by[at])
            elif not self.waiters[at]:
                return frozenset()
            fresh = self.waiters[at] - seen
            seen |= fresh
            way.extend(fresh)
        return frozenset(found)

    def apply(self, at: int, event: Event) -> None:
        """What the event changes."""
        match event.kind:
            case Kind.RAISE:
                self.turn_to(event.context, Doing.RUNS, event.place)
            case Kind.ANSWER:
                self.answer(at, event)
            case Kind.BEGIN:
                self.begin(at, event)
            case Kind.HELP:
                self.wait_for(event.context, event.a, Doing.HELPS, event.place)
                self.lead(event, event.context, event.a, Lead.HELP)
            case Kind.SENT:
                self.send(at, event, Lead.EXIT)
            case Kind.DIED:
                self.turn_to(event.context, Doing.DEAD, event.place)
            case Kind.LATE:
                self.turn_to(event.context, Doing.RUNS, event.place)
            case Kind.IRQ:
                self.interrupt(event)
            case Kind.ABORT:
                self.turn_to(event.context, Doing.DEAD if event.b else Doing.RUNS, event.place)
                self.lead(event, event.a, event.context, Lead.ABORT)
            case _:
                self.end_transfer(at, event)

    def answer(self, at: int, event: Event) -> None:
        """A hypercall that ended in its turn, a reply without items among them."""
        if event.a == REPLY and event.b == 0:
            self.complete(event)
            return
        self.turn_to(event.context, Doing.RUNS, event.place)
        made = self.history.objects.made_in.get(event.place)
        if event.a == CREATE_EC and made is not None:
            self.lead(event, event.context, made, Lead.MAKE)
        for waiter, sure in self.woken.by.get(at, ()):
            self.turn_to(waiter, Doing.RUNS if sure else Doing.UNTOLD, event.place)
            self.lead(event, event.context, waiter, Lead.WAKE, sure)
        for waiter in self.woken.awake.get(at, ()):
            self.turn_to(waiter, Doing.RUNS, event.place)

    def interrupt(self, event: Event) -> None:
        """A source fired, and woke who waits at its semaphore, if anybody does."""
        if event.context:
            self.turn_to(event.context, Doing.RUNS, event.place)
            self.history.arrows.append(Arrow(event.place, event.a, event.context, Lead.INTERRUPT))

    def begin(self, at: int, event: Event) -> None:
        """A hypercall that goes on."""
        match event.a:
            case 0:
                self.send(at, event, Lead.CALL)
            case 1:
                self.replying.add(event.context)
                self.turn_to(event.context, Doing.GIVES, event.place)
            case 2:
                self.turn_to(event.context, Doing.GIVES, event.place)
            case 7:
                self.turn_to(event.context, Doing.REVOKES, event.place)
            case 12:
                self.turn_to(event.context, Doing.WAITS, event.place)
            case _:
                self.turn_to(event.context, Doing.RUNS, event.place)

    def send(self, at: int, event: Event, lead: Lead) -> None:
        """A call or an exit gets to its handler, so that one has replied to who called before, also where no event tells it."""
        handler = event.b
        self.replying.discard(handler)
        self.end_wait(self.caller.pop(handler, None), handler, event.place)
        self.wait_for(event.context, handler, Doing.WAITS, event.place)
        self.caller[handler] = event.context
        self.turn_to(handler, Doing.GIVES if at in self.transfers.taken else Doing.RUNS, event.place)
        self.lead(event, event.context, handler, lead)

    def end_transfer(self, at: int, event: Event) -> None:
        """A part of a transfer; the last one ends it, and where it is a reply's, the reply completes."""
        if at not in self.transfers.ends:
            return
        if event.context in self.replying:
            self.complete(event)
        else:
            self.turn_to(event.context, Doing.RUNS, event.place)

    def complete(self, event: Event) -> None:
        """The reply gets to who called, if an event told who did."""
        self.replying.discard(event.context)
        self.turn_to(event.context, Doing.PARKED, event.place)
        caller = self.caller.pop(event.context, None)
        if caller is not None and self.end_wait(caller, event.context, event.place):
            self.lead(event, event.context, caller, Lead.REPLY)

    def end_wait(self, caller: int | None, handler: int, place: int) -> bool:
        """The caller goes on, if it still waits for the handler; in a shortened report it may wait for another by now."""
        if caller is None or self.waits_for.get(caller) != handler or self.doing[caller][0] is not Doing.WAITS:
            return False
        self.turn_to(caller, Doing.RUNS, place)
        return True

    def lead(self, event: Event, source: int, target: int, lead: Lead, sure: bool = True) -> None:
        """An arrow in the turn of the event."""
        if source != target:
            self.history.arrows.append(Arrow(event.place, source, target, lead, sure))

    def wait_for(self, context: int, handler: int, doing: Doing, place: int) -> None:
        """The context now waits for the handler, or helps it."""
        self.turn_to(context, doing, place)
        self.waits_for[context] = handler
        self.waiters[handler].add(context)
        if doing is Doing.HELPS:
            self.helpers[handler].add(context)
            self.helped_since.setdefault(handler, place)

    def turn_to(self, context: int, doing: Doing, place: int) -> None:
        """The context does something else from the end of this turn on, and waits for nobody."""
        handler = self.waits_for.pop(context, None)
        if handler is not None:
            self.waiters[handler].discard(context)
            self.helpers[handler].discard(context)
            if not self.helpers[handler]:
                self.end_help(handler, place)
        before, since = self.doing[context]
        if doing is not before or place == self.report.turns:
            if since < place and before is not Doing.DEAD:
                self.history.spans.append(Span(context, before, since, place))
            self.doing[context] = (doing, place)

    def end_help(self, handler: int, place: int) -> None:
        """Nobody helps the handler from the end of this turn on."""
        since = self.helped_since.pop(handler, place)
        if since < place:
            self.history.spans.append(Span(handler, Doing.HELPED, since, place))


def find_history(report: Report, ask: Wakes | None = None) -> History:
    """What the events of the report mean together; who was woken when is asked, where one can ask and the report doesn't tell."""
    replay = Replay(report, ask)
    replay.follow()
    return replay.close()
