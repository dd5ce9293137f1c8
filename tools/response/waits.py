"""Where the turns of a processor go between two turns of an execution context, and how long it was ready before it acted."""

from __future__ import annotations

from collections.abc import Iterator
from dataclasses import dataclass, fields

from schedules import BackEnd, Event, Schedule, Schedules

# In these states an execution context acts in its own turns, whatever others do.
ACTING = frozenset({"fresh", "ready", "exiting", "granting", "replying", "revoking"})
DUE = frozenset({"irq", "late"})


@dataclass(slots=True)
class Terms:
    """Of some turns of a processor, how many were due, of a greater priority, paid for by the scheduling context itself, ahead of it in its
    ring, and of neither: ticks, lesser priorities, and peers that come later in the ring."""

    due: int = 0
    greater: int = 0
    own: int = 0
    ahead: int = 0
    rest: int = 0

    @property
    def turns(self) -> int:
        return sum(getattr(self, field.name) for field in fields(self))


@dataclass(frozen=True, slots=True)
class Wait:
    """From one turn of an execution context, or from its making, to its next, `last`: where the processor's turns between went. From turn
    `ready` on it acted by itself, and `terms` are of the turns since; `at_first` were ahead of it then, and `at_last` when it acted, or
    when the run ended, where it has no `last`."""

    first: int
    ready: int
    last: int | None
    all: Terms
    terms: Terms
    at_first: int
    at_last: int

    @property
    def bound(self) -> int:
        """How many turns of its processor it could be ready before it acts: those due, those of a greater priority, and those ahead."""
        return self.terms.due + self.terms.greater + self.at_first

    @property
    def is_lawful(self) -> bool:
        """Whether the turns are exactly those of the law: nothing of its own or of the rest, and one less ahead for each other turn."""
        terms = self.terms
        return terms.own == terms.rest == 0 and terms.turns + self.at_last == self.bound


def ready_from(back: BackEnd, context: int, first: int, last: int) -> int | None:
    """After how many turns an execution context is first in a state in which it acts by itself, where it acts in none of the turns from
    `first` to `last`; none if it isn't at the last. Once it is in such a state it stays there."""

    def is_ready(turn: int) -> bool:
        back.go(turn)
        there = back.contexts().get(context)
        return there is not None and there.state in ACTING

    if is_ready(first):
        return first
    if not is_ready(last):
        return None
    low, high = first, last
    while high - low > 1:
        middle = (low + high) // 2
        low, high = (low, middle) if is_ready(middle) else (middle, high)
    return high


class Turns:
    """The turns of a run by what they are for one scheduling context."""

    def __init__(self, schedules: list[Schedule], own: Schedule, events: list[Event]) -> None:
        self._own, self._events = own, events
        self.ahead: list[int] = []
        self._terms: list[str | None] = []
        walk = Schedules(schedules)
        walk.come_to(0)
        for turn, event in enumerate(events):
            self.ahead.append(walk.ahead(own) if turn >= own.born else 0)
            self._terms.append(self._term(walk, turn, event))
            walk.come_to(turn + 1)
            if event.payer:
                walk.pay(event.payer)
        self.ahead.append(walk.ahead(own))

    def _term(self, walk: Schedules, turn: int, event: Event) -> str | None:
        """What a turn counts as; none where it is of another processor."""
        if event.cpu != self._own.cpu:
            return None
        if event.kind in DUE:
            return "due"
        if not event.payer:
            return "rest"
        if event.payer == self._own.number:
            return "own"
        priority = walk.priority(event.payer)
        if priority > self._own.priority:
            return "greater"
        if priority < self._own.priority or turn < self._own.born:
            return "rest"
        return "ahead" if walk.is_ahead(event.payer, self._own) else "rest"

    def terms(self, first: int, last: int) -> Terms:
        """Of the turns from one on, before another."""
        found = Terms()
        for term in filter(None, self._terms[first:last]):
            setattr(found, term, getattr(found, term) + 1)
        return found


def waits_of(back: BackEnd, schedules: list[Schedule], own: Schedule, events: list[Event]) -> Iterator[Wait]:
    """All waits of an execution context with a scheduling context, in their order: where other turns of its processor come between two of
    its own. The last one, to the end of the run, counts only if it is ready at the end."""
    turns = Turns(schedules, own, events)
    acts = [turn for turn, event in enumerate(events) if event.actor == own.context and event.payer and turn >= own.born]
    firsts = [own.born, *(turn + 1 for turn in acts)]
    for first, last in zip(firsts, [*acts, None], strict=True):
        end = len(events) if last is None else last
        everything = turns.terms(first, end)
        if everything.turns == 0:
            continue
        ready = ready_from(back, own.context, first, end)
        if ready is None and last is None:
            continue
        ready = end if ready is None else ready
        yield Wait(first, ready, last, everything, turns.terms(ready, end), turns.ahead[ready], turns.ahead[end])
