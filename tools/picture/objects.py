"""What a report tells of the objects and capability ranges of a run without saying it: when each was made, and whose it is.

Objects and capability ranges have numbers that rise in the order in which they are made, so the hypercalls that made one tell them.
"""

from __future__ import annotations

from collections import deque
from dataclasses import dataclass, field

from report import Event, Kind, Report, Space, partner
from words import CREATE_EC, CREATE_PD, CREATE_PT, CREATE_SC, CREATE_SM, Sort

CREATES = {
    CREATE_PD: Sort.DOMAIN,
    CREATE_EC: Sort.CONTEXT,
    CREATE_SC: Sort.PAYER,
    CREATE_PT: Sort.PORTAL,
    CREATE_SM: Sort.SEMAPHORE,
}
# The objects that are there from the start: the root's domain, the root, and what pays for it. Behind them come the semaphores of the sources.
BOOT = {0: Sort.DOMAIN, 1: Sort.CONTEXT, 2: Sort.PAYER}
ROOT, ROOT_PAYER = 1, 2
# Where more execution contexts than this may have a scheduling context, none is looked for.
MOST_IN_DOUBT = 64


@dataclass(slots=True)
class Objects:
    """By number: the kind of each object, the turn that made it (0 for those of the start) and, of a turn, the object that it made."""

    sorts: dict[int, Sort] = field(default_factory=dict)
    births: dict[int, int] = field(default_factory=dict)
    made_in: dict[int, int] = field(default_factory=dict)


def creates(event: Event) -> Sort | None:
    """The kind of the object that the turn of this event made."""
    succeeded = event.kind is Kind.ANSWER and event.b == 0
    began = event.kind is Kind.BEGIN and event.a == CREATE_PD
    return CREATES.get(event.a) if succeeded or began else None


def find_objects(report: Report) -> Objects:
    """The objects of the run. Where the lines do not fit the numbers, only the kinds that the lines say."""
    start = BOOT | {len(BOOT) + source.number: Sort.SEMAPHORE for source in report.sources}
    found = Objects(start, dict.fromkeys(start, 0))
    for event in report.events:
        sort = creates(event)
        if sort is not None:
            number = len(found.sorts)
            found.sorts[number] = sort
            found.births[number] = event.place
            found.made_in[event.place] = number
    return found if _fits(report, found.sorts) else Objects(_said(report))


def _said(report: Report) -> dict[int, Sort]:
    sorts = {context.number: Sort.CONTEXT for context in report.contexts}
    sorts |= {payer.number: Sort.PAYER for payer in report.payers}
    return sorts | {number: Sort.SEMAPHORE for number in report.semaphores}


def _fits(report: Report, sorts: dict[int, Sort]) -> bool:
    """Whether the lines of the report name just the objects that were counted."""
    lines = _said(report)
    counted = {number: sort for number, sort in sorts.items() if sort not in (Sort.DOMAIN, Sort.PORTAL)}
    domains = (event.b for event in report.events if event.kind is Kind.BEGIN and event.a == CREATE_PD)
    return lines == counted and all(sorts.get(number) is Sort.DOMAIN for number in domains)


def find_processors(report: Report) -> dict[int, int]:
    """The processor of each execution context that acted, or that one who acted called or sent an exit to."""
    processors: dict[int, int] = {}
    for event in report.events:
        if event.kind is Kind.IRQ:
            continue
        processors[event.context] = event.cpu
        other = partner(event)
        if other is not None:
            processors[other] = event.cpu
    return processors


def find_owners(report: Report, objects: Objects, processors: dict[int, int]) -> dict[int, int]:
    """The execution context of each scheduling context where the report leaves no doubt.

    A scheduling context is of an execution context that was made before it, is not local, has no other one, is not of another
    processor, and did not act before.
    """
    first: dict[int, int] = {}
    for event in report.events:
        if event.kind is not Kind.IRQ:
            first.setdefault(event.context, event.place)
    free = deque(context.number for context in report.contexts if context.sort != "local" and context.number != ROOT)
    owners = {ROOT_PAYER: ROOT}
    doubts: list[tuple[int, list[int]]] = []
    waiting: list[int] = []
    for payer in report.payers:
        while free and free[0] < payer.number:
            waiting.append(free.popleft())
        if payer.number == ROOT_PAYER or len(waiting) > MOST_IN_DOUBT:
            continue
        born = objects.births.get(payer.number, 0)
        waiting = [context for context in waiting if first.get(context, report.turns + 1) > born]
        able = [context for context in waiting if processors.get(context, payer.cpu) == payer.cpu]
        if len(able) == 1:
            owners[payer.number] = able[0]
            waiting.remove(able[0])
        else:
            doubts.append((payer.number, able))
    _settle(owners, doubts)
    return owners


def _settle(owners: dict[int, int], doubts: list[tuple[int, list[int]]]) -> None:
    """Takes what has an owner out of the doubts, from the last one on."""
    taken = set(owners.values())
    for payer, able in reversed(doubts):
        left = [context for context in able if context not in taken]
        if len(left) == 1:
            owners[payer] = left[0]
            taken.add(left[0])


@dataclass(slots=True)
class Life:
    """When a capability range was made and removed, in turns, what it was given from, and its domain where that is known."""

    made: int | None
    gone: int | None
    parent: int | None
    domain: int | None
    target: int | None


def find_lives(report: Report, objects: Objects) -> dict[int, Life]:
    """The life of each capability range that is there at the end or that an event names."""
    lives = {held.number: Life(None, None, held.parent, held.domain, None) for held in report.ranges}
    numbers = _roots(report)
    for event in report.events:
        if event.kind is Kind.MADE:
            life = lives.setdefault(event.a, Life(None, None, event.b, None, None))
            life.made = event.place
        elif event.kind is Kind.GONE:
            life = lives.setdefault(event.a, Life(None, None, None, None, None))
            life.gone, life.domain = event.place, event.b
    for number, place in numbers.items():
        life = lives.setdefault(number, Life(None, None, None, None, None))
        life.made, life.target = place, objects.made_in.get(place)
    return lives


def _roots(report: Report) -> dict[int, int]:
    """The turn in which each capability range without a parent was made, by its number; empty where the numbers do not fit."""
    numbers: dict[int, int] = {}
    following = len(report.consoles) + 1 + len(BOOT) + len(report.sources)
    for event in report.events:
        if event.kind is Kind.MADE:
            if event.a != following:
                return {}
            following += 1
        elif creates(event) is not None:
            numbers[following] = event.place
            following += 1
    held = {cap.number: cap for cap in report.ranges}
    fits = all(number not in held or held[number].space is Space.OBJECTS for number in numbers)
    return numbers if fits else {}
