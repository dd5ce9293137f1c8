"""Words for the numbers of a report."""

from __future__ import annotations

import re
from enum import Enum
from functools import cache
from pathlib import Path

from report import CapRange, Event, Kind, Space

HEADER = Path(__file__).resolve().parent.parent / "c" / "include" / "nova.h"


@cache
def _numbered(enum: str) -> list[str]:
    """The names of an enumeration of the header in C, by their numbers from 0 on. It is read where a name is asked for, since modules
    that are sent elsewhere come without it."""
    rows = re.search(rf"enum {enum} {{(.*?)}};", HEADER.read_text(), re.DOTALL)
    named = re.findall(r"NOVA_(\w+) = (\d+),", rows[1]) if rows else []
    if [int(number) for _, number in named] != list(range(len(named))):
        raise ValueError(f"{HEADER}: {enum} leaves numbers out")
    return [name for name, _ in named]


CALL, REPLY, CREATE_PD, CREATE_EC, CREATE_SC, CREATE_PT, CREATE_SM, REVOKE, LOOKUP, EC_CTRL, SC_CTRL, PT_CTRL, SM_CTRL = range(13)
STATUSES = "SUCCESS TIMEOUT ABORTED OVERFLOW BAD_HYP BAD_CAP BAD_PAR BAD_CPU BUSY".split()
REASONS = (
    "startup",
    "an illegal instruction",
    "a fetch fault",
    "a load fault",
    "a store fault",
    "a misaligned address",
    "ecall",
    "ebreak",
    "a recall",
)
# The reasons whose q0 is an address or a word.
WITH_VALUE = frozenset(range(1, 6))
SKIPS = {1: "no range", 2: "no window", 3: "no right left", 4: "place taken", 5: "being revoked"}


class Sort(Enum):
    """The kinds of object, with the short name and the rights from the least bit on."""

    DOMAIN = ("PD", ("create",))
    CONTEXT = ("EC", ("control", "bind SC", "bind PT"))
    PAYER = ("SC", ("control",))
    PORTAL = ("PT", ("control", "call", "event"))
    SEMAPHORE = ("SM", ("up", "down"))

    def __init__(self, short: str, rights: tuple[str, ...]) -> None:
        self.short = short
        self.rights = rights


def _of(names: list[str] | tuple[str, ...], number: int, what: str) -> str:
    return names[number] if number < len(names) else f"{what} {number}"


def hypercall(number: int) -> str:
    """The name of a hypercall."""
    return _of(_numbered("nova_number"), number, "hypercall").lower()


def status(number: int) -> str:
    """The name of a status."""
    return _of(STATUSES, number, "status")


def reason(event: Event) -> str:
    """What a raise or a death is of, with the address or word where there is one."""
    name = _of(REASONS, event.a, "reason")
    return f"{name} (0x{event.b:x})" if event.a in WITH_VALUE else name


def counted(count: int, one: str, many: str) -> str:
    """A count with its noun."""
    return f"{count:,} {one if count == 1 else many}"


def rights(mask: int, names: tuple[str, ...]) -> str:
    """The names of the rights of a mask."""
    known = [name for bit, name in enumerate(names) if mask >> bit & 1]
    rest = mask >> len(names)
    return ", ".join(known + ([f"+{rest << len(names)}"] if rest else [])) or "none"


def rights_of(held: CapRange, sort: Sort | None) -> str:
    """The rights of a capability range, by names where the kind of its object is known."""
    if held.space is Space.MEMORY:
        return rights(held.rights, ("read", "write", "execute"))
    return rights(held.rights, sort.rights) if sort else str(held.rights)


def places(base: int, order: int, one: str, many: str) -> str:
    """The 2^order places from `base` on."""
    return f"{one} {base}" if order == 0 else f"{many} {base}–{base + (1 << order) - 1}"


def answered_word(word: int) -> str:
    """What a translation answered, as places and order."""
    kind, order, base = word & 3, word >> 7 & 31, word >> 12
    if kind == 1:
        return places(base, order, "page", "pages")
    return places(base, order, "selector", "selectors") if kind == 3 else "nothing"


def sentence(event: Event) -> str:
    """An event as a short sentence, by the report's line alone."""
    who = f"EC {event.context}"
    match event.kind:
        case Kind.RAISE:
            return f"{who} raises {reason(event)}"
        case Kind.DIED:
            return f"{who} dies of {reason(event)}"
        case Kind.ANSWER:
            return f"{who} {hypercall(event.a)}: {status(event.b)}"
        case Kind.BEGIN:
            return f"{who} {_begun(event)}"
        case Kind.HELP:
            return f"{who}’s {'exit' if event.b else 'call'} finds EC {event.a} busy: {who} helps"
        case Kind.SENT:
            return f"{who}’s exit goes to EC {event.b}"
        case Kind.ABORT:
            return f"{who}’s {'exit' if event.b else 'call'} is aborted: EC {event.a} is dead"
        case Kind.MADE:
            return f"{who} gives range {event.a}, from range {event.b}"
        case Kind.SKIP:
            return f"{who} skips {_skipped(event)}"
        case Kind.XLAT:
            return f"{who} translates item {event.b}: {answered_word(event.a)}"
        case Kind.ENDED:
            return f"{who} ends item {event.a}: {counted(event.b, 'range', 'ranges')} given"
        case Kind.GONE:
            return f"{who} removes range {event.a} of PD {event.b}"
        case Kind.LATE:
            return f"{who} gives up waiting at SM {event.a}: {status(event.b)}"
        case Kind.IRQ:
            return f"source {event.a} fires{f': {status(event.b)}' if event.b else f', and wakes {who}' if event.context else ''}"


def _begun(event: Event) -> str:
    match event.a:
        case 0:
            return f"calls EC {event.b}"
        case 1:
            return f"begins its reply to EC {event.b}"
        case 2:
            return f"create_pd: PD {event.b}, given its first range"
        case 7:
            return f"revokes from {event.b} on"
        case 12:
            return f"waits at SM {event.b}"
        case number:
            return f"{hypercall(number)} goes on"


def _skipped(event: Event) -> str:
    why = SKIPS.get(event.a, f"reason {event.a}")
    return f"item {event.b}: {why}" if event.a in (1, 2) else f"the part at {event.b}: {why}"
