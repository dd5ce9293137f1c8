"""Lists the turns of a run, a line each: who acts, the instruction, what it changed, and the event."""

from __future__ import annotations

import subprocess
from collections.abc import Iterable, Iterator
from dataclasses import dataclass
from pathlib import Path
from typing import TextIO

from access import Access, access_of
from backend import OWN_PAGE, PAGE, BackEnd, Event
from naming import Names

ADDR2LINE = "riscv64-unknown-elf-addr2line"
# Of how many turns the program is asked at a time, and how many lines it may tell of execution contexts then.
PART, MOST_LINES = 500, 20_000
SILENT = ("step", "tick")
# After these events alone each page of a domain leads to what it led to before.
SAME_PAGES = ("step", "tick", "raise", "sent", "begin", "answer", "help", "late", "irq")
ZERO = "00000000"


@dataclass(frozen=True, slots=True)
class Listing:
    """Which turns are listed, and what is told of them."""

    first: int
    last: int | None
    context: int | None
    executable: Path | None
    semaphores: bool
    stores: int | None
    names: Names = Names()

    def has(self, actor: int, moved: bool, stored: Access | None) -> bool:
        """Whether a turn is listed, by who acts in it, whether it changes a semaphore, and what it stores."""
        is_there = self.stores is None or (stored is not None and stored.stores and stored.address <= self.stores < stored.address + stored.width)
        return is_there and self.context in (None, actor) and (moved or not self.semaphores)


def places_of(executable: Path, addresses: Iterable[int]) -> dict[int, str]:
    """The function and the source line of each address."""
    asked = sorted(set(addresses))
    words = [ADDR2LINE, "-f", "-s", "-e", str(executable), *map(hex, asked)]
    told = subprocess.run(words, capture_output=True, text=True, check=False).stdout.splitlines()
    return {address: f"{name} {line}" for address, name, line in zip(asked, told[::2], told[1::2], strict=False)}


@dataclass(slots=True)
class Turn:
    """A turn: its event, the lines of execution contexts before and after it, by their numbers, whether it executes an instruction, and what
    that loads or stores."""

    event: Event
    before: dict[int, str]
    after: dict[int, str]
    executes: bool
    access: Access | None = None


def lines_of(contexts: list[str]) -> dict[int, str]:
    """The lines of execution contexts by their numbers."""
    return {int(line.split(" ", 2)[1]): line for line in contexts}


def changes(before: str, after: str | None) -> list[str]:
    """The registers that have other values, by the lines of an execution context."""
    if after is None or before == after:
        return []
    old, new = (dict(word.split("=") for word in line.split()[5:]) for line in (before, after))
    changed = [(int(name[1:]), f"{name}={new.get(name, ZERO)}") for name in old.keys() | new.keys() if old.get(name) != new.get(name)]
    return [text for _, text in sorted(changed)]


class Memory:
    """The instructions of a run that is gone through turn by turn. The program is some turns ahead, as far as pages lead where they led in the
    turn; what is stored is kept up here."""

    def __init__(self, back: BackEnd) -> None:
        self._back = back
        self._domains: dict[int, int] = {}
        self._pages: dict[tuple[int, int], int | None] = {}
        self._frames: dict[int, bytearray] = {}

    def word(self, event: Event, address: int) -> int:
        """The instruction at an address of who acts in a turn; 0 where nothing is."""
        page, offset = divmod(address, PAGE)
        if page == OWN_PAGE or offset > PAGE - 4:
            return self._read(event, address)
        frame = self._frame_of(event, page)
        if frame is None:
            return 0
        if frame not in self._frames:
            self._frames[frame] = bytearray.fromhex(self._there(event, f"frame {frame}").removeprefix("-"))
        return int.from_bytes(self._frames[frame][offset : offset + 4], "little")

    def store(self, access: Access) -> None:
        """Keeps up what a turn stores."""
        known = self._frames.get(access.frame) if access.frame is not None else None
        if known and access.value is not None:
            known[access.offset : access.offset + access.width] = access.value.to_bytes(access.width, "little")

    def end_part(self, event: Event) -> None:
        """A part of the turns ends with one."""
        if event.kind not in SAME_PAGES:
            self._pages.clear()

    def _frame_of(self, event: Event, page: int) -> int | None:
        """The frame that a page of who acts in a turn leads to."""
        key = self._domain_of(event.actor), page
        if key not in self._pages:
            asked = f"page {key[0]} {page}"
            told = self._back.ask(asked)[0].split()[1] if event.kind in SAME_PAGES else self._there(event, asked)
            self._pages[key] = None if told == "-" else int(told)
        return self._pages[key]

    def _domain_of(self, number: int) -> int:
        if number not in self._domains:
            self._domains = self._back.domains()
        return self._domains[number]

    def _there(self, event: Event, asked: str) -> str:
        """The first thing that is told before a turn."""
        here = self._back.turn
        self._back.go(event.place)
        told = self._back.ask(asked)[0].split()[1]
        self._back.go(here)
        return told

    def _read(self, event: Event, address: int) -> int:
        here = self._back.turn
        self._back.go(event.place)
        found = self._back.read(self._back.contexts()[event.actor], address, 4)
        self._back.go(here)
        return int.from_bytes(found, "little")


class Lister:
    """Goes through turns, and says what each did. The program isn't asked turn by turn, but for some hundred turns at a time."""

    def __init__(self, back: BackEnd, listing: Listing) -> None:
        self._back = back
        self._listing = listing
        self._memory = Memory(back)
        self._texts: dict[int, str] = {}
        self._places: dict[int, str] = {}
        self._contexts: dict[int, str] = {}
        self._semaphores: dict[int, str] = {}

    def begin(self) -> None:
        """Begins at the first turn."""
        self._back.go(self._listing.first)
        self._contexts = lines_of(self._back.ask("contexts"))
        self._semaphores = self._read_semaphores()

    def lines(self, events: list[Event]) -> Iterator[str]:
        """The lines of turns, which are the next."""
        for part in self._parts(events):
            for turn in self._take(part):
                moved = self._moved() if self._listing.semaphores and turn.event.kind not in SILENT else []
                line = self._line(turn, moved)
                if self._listing.has(turn.event.actor, bool(moved), turn.access):
                    yield line
            self._memory.end_part(part[-1])

    def _parts(self, events: list[Event]) -> Iterator[list[Event]]:
        """Turns that are taken at once: those after which pages lead to the same, and semaphores are the same where they are told, and each other
        one alone."""
        most = max(1, MOST_LINES // len(self._contexts))
        together = SILENT if self._listing.semaphores else SAME_PAGES
        part: list[Event] = []
        for event in events:
            if part and (event.kind not in together or len(part) == most):
                yield part
                part = []
            part.append(event)
            if event.kind not in together:
                yield part
                part = []
        if part:
            yield part

    def _take(self, part: list[Event]) -> list[Turn]:
        """Takes turns."""
        asked = [line for event in part for line in ("access" if event.kind == "step" else "next", f"go {event.place + 1}", "contexts")]
        answers = iter(self._back.ask_all(asked))
        turns = []
        for event in part:
            steps, (told,) = event.kind == "step", next(answers)
            next(answers)
            before, self._contexts = self._contexts, lines_of(next(answers))
            turns.append(Turn(event, before, self._contexts, steps or told != "next -", access_of(told) if steps else None))
        return turns

    def _line(self, turn: Turn, moved: list[str]) -> str:
        """The line of a turn."""
        event = turn.event
        before = turn.before.get(event.actor)
        words = self._instruction(event, before) if before and turn.executes else ["-"]
        changed = changes(before, turn.after.get(event.actor)) if before else []
        stored = str(turn.access) if turn.access else ""
        if turn.access:
            self._memory.store(turn.access)
        told = "" if event.kind in SILENT else f"{event.kind} {event.a} {event.b}"
        parts = (f"{event.place + 1} cpu {event.cpu} {self._listing.names.of(event.actor, 'ec')} sc {event.payer}", *words, *changed, stored, told, *moved)
        return "  ".join(filter(None, parts))

    def _instruction(self, event: Event, line: str) -> list[str]:
        """The address, text and source line of an instruction, by the line of who acts."""
        address = int(line.split(" ", 5)[4], 16)
        return [f"{address:08x}", self._text(self._memory.word(event, address)), self._place(address)]

    def _text(self, word: int) -> str:
        if word not in self._texts:
            self._texts[word] = self._back.ask(f"code {word}")[0].removeprefix("code ")
        return self._texts[word]

    def _place(self, address: int) -> str:
        if self._listing.executable is None:
            return ""
        if address not in self._places:
            self._places.update(places_of(self._listing.executable, [address]))
        return self._places[address]

    def _read_semaphores(self) -> dict[int, str]:
        return {int(line.split()[1]): line for line in self._back.semaphores()} if self._listing.semaphores else {}

    def _moved(self) -> list[str]:
        """The semaphores that were changed, each as it was and is."""
        before, self._semaphores = self._semaphores, self._read_semaphores()
        after = self._semaphores
        named = self._listing.names.line
        return [f"{before.get(number, 'none')} -> {named(line)}" for number, line in after.items() if before.get(number) != line]


def list_turns(back: BackEnd, listing: Listing, out: TextIO) -> None:
    """Lists the turns that were asked for."""
    last = back.end if listing.last is None else min(listing.last, back.end)
    lister = Lister(back, listing)
    lister.begin()
    for start in range(listing.first, last, PART):
        for line in lister.lines(back.events(start, min(start + PART, last))):
            print(line, file=out)
