"""Goes through a run in both directions, to the next place that is looked for."""

from __future__ import annotations

from collections.abc import Callable
from dataclasses import dataclass

from access import Access
from backend import PAGE, BackEnd, Context, Event, Refused

# How many turns are gone through at most before an interrupt is looked for, and how many at first on the way back.
SLICE, FIRST = 200_000, 4096


@dataclass(frozen=True, slots=True)
class Stop:
    """Where one stands: who is about to act or has acted, why, and for a watchpoint the address that is watched."""

    context: int = 0
    why: str = ""
    address: int = 0


@dataclass(frozen=True, slots=True)
class Breakpoint:
    """An address of a domain."""

    domain: int
    address: int

    def lines(self) -> list[str]:
        """How it is looked for."""
        return [f"break {self.domain} {self.address}"]


@dataclass(frozen=True, slots=True)
class Watchpoint:
    """Bytes of a frame, by the address at which a domain has them, and gdb's word for what is looked for."""

    address: int
    frame: int
    first: int
    last: int
    kind: str

    def lines(self) -> list[str]:
        """How it is looked for."""
        verbs = {"watch": ["stores"], "rwatch": ["loads"], "awatch": ["loads", "stores"]}[self.kind]
        return [f"{verb} {self.frame} {self.first} {self.last}" for verb in verbs]

    def sees(self, access: Access) -> bool:
        """Whether bytes that are loaded or stored are among them."""
        is_of_kind = self.kind in ("awatch", "watch" if access.stores else "rwatch")
        return is_of_kind and access.frame == self.frame and access.offset <= self.last and self.first < access.offset + access.width


class Going:
    """A run, what is looked for in it, and the way to it."""

    def __init__(self, back: BackEnd, interrupted: Callable[[], bool]) -> None:
        self.back = back
        self.points: list[Breakpoint | Watchpoint] = []
        self.until: int | None = None
        self.kinds: set[str] = set()
        self._interrupted = interrupted

    def watch(self, context: Context, address: int, length: int, kind: str) -> Watchpoint:
        """The bytes at an address of a domain, as a frame has them."""
        offset = address % PAGE
        led = self.back.page(context.domain, address // PAGE)
        if led is None:
            raise Refused(f"nothing is at {address:#x}")
        return Watchpoint(address, led[0], offset, min(offset + length, PAGE) - 1, kind)

    def _lines(self) -> list[str]:
        return [line for point in self.points for line in point.lines()]

    def _here(self, stepped: int | None) -> Stop:
        """Why one stopped before the next instruction."""
        following = self.back.next()
        if following is None:
            return Stop()
        number, domain, address = following
        if Breakpoint(domain, address) in self.points:
            return Stop(number, "break")
        watched = [point for point in self.points if isinstance(point, Watchpoint)]
        access = self.back.access() if watched else None
        if access:
            for point in watched:
                if point.sees(access):
                    return Stop(number, point.kind, point.address)
        return Stop(number, "step" if number == stepped else "")

    def _kind_between(self, first: int, last: int) -> Event | None:
        """The first turn of some whose event is of a kind that is looked for."""
        if not self.kinds:
            return None
        return next((event for event in self.back.events(first, last) if event.kind in self.kinds), None)

    # Forwards

    def forwards(self) -> Stop:
        """Goes on to the next place that is looked for, the present one included, or to the end."""
        while self.back.turn < self.back.end:
            start = self.back.turn
            limit = min(start + SLICE, self.back.end)
            if self.until is not None and start < self.until:
                limit = min(limit, self.until)
            event = self._kind_between(start, limit)
            to = event.place + 1 if event else limit
            if self.back.run(self._lines(), to):
                return self._here(None)
            if event:
                return Stop(event.actor, event.kind)
            if self.back.turn == self.until:
                return Stop(why="until")
            if self._interrupted():
                return Stop(why="interrupt")
        return Stop(why="end")

    def step(self, number: int, alone: bool) -> Stop:
        """The next instruction of an execution context is done, and it is ready again. Where others are looked for too, one of them may
        come first."""
        following = self.back.next()
        if following is None or following[0] != number:
            if not self._to_instruction(number, alone):
                return Stop(number, "end" if self.back.turn == self.back.end else "interrupt")
            found = self.back.next()
            if found is None or found[0] != number:
                return self._here(None)
        self.back.go(self.back.turn + 1)
        while self.back.turn < self.back.end and not self._is_ready(number):
            if not self._to_instruction(number, alone):
                return Stop(number, "end" if self.back.turn == self.back.end else "interrupt")
            found = self.back.next()
            if found is not None and found[0] != number:
                return self._here(None)
        return Stop(number, "step" if self._is_ready(number) else "end")

    def _is_ready(self, number: int) -> bool:
        return number in self.back.contexts() and self.back.contexts()[number].state == "ready"

    def _to_instruction(self, number: int, alone: bool) -> bool:
        lines = [f"by {number}", *([] if alone else self._lines())]
        while self.back.turn < self.back.end:
            if self.back.run(lines, self.back.turn + SLICE):
                return True
            if self._interrupted():
                return False
        return False

    def first_turn(self, number: int, first: int) -> int:
        """The first turn after one in which an execution context is there that is there now; one is left where one was."""
        here = last = self.back.turn
        while first + 1 < last:
            middle = (first + last) // 2
            self.back.go(middle)
            first, last = (first, middle) if number in self.back.contexts() else (middle, last)
        self.back.go(here)
        return last

    # Backwards

    def backwards(self) -> Stop:
        """The last place before this one that is looked for, or the beginning."""
        found = self._before(self._lines(), True)
        if found is None:
            return Stop(why="interrupt" if self.back.turn else "end")
        if found < 0:
            return Stop(why="until" if self.back.turn == self.until else "event")
        stop = self._here(None)
        if stop.address:
            # gdb takes a watchpoint to stop before the instruction, and steps back over it by itself.
            self.back.go(found + 1)
        return stop

    def step_back(self, number: int, alone: bool) -> Stop:
        """Goes back to before the last instruction of an execution context. Where others are looked for too, one may come first."""
        here = self.back.turn
        found = self._before([f"by {number}", *([] if alone else self._lines())], False)
        if self.back.turn and found is None:
            return Stop(number, "interrupt")
        stop = Stop() if found is None else self._here(number)
        if self._changed_after(number, self.back.turn + 1 if stop.context == number else self.back.turn, here):
            return Stop(number, "step")
        if found is None:
            return Stop(number, "end")
        if stop.address and stop.context != number:
            self.back.go(found + 1)
        return Stop(number, "step") if stop.context == number else stop

    def _changed_after(self, number: int, first: int, last: int) -> bool:
        """Whether another changed the registers of an execution context between two turns. Then one is before the turn in which that
        was."""
        back, stand = self.back, self.back.turn

        def registers(turn: int) -> tuple[int, ...] | None:
            back.go(turn)
            return back.contexts()[number].registers if number in back.contexts() else None

        if first >= last:
            return False
        now = registers(last)
        if registers(first) in (now, None):
            back.go(stand)
            return False
        while first + 1 < last:
            middle = (first + last) // 2
            first, last = (first, middle) if registers(middle) == now else (middle, last)
        back.go(first)
        return True

    def _before(self, lines: list[str], others: bool) -> int | None:
        """Goes to the last turn before this one that does something that is looked for, and gives it: by parts, from the newest on. It
        is -1 where one stopped for another reason, where others are looked for. None where there is none; then one is at the
        beginning, or where an interrupt came."""
        here = end = self.back.turn
        span = FIRST
        floor = self.until if others and self.until is not None and self.until < here else 0
        while end > floor:
            start = max(end - span, floor)
            event = self._last_kind(start, end) if others else None
            if event is not None:
                start = event.place
            self.back.go(start)
            found = self._last_between(lines, end)
            if found is not None:
                self.back.go(found)
                return found
            if event is not None:
                self.back.go(event.place)
                return -1
            if self._interrupted():
                self.back.go(here)
                return None
            # To where no state is kept on the way one goes from the beginning, so that few parts are best.
            end, span = start, min(span * 2, SLICE) if self.back.keeps else span * 16
        self.back.go(floor)
        return -1 if floor else None

    def _last_between(self, lines: list[str], end: int) -> int | None:
        return self.back.last(lines, end) if lines else None

    def _last_kind(self, first: int, last: int) -> Event | None:
        if not self.kinds:
            return None
        return next((event for event in reversed(self.back.events(first, last)) if event.kind in self.kinds), None)
