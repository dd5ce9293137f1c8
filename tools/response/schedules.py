"""The scheduling contexts of a run, and what is left of their quanta before each turn, from who pays for which turn."""

from __future__ import annotations

import sys
from dataclasses import dataclass
from pathlib import Path

TOP = Path(__file__).resolve().parents[2]
sys.path += [str(TOP / "tools" / "debug"), str(TOP / "tools" / "build")]

from backend import BackEnd, Event, Refused  # noqa: E402
from ending import ended  # noqa: E402

__all__ = ["TOP", "BackEnd", "Event", "Refused", "Schedule", "Schedules", "ended", "schedules_of"]

CREATE_SC, SUCCESS = 4, 0
ROOT_CONTEXT, ROOT_SCHEDULE = 1, 2


@dataclass(frozen=True, slots=True)
class Schedule:
    """A scheduling context: its object, its execution context, where it runs, and after how many turns of the run it was there."""

    number: int
    context: int
    cpu: int
    priority: int
    quantum: int
    born: int


@dataclass(slots=True)
class Budget:
    """What is left of a quantum, and a stamp, which orders a ring."""

    left: int
    stamp: int


def root_of(scenario: Path) -> Schedule:
    """The root's scheduling context, by the settings of a scenario."""
    for line in scenario.read_text("latin-1").splitlines():
        words = line.partition("#")[0].split()
        if words[:1] == ["root"]:
            return Schedule(ROOT_SCHEDULE, ROOT_CONTEXT, 0, int(words[3], 0), int(words[4], 0), 0)
        if words[:1] in (["source"], ["image"]):
            break
    raise Refused(f"{scenario}: there is no root line among its settings")


def _target_at(back: BackEnd, domain: int, selector: int) -> int:
    """The object that a domain holds at a selector."""
    for words in map(str.split, back.delegations()):
        kind, base, order, target = words[4], int(words[5]), int(words[6]), int(words[8])
        if int(words[3]) == domain and kind == "obj" and base <= selector < base + (1 << order):
            return target
    raise Refused(f"domain {domain} holds nothing at selector {selector}")


def _made_in(back: BackEnd, event: Event) -> Schedule:
    """The scheduling context that is made in a turn."""
    back.go(event.place)
    maker = back.contexts()[event.actor]
    whose = _target_at(back, maker.domain, maker.registers[12])
    cpu, word = back.contexts()[whose].cpu, maker.registers[13]
    back.go(event.place + 1)
    number = _target_at(back, maker.domain, maker.registers[10])
    return Schedule(number, whose, cpu, word & 0xFF, word >> 8, event.place + 1)


def schedules_of(back: BackEnd, scenario: Path, events: list[Event]) -> list[Schedule]:
    """All scheduling contexts of a run, in the order in which they were made."""
    made = [event for event in events if (event.kind, event.a, event.b) == ("answer", CREATE_SC, SUCCESS)]
    return [root_of(scenario), *(_made_in(back, event) for event in made)]


class Schedules:
    """Scheduling contexts with their budgets, turn after turn."""

    def __init__(self, schedules: list[Schedule]) -> None:
        self._coming = list(reversed(schedules))
        self._there: dict[int, Schedule] = {}
        self._budgets: dict[int, Budget] = {}
        self._stamp = 0

    def _next_stamp(self) -> int:
        self._stamp += 1
        return self._stamp

    def come_to(self, turn: int) -> None:
        """Adds those that are there after this many turns."""
        while self._coming and self._coming[-1].born <= turn:
            new = self._coming.pop()
            self._there[new.number] = new
            self._budgets[new.number] = Budget(new.quantum, self._next_stamp())

    def pay(self, number: int) -> None:
        """One turn is paid for: after the last of a quantum comes a new one, behind all others of the ring."""
        budget = self._budgets[number]
        if budget.left > 1:
            budget.left -= 1
        else:
            budget.left, budget.stamp = self._there[number].quantum, self._next_stamp()

    def priority(self, number: int) -> int:
        """The priority of a scheduling context."""
        return self._there[number].priority

    def is_ahead(self, number: int, own: Schedule) -> bool:
        """Whether one scheduling context has a lesser stamp than another."""
        return self._budgets[number].stamp < self._budgets[own.number].stamp

    def ahead(self, own: Schedule) -> int:
        """How many turns are ahead of a scheduling context in its ring: what is left of those with a lesser stamp."""
        stamp = self._budgets[own.number].stamp
        return sum(
            max(self._budgets[peer.number].left, 1)
            for peer in self._there.values()
            if (peer.cpu, peer.priority) == (own.cpu, own.priority) and self._budgets[peer.number].stamp < stamp
        )
