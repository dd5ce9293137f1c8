"""What `nova_explore` writes, as its parts: how far the search went, the orders that it tells, and outcomes."""

from __future__ import annotations

import re
from dataclasses import dataclass, field

HEAD = re.compile(r"(?:(?P<found>found)|(?P<cut>cut)|never (?P<never>all|within \d+)|ends (?P<count>\d+) (?P<ends>all|cut|within \d+))")
END = re.compile(r"end (\d+) states (\d+)")
ABSENT = re.compile(r"ec (\d+) never there")
BLOCK = re.compile(r"(\d+) (\d+)")
ALONE = "one order"
# The statuses of the program that come with an answer.
ALL, FOUND, CUT, WITHIN = 0, 1, 7, 9


class Unread(Exception):
    """A text is no answer of the program; it says why."""


@dataclass(frozen=True, slots=True)
class Outcome:
    """An outcome of runs: in how many states runs end so, the lines that tell it, and an order that ends so."""

    states: int
    lines: tuple[str, ...]
    order: str


@dataclass(frozen=True, slots=True)
class Answer:
    """An answer: `all`, `within N` or `cut`, where no order is found; how many states there were; whether there is one order alone; the order that is
    found; the outcomes, where these were asked for; and the execution context that was asked about, where it is never there."""

    extent: str
    states: int
    is_alone: bool = False
    order: str | None = None
    outcomes: tuple[Outcome, ...] | None = None
    absent: int | None = None

    @property
    def status(self) -> int:
        """What the program ends with."""
        if self.order is not None:
            return FOUND
        return {"all": ALL, "cut": CUT}.get(self.extent, WITHIN)

    @property
    def orders(self) -> list[str]:
        """The orders that are told."""
        return [self.order] if self.order is not None else [one.order for one in self.outcomes or ()]


@dataclass(slots=True)
class Lines:
    """The lines of an answer, which are taken one after another."""

    left: list[str] = field(default_factory=list)

    def next(self) -> str:
        """The next line."""
        if not self.left:
            raise Unread("the answer ends too soon")
        return self.left.pop(0)

    def absent(self) -> int | None:
        """The execution context of which the next line says that it is never there; none where it doesn't."""
        found = ABSENT.fullmatch(self.left[0]) if self.left else None
        return int(found[1]) if found and self.next() else None

    def order(self) -> str:
        """The lines of an order that are next; there may be none."""
        taken = ""
        while self.left and BLOCK.fullmatch(self.left[0]):
            taken += self.left.pop(0) + "\n"
        return taken


def outcome_of(lines: Lines, number: int) -> Outcome:
    """The outcome that is next."""
    head = END.fullmatch(lines.next())
    if head is None or int(head[1]) != number:
        raise Unread(f"outcome {number} is wanted")
    told = []
    while (line := lines.next()) != "order":
        told.append(line)
    return Outcome(int(head[2]), tuple(told), lines.order())


def states_of(lines: Lines) -> int:
    """How many states there were."""
    word, _, count = lines.next().partition(" ")
    if word != "states" or not count.isdigit():
        raise Unread("`states S` is wanted")
    return int(count)


def read_answer(text: str) -> Answer:
    """The parts of an answer. Raises Unread where the text is none."""
    lines = Lines(text.splitlines())
    is_alone = lines.left[:1] == [ALONE]
    if is_alone:
        lines.next()
    head = HEAD.fullmatch(lines.next())
    if head is None:
        raise Unread("the first line is that of no answer")
    states = states_of(lines)
    if head["found"]:
        answer = Answer("", states, is_alone, lines.order())
    elif head["count"]:
        outcomes = tuple(outcome_of(lines, number) for number in range(1, int(head["count"]) + 1))
        answer = Answer(head["ends"], states, is_alone, outcomes=outcomes)
    else:
        answer = Answer(head["never"] or "cut", states, is_alone, absent=lines.absent() if head["never"] else None)
    if lines.left:
        raise Unread(f"{lines.left[0]!r} stands behind the answer")
    return answer
