"""Reads the order of turns of a run, and compares it with the run's report."""

from __future__ import annotations

import re
from bisect import bisect_left
from collections.abc import Iterator
from dataclasses import dataclass
from functools import partial
from itertools import accumulate, compress
from operator import eq, ne
from typing import NoReturn

from report import NUMBER, Fault, text_lines

LINE = re.compile(rf"{NUMBER} {NUMBER}")


@dataclass(frozen=True, slots=True)
class Order:
    """An order of turns in blocks of one processor each: line i + 1 of the text is of processor `cpus[i]`, up to turn `lasts[i]`."""

    cpus: list[int]
    lasts: list[int]

    def within(self, first: int, last: int) -> Iterator[tuple[int, int, int]]:
        """The blocks of turns `first` to `last`, each with its processor, its first and its last turn, cut to these turns."""
        at = bisect_left(self.lasts, first)
        while first <= last:
            end = min(self.lasts[at], last)
            yield self.cpus[at], first, end
            first = end + 1
            at += 1


def read_order(text: str, whole: int, turns: list[int], cpus: list[int]) -> Order:
    """The order that the text writes. Raises Fault where a line is not of the form, or where the turns are not those of the report.

    The report has `whole` turns, and says that these `turns` were on these `cpus`.
    """
    order = _parse(text)
    if order is None:
        _refuse(text)
    lines = len(order.lasts)
    last = order.lasts[-1] if lines else 0
    if last != whole:
        raise Fault(max(1, lines), f"the order has {last} turns, the report {whole}")
    blocks = list(map(partial(bisect_left, order.lasts), turns))
    differs = map(ne, map(order.cpus.__getitem__, blocks), cpus)
    for at, turn, cpu in compress(zip(blocks, turns, cpus), differs):
        raise Fault(at + 1, f"turn {turn} is of processor {cpu} in the report")
    return order


def _parse(text: str) -> Order | None:
    """The order that the text writes, if it writes one. An order has one text, so a whole text is compared, and not each line."""
    tokens = text.split()
    try:
        cpus, counts = list(map(int, tokens[::2])), list(map(int, tokens[1::2]))
    except ValueError:
        return None
    written = "".join(map("{} {}\n".format, cpus, counts))
    if written != text or 0 in counts or any(map(eq, cpus, cpus[1:])):
        return None
    return Order(cpus, list(accumulate(counts)))


def _refuse(text: str) -> NoReturn:
    """Raises the first fault of a text that writes no order."""
    before = ""
    for number, line in text_lines(text):
        found = LINE.fullmatch(line)
        if found is None:
            raise Fault(number, "`CPU COUNT` is wanted")
        cpu, count = found.groups()
        if count == "0":
            raise Fault(number, "a count of no turns")
        if cpu == before:
            raise Fault(number, f"the line before is of processor {cpu} too")
        before = cpu
    raise AssertionError("a text whose lines are all of the form is an order")
