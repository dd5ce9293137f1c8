"""Orders of turns, in blocks of one processor each."""

from __future__ import annotations

from collections.abc import Iterable
from dataclasses import dataclass
from itertools import accumulate
from typing import NamedTuple


class Block(NamedTuple):
    """Turns of one processor, one after another: a line of an order."""

    cpu: int
    count: int


# An order of turns, or a beginning of one: each count is positive, and neighbours are of different processors.
Blocks = tuple[Block, ...]


@dataclass(frozen=True, slots=True)
class Parting:
    """The first turn in which two orders differ: the line of the one, its processor, and that of the other; None where it has ended."""

    turn: int
    line: int
    cpu: int | None
    other: int | None


def text_of(blocks: Blocks) -> str:
    """The text of an order."""
    return "".join(f"{cpu} {count}\n" for cpu, count in blocks)


def turns_of(blocks: Iterable[Block]) -> int:
    """How many turns there are."""
    return sum(block.count for block in blocks)


def turns_on(blocks: Iterable[Block], cpu: int) -> int:
    """How many turns a processor has."""
    return sum(block.count for block in blocks if block.cpu == cpu)


def last_turn(blocks: Blocks, cpu: int) -> int:
    """The last turn of a processor, or 0."""
    end = turns_of(blocks)
    for block in reversed(blocks):
        if block.cpu == cpu:
            return end
        end -= block.count
    return 0


def merged(blocks: Iterable[Block]) -> Blocks:
    """The blocks, neighbours of one processor as one block, and without those of no turns."""
    found: list[Block] = []
    for block in blocks:
        if block.count == 0:
            continue
        if found and found[-1].cpu == block.cpu:
            found[-1] = Block(block.cpu, found[-1].count + block.count)
        else:
            found.append(block)
    return tuple(found)


def first_turns(blocks: Blocks, turns: int) -> Blocks:
    """The beginning of so many turns."""
    found: list[Block] = []
    for block in blocks:
        if turns <= 0:
            break
        found.append(Block(block.cpu, min(block.count, turns)))
        turns -= block.count
    return tuple(found)


def plainness(blocks: Blocks) -> tuple[int, int, Blocks]:
    """By what orders are compared: the simpler one has fewer blocks, then fewer turns; the rest makes the choice a single one."""
    return len(blocks), turns_of(blocks), blocks


def parting(mine: Blocks, other: Blocks) -> Parting | None:
    """Where the first order parts from the other one; None where they are the same."""
    shared = next((at for at, pair in enumerate(zip(mine, other)) if pair[0] != pair[1]), min(len(mine), len(other)))
    if shared == len(mine) == len(other):
        return None
    before = turns_of(mine[:shared])
    here, there = mine[shared:], other[shared:]
    if here and there and here[0].cpu == there[0].cpu:
        before += min(here[0].count, there[0].count)
    return Parting(before + 1, _line_at(mine, before + 1), _cpu_at(mine, before + 1), _cpu_at(other, before + 1))


def _line_at(blocks: Blocks, turn: int) -> int:
    """The line in which a turn stands; the line after the last, where it stands in none."""
    lasts = accumulate(block.count for block in blocks)
    return next((line for line, last in enumerate(lasts, 1) if turn <= last), len(blocks) + 1)


def _cpu_at(blocks: Blocks, turn: int) -> int | None:
    line = _line_at(blocks, turn)
    return blocks[line - 1].cpu if line <= len(blocks) else None
