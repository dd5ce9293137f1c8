"""Orders at random."""

from __future__ import annotations

from collections.abc import Iterator, Mapping
from dataclasses import dataclass
from random import Random

from longest import Scout, may_wake, waits_at
from program import End, Run, Trouble
from shared import Report, read_report
from turns import Block, Blocks, first_turns, last_turn, merged, turns_of, turns_on

# After how many turns of its own each processor was seen to be idle, in rising order.
Stops = Mapping[int, tuple[int, ...]]


@dataclass(frozen=True, slots=True)
class Habits:
    """How orders are drawn: the weight of each processor, and the least and the greatest length of a block.

    A block is of one of the processors that are not left out, each as often as its weight says among these. Neighbours may be of one
    processor, and are one block then.
    """

    weights: tuple[float, ...]
    shortest: int
    longest: int

    def blocks(self, dice: Random, caps: Mapping[int, int], turns: int) -> Iterator[Block]:
        """Blocks of so many turns together, or fewer: each processor has at most the turns of its cap, and is left out then."""
        left = dict(caps)
        while turns > 0 and left:
            cpus = list(left)
            cpu = dice.choices(cpus, [self.weights[cpu] for cpu in cpus])[0]
            count = min(turns, left[cpu], dice.randint(self.shortest, self.longest))
            turns -= count
            left[cpu] -= count
            if left[cpu] == 0:
                del left[cpu]
            yield Block(cpu, count)


@dataclass(frozen=True, slots=True)
class Stand:
    """How far an order is: its beginning, and the processors that are left out from there on, since they are idle."""

    blocks: Blocks
    idle: frozenset[int]


class Sampler:
    """Draws whole orders: the run comes to rest, or takes all the turns that it may.

    An order is drawn to its end and run at once. A processor is left out where it is likely to be idle, that is, where it was after as many
    turns of its own before. Where the order meets an idle processor all the same, its blocks up to there are kept, the last of them as long
    as the processor can go. Where a processor that was left out is not idle, the order is kept up to where it was left out, or may have
    been woken. From there the rest is drawn anew.
    """

    def __init__(self, scout: Scout, habits: Habits, turns: int, seed: int) -> None:
        self.scout = scout
        self.habits = habits
        self.turns = turns
        self.seed = seed
        # At first processor 0 has something to do, and those with sources. Where it is alone, all orders begin the same.
        start = Stand((), frozenset(range(1, scout.cpus)) - {source.cpu for source in scout.settings.sources})
        self._opening = self._reach(start, (Block(0, turns),)) if len(start.idle) == scout.cpus - 1 else (start, None)

    def draw(self, number: int, stops: Stops) -> Run:
        """Order `number` of this seed, and its run. It depends on what is known of where processors are idle."""
        dice = Random(f"{self.seed} {number}")
        stand, run = self._opening
        while run is None or run.blocks != stand.blocks or not self._is_whole(run):
            stand, run = self._go_on(dice, stand, stops)
        return run

    def _is_whole(self, run: Run) -> bool:
        return run.end is End.QUIET or turns_of(run.blocks) == self.turns

    def _go_on(self, dice: Random, stand: Stand, stops: Stops) -> tuple[Stand, Run | None]:
        """Goes on as far as can be. Gives the next stand, and the run, if there is a new one."""
        room = self.turns - turns_of(stand.blocks)
        caps = {cpu: self._cap(stand, cpu, stops) for cpu in range(self.scout.cpus) if cpu not in stand.idle}
        if not caps:
            raise Trouble("no processor can go on, by the reports, and yet the run has not come to rest")
        if len(caps) == 1 and self.turns in caps.values():
            return self._reach(stand, merged((*stand.blocks, Block(*caps, room))))
        order = merged((*stand.blocks, *self.habits.blocks(dice, caps, room)))
        run = self.scout.program.run(order)
        if run.end is End.IDLE:
            return self._reach(stand, order[: run.line])
        capped = frozenset(cpu for cpu, cap in caps.items() if turns_on(order, cpu) == turns_on(stand.blocks, cpu) + cap)
        return self._after(stand, run, stand.idle | capped), run

    def _cap(self, stand: Stand, cpu: int, stops: Stops) -> int:
        """How many turns a processor has until it is likely to be idle; all, where nothing is known."""
        had = turns_on(stand.blocks, cpu)
        return next((stop - had for stop in stops.get(cpu, ()) if stop > had), self.turns)

    def _reach(self, stand: Stand, order: Blocks) -> tuple[Stand, Run | None]:
        """Lets the last block of the order, of which all before is lawful, go as far as its processor can."""
        *start, (cpu, most) = order
        before = tuple(start)
        least = stand.blocks[-1].count if len(stand.blocks) == len(order) else 0
        reach = self.scout.reach(before, cpu, most, least)
        ended = frozenset({cpu}) if reach.count < most else frozenset()
        run = reach.run
        if run is None:
            reached = merged((*before, Block(cpu, reach.count)))
            if reached == stand.blocks:
                return Stand(reached, stand.idle | ended), None
            run = self.scout.program.run(reached)
        return self._after(stand, run, stand.idle, ended), run

    def _after(self, stand: Stand, run: Run, out: frozenset[int], ended: frozenset[int] = frozenset()) -> Stand:
        """How far the order is after the run: at its end, or at the first place where a processor that was left out may not have been idle.

        Those of the stand were left out from there on, and the others after their last turn; `ended` are known to be idle at the end.
        """
        if run.end is End.QUIET:
            return Stand(run.blocks, frozenset(range(self.scout.cpus)))
        report = read_report(run.report)
        sure = self.scout.idle_of(report) | ended
        begun = turns_of(stand.blocks)
        lasts = {cpu: max(begun, last_turn(run.blocks, cpu)) for cpu in out | sure}
        doubts = [self._doubt(report, lasts[cpu], cpu in stand.idle) for cpu in out - sure]
        place = min((doubt for doubt in doubts if doubt is not None), default=turns_of(run.blocks))
        known = sure if doubts else sure | out
        return Stand(first_turns(run.blocks, place), frozenset(cpu for cpu in known if lasts[cpu] <= place))

    def _doubt(self, report: Report, left: int, was_idle: bool) -> int | None:
        """The first turn from `left` on after which a processor may not have been idle, of which it is not sure that it is at the end."""
        if was_idle or waits_at(report, left):
            woken = may_wake(report, left)
            return woken if woken is not None or was_idle else left
        return left
