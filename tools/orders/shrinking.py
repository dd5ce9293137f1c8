"""Makes an order simpler while the report still has what is to be kept."""

from __future__ import annotations

from collections.abc import Callable, Iterator

from longest import Scout
from pool import Pool
from program import End, Run
from search import Search
from turns import Block, Blocks, first_turns, merged, plainness, turns_of


class Shrinker:
    """Tries simpler orders, each made from the best one so far, until none of them is better.

    A wish is an order that need not be lawful. What comes of it is the wish without the turns of idle processors.
    """

    def __init__(self, scout: Scout, turns: int, keeps: Callable[[str], bool], tell: Callable[[Blocks], None]) -> None:
        self.scout = scout
        self.turns = turns
        self.keeps = keeps
        self.tell = tell
        self.best: Blocks = ()

    def simplify(self, order: Blocks) -> None:
        """Makes the best an order of as few blocks as the tries get this one to, whose report is known to have what is to be kept."""
        self.best = order
        before: Blocks = ()
        while before != self.best:
            before = self.best
            self._leave_out()
            self._let_go()

    def shorten(self) -> None:
        """Makes the best one of fewer turns, and perhaps of fewer blocks."""
        before: Blocks = ()
        while before != self.best:
            before = self.best
            for wish in self._shorter():
                self._is_better(wish)

    def _leave_out(self) -> None:
        """Leaves out blocks: first many at a time, at last single ones."""
        size = max(1, len(self.best) // 2)
        while size:
            at = 0
            while at < len(self.best):
                if not self._is_better((*self.best[:at], *self.best[at + size :])):
                    at += size
            size //= 2

    def _let_go(self) -> None:
        """Lets the processor of a block go as far as it can."""
        at = 0
        while at < len(self.best):
            block = self.best[at]
            self._is_better((*self.best[:at], Block(block.cpu, self.turns), *self.best[at + 1 :]))
            at += 1

    def _shorter(self) -> Iterator[Blocks]:
        """The best ended earlier, and with a block ended earlier: by half first, at last by one turn."""
        less = turns_of(self.best) // 2
        while less:
            yield first_turns(self.best, turns_of(self.best) - less)
            less //= 2
        at = 0
        while at < len(self.best):
            cpu, count = self.best[at]
            less = count // 2
            while less and at < len(self.best) and self.best[at].cpu == cpu:
                yield (*self.best[:at], Block(cpu, max(0, self.best[at].count - less)), *self.best[at + 1 :])
                less //= 2
            at += 1

    def _is_better(self, wish: Blocks) -> bool:
        """Whether the wish, or what comes of it when all goes on to the end, is simpler and has what is to be kept. Then it is the best."""
        run = self._settle(first_turns(wish, self.turns))
        if not self._takes(run):
            run = self._end(run)
            if not self._takes(run):
                return False
        self.best = run.blocks
        self.tell(self.best)
        return True

    def _takes(self, run: Run) -> bool:
        return plainness(run.blocks) < plainness(self.best) and self.keeps(run.report)

    def _settle(self, wish: Blocks) -> Run:
        """The run over the wish, without the turns of idle processors."""
        head: Blocks = ()
        order = merged(wish)
        while True:
            run = self.scout.program.run(order)
            if run.end is not End.IDLE:
                return run
            *before, (cpu, most) = order[: run.line]
            least = head[-1].count if len(head) == run.line else 0
            reach = self.scout.reach(tuple(before), cpu, most, least)
            if reach.run is not None and reach.run.end is End.QUIET:
                return reach.run
            head = merged((*before, Block(cpu, reach.count)))
            order = merged((*head, *order[run.line :]))

    def _end(self, run: Run) -> Run:
        """Goes on after the run until it comes to rest or has all its turns, with few changes of processor; no further than would be
        simpler than the best."""
        while run.end is End.OPEN and turns_of(run.blocks) < self.turns and len(run.blocks) <= len(self.best):
            longer = self._longer(run)
            if longer is None:
                return run
            run = longer
        return run

    def _longer(self, run: Run) -> Run | None:
        """The run with one processor gone on as far as it can: the one that was last or, where that is idle, the next that is not."""
        last = run.blocks[-1].cpu if run.blocks else 0
        room = self.turns - turns_of(run.blocks)
        for step in range(self.scout.cpus):
            cpu = (last + step) % self.scout.cpus
            *before, block = merged((*run.blocks, Block(cpu, room)))
            least = block.count - room
            reach = self.scout.reach(tuple(before), cpu, block.count, least)
            if reach.run is not None:
                return reach.run
        return None


def search_simpler(shrinker: Shrinker, pool: Pool, starts: int) -> bool:
    """Looks for an order of fewer blocks among all orders to rest with no change, with one, and so on, and makes the first one the best.

    Gives up after about so many starts of the program; the answer is whether none with fewer changes than the best has what is to be kept.
    """
    last = shrinker.scout.program.starts + starts
    for changes in range(len(shrinker.best) - 1):
        search = Search(shrinker.scout, pool, shrinker.turns, changes, shrinker.keeps)
        for step in search.steps():
            found = next((tried.blocks for tried in step if tried.verdict), None)
            if found is not None:
                shrinker.best = found
                return True
            if shrinker.scout.program.starts > last:
                return False
            shrinker.tell(shrinker.best)
    return True
