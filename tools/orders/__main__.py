"""Runs a scenario over many orders of turns.

python3 tools/orders explore SCENARIO [--by WHAT].. [--output FOLDER]
python3 tools/orders expect SCENARIO --never PATTERN | --always PATTERN ..
python3 tools/orders shrink SCENARIO ORDER --keep PATTERN [--open] [--search N] [--output FILE]

Of orders that aren't tried nothing is said. Where the answer is to hold for all, and the run is short (some thousand turns at most, no sources, loops
that end), ask `./nova-explore SCENARIO QUESTION`: docs/EXPLORING.md. This tool samples runs of any length, finds patterns in reports, and makes
orders simpler.

Which orders the first two try: [--switches K] [--random N] [--seed S] [--weights W,..] [--lengths A-B]
They take [--executor dask:ADDRESS]. All take [--turns N] [--jobs N] [--program FILE] [--stays FILE] [--progress].
"""

from __future__ import annotations

import os
import signal
import sys
import tempfile
from collections.abc import Callable
from functools import partial
from pathlib import Path
from typing import TypeVar

from asking import MOST_TURNS, TURNS, Ask, amiss, parser
from choice import Choice, Wanted
from finding import ended, find_program, find_staying
from longest import Scout
from outcome import Outcome, broken, outcome_of
from pool import Pool
from program import DONE, End, Program, Stopped, Trouble
from reading import check_readable
from remote import Job
from sample import Habits
from sending import DASK, Dask, Sending, processes
from shared import Fault, Names, Unread, counted, names_of, read_order, read_report, read_settings, selectors
from shrinking import Shrinker, search_simpler
from tally import Tally
from telling import Progress, for_all, is_short, outcome_texts, size_of, write_orders
from turns import Block, Blocks, text_of, turns_of

Verdict = TypeVar("Verdict")

BROKEN, REFUSED, INTERRUPTED = 1, 3, 130
RESTS = "run quiet"


class Work:
    """One command: the program, the threads that start it, and what is told meanwhile."""

    def __init__(self, ask: Ask, folder: Path) -> None:
        check_readable(ask.scenario)
        path = find_program(ask.program, ask.scenario)
        self.ask = ask
        self.program = Program(path, ask.scenario, folder, ask.jobs, find_staying(ask.stays, ask.program))
        self.settings = read_settings(ask.scenario.read_text(errors="replace"))
        self.scout = Scout(self.program, self.settings)
        self.sent: str | None = None
        self.pool = self.open_pool()
        self.progress = Progress(sys.stderr, ask.progress)
        self.rounds = self.program.rounds(MOST_TURNS) or 0
        self.turns = self.fitting_turns()
        self.rests = False

    def do(self) -> int:
        """Does what was asked for, and gives the status."""
        try:
            match self.ask.command:
                case "explore":
                    return self.explore()
                case "expect":
                    return self.expect()
                case _:
                    return self.shrink()
        finally:
            self.program.stop()
            self.pool.close()
            self.progress.end()

    def fitting_turns(self) -> int:
        """How many turns an order may have: what was asked for, or else twice those that the run takes in rounds, where these are many. Says so, and where
        what was asked for is less than the run takes."""
        rounds = self.rounds
        turns = self.ask.turns or (min(MOST_TURNS, 2 * rounds) if rounds > TURNS else TURNS)
        if rounds > turns or (rounds > TURNS and self.ask.turns is None):
            told = f"--turns is {turns:,}, so that orders are cut" if rounds > turns else f"an order may have {turns:,} (--turns)"
            many = "; all orders with several changes are very many then: --random N tries N" if (self.ask.changes or 0) > 1 else ""
            print(f"orders: {self.ask.scenario} takes {rounds:,} turns in rounds; {told}{many}", file=sys.stderr)
        return turns

    def open_pool(self) -> Pool:
        """Threads, or where a program stays, processes or the workers of an executor, to which work is sent."""
        stays = find_staying(self.ask.stays, self.ask.program)
        if self.ask.executor is None:
            if stays is None or self.ask.command == "shrink" or self.ask.jobs == 1:
                return Pool(self.ask.jobs)
            self.sent = str(stays)
            return Pool(self.ask.jobs, processes(self.ask.jobs))
        if stays is None:
            raise Trouble("--executor: the workers are sent nova_debug, which is not built, nor named by --stays")
        dask = Dask(self.ask.executor.removeprefix(DASK), stays)
        self.sent = dask.program
        return Pool(dask.workers, dask)

    def choice(self, judge: Callable[[str], Verdict]) -> Choice[Verdict]:
        """The orders that are to be tried, and what is asked of each report."""
        wanted = self.wanted()
        sending = None
        if self.sent is not None:
            text = self.ask.scenario.read_text(errors="replace")
            job = Job(self.sent, text, wanted.turns, wanted.changes or 0, wanted.seed, wanted.habits, judge)
            sending = Sending(self.pool, job, self.scout, self.program)
        return Choice(wanted, self.scout, self.pool, judge, sending)

    def wanted(self) -> Wanted:
        """Which orders are to be tried: all with at most three changes, where nothing is said."""
        ask = self.ask
        weights = ask.weights or (1.0,) * self.scout.cpus
        if len(weights) != self.scout.cpus:
            numbers, cpus = counted(len(weights), "number", "numbers"), counted(self.scout.cpus, "processor", "processors")
            raise Trouble(f"--weights has {numbers}, the scenario {cpus}")
        return Wanted(self.turns, ask.changes, ask.random, ask.seed, Habits(weights, *ask.lengths))

    def explore(self) -> int:
        """Groups the orders by outcome. At an interrupt all is told that was found so far."""
        tally: Tally[Outcome] = Tally()
        choice = self.choice(partial(outcome_of, aspects=self.ask.aspects))
        status = DONE
        try:
            for tried in choice.orders():
                if tried is not None:
                    tally.add(tried.blocks, tried.verdict)
                self.tell(f"{counted(tally.orders, 'order', 'orders')}, {counted(tally.outcomes, 'outcome', 'outcomes')}{choice.left()}")
        except KeyboardInterrupt:
            status = self.interrupted()
        self.progress.end()
        folder = self.ask.output or Path(f"{self.ask.scenario.stem}.orders")
        named = self.naming(tally).line
        names = write_orders(tally.groups(), folder)
        orders, outcomes = counted(tally.orders, "different order", "different orders"), counted(tally.outcomes, "outcome", "outcomes")
        print(f"{self.ask.scenario}: {orders}, {outcomes}")
        print("\n".join([*(f"  {line}" for line in choice.account()), *outcome_texts(tally, names, named)]))
        self.tell_of_all(status, "ends")
        return status

    def naming(self, tally: Tally[Outcome]) -> Names:
        """The names of objects, by the report of the simplest order: in others some objects may have other numbers. None after an interrupt."""
        groups = tally.groups()
        if not groups or not (self.ask.names or self.ask.elf):
            return Names()
        try:
            report = read_report(self.program.run_text(text_of(groups[0].simplest)).report)
            return names_of(self.ask.names, self.ask.elf, selectors(report.ranges))
        except Stopped:
            return Names()
        except Unread as why:
            raise Trouble(str(why)) from why

    def expect(self) -> int:
        """Tries orders until one breaks what is expected, and writes that one."""
        choice = self.choice(partial(broken, never=self.ask.never, always=self.ask.always))
        number = 0
        status = DONE
        try:
            for tried in choice.orders():
                number += tried is not None
                if tried is not None and tried.verdict is not None:
                    self.progress.end()
                    size = size_of(tried.blocks) + ("" if tried.is_quiet else " (cut by --turns, not at rest)")
                    print(f"orders: {tried.verdict}, by this order of {size}, number {number:,} of those tried:", file=sys.stderr)
                    sys.stdout.write(text_of(tried.blocks))
                    return BROKEN
                self.tell(f"{counted(number, 'order', 'orders')}{choice.left()}")
        except KeyboardInterrupt:
            status = self.interrupted()
        self.progress.end()
        print("\n".join(choice.account()), file=sys.stderr)
        self.tell_of_all(status, "QUESTION")
        return status

    def shrink(self) -> int:
        """Writes the simpler order. At an interrupt that is the simplest so far."""
        order = self.read_order()
        turns = max(self.turns, turns_of(order))
        shrinker = Shrinker(self.scout, turns, self.keeps_rest, lambda best: self.tell(size_of(best)))
        status = DONE
        is_least = False
        try:
            shrinker.simplify(order)
            is_least = search_simpler(shrinker, self.pool, self.ask.search)
            shrinker.shorten()
        except KeyboardInterrupt:
            status = self.interrupted()
        self.progress.end()
        best = shrinker.best
        self.write(text_of(best))
        least = "; none of all orders to rest with fewer changes has it" if is_least else ""
        print(f"orders: {size_of(order)} became {size_of(best)}{least}", file=sys.stderr)
        return status

    def keeps(self, report: str) -> bool:
        """Whether a report has what is to be kept."""
        return self.ask.keep.is_in(report)

    def keeps_rest(self, report: str) -> bool:
        """Whether it does, and comes to rest where the order to begin with does, unless it need not."""
        return self.keeps(report) and (not self.rests or report.startswith(RESTS))

    def read_order(self) -> Blocks:
        """The order that is to be made simpler. The program says what is wrong with one that it doesn't take."""
        try:
            text = self.ask.order.read_text(errors="replace")
        except OSError as error:
            raise Trouble(f"{self.ask.order}: {error.strerror}") from error
        run = self.program.run_text(text)
        if run.end is End.IDLE:
            raise Trouble(f"{self.ask.order}: in line {run.line} the processor is idle; perhaps it is an order of another program")
        if not self.keeps(run.report):
            raise Trouble(f"{self.ask.order}: the report has nothing that matches {self.ask.keep.words!r}")
        self.rests = run.end is End.QUIET and not self.ask.open
        report = read_report(run.report)
        order = read_order(text, report.turns, [event.place for event in report.events], [event.cpu for event in report.events])
        lasts = [0, *order.lasts]
        return tuple(Block(cpu, last - before) for cpu, before, last in zip(order.cpus, lasts, order.lasts))

    def write(self, text: str) -> None:
        """Writes an order to where it was asked for."""
        if self.ask.output is None:
            sys.stdout.write(text)
        else:
            self.ask.output.write_text(text)

    def tell(self, text: str) -> None:
        """Tells how far the work is."""
        self.progress.tell(f"orders: {text}, {self.program.starts:,} runs")

    def tell_of_all(self, status: int, question: str) -> None:
        """Says that all orders can be asked about, where the run is so short that they may come to few states."""
        if status == DONE and is_short(self.settings, self.rounds):
            sys.stdout.flush()
            print(for_all(self.ask.scenario, question), file=sys.stderr)

    def interrupted(self) -> int:
        """Ends all that is under way. A second interrupt changes nothing."""
        heed_no_more()
        self.program.stop()
        self.progress.end()
        print("orders: interrupted", file=sys.stderr)
        return INTERRUPTED


def heed_no_more() -> None:
    """From now on neither an interrupt nor a request to end is heeded."""
    for number in (signal.SIGINT, signal.SIGTERM):
        signal.signal(number, signal.SIG_IGN)


def interrupt(*_: object) -> None:
    """A request to end, as `timeout` sends it, is an interrupt."""
    heed_no_more()
    raise KeyboardInterrupt


def main(arguments: list[str]) -> int:
    """Does one command. The status is 1 where an expectation is broken, 2 for wrong words, 3 for what cannot be done, and 130 after an
    interrupt."""
    top = parser()
    words = top.parse_args(arguments)
    if wrong := amiss(words):
        top.error(f"{words.command}: {wrong}")
    ask = Ask.of(words)
    signal.signal(signal.SIGTERM, interrupt)
    try:
        with tempfile.TemporaryDirectory() as folder:
            return Work(ask, Path(folder)).do()
    except Fault as fault:
        print(f"orders: a report of the program: {fault}", file=sys.stderr)
        return REFUSED
    except BrokenPipeError:  # nobody reads on
        raise
    except (Trouble, OSError) as error:
        print(f"orders: {error}", file=sys.stderr)
        return REFUSED
    except (KeyboardInterrupt, Stopped):
        return INTERRUPTED


if __name__ == "__main__":
    sys.exit(ended("orders", lambda: main(sys.argv[1:])))
