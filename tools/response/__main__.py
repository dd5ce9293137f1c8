"""Tells how long an execution context of a run waited, and how long it could have.

python3 tools/response SCENARIO [ORDER] EC [--limit N] [--longest N] [--program FILE]
"""

from __future__ import annotations

import argparse
import sys
from pathlib import Path

from schedules import TOP, BackEnd, Event, Refused, Schedule, ended, schedules_of
from waits import Terms, Wait, waits_of

sys.path.append(str(TOP / "tools" / "build"))

from built import Missing, find  # noqa: E402
from parsing import Parser, program_file  # noqa: E402

MOST, LONGEST, PART = 1_000_000, 10, 10_000


def parser() -> argparse.ArgumentParser:
    """The words that the program takes."""
    words = Parser(prog="response", description="How long an execution context waited, and how long it could have.")
    words.add_argument("scenario", type=Path, metavar="SCENARIO")
    words.add_argument("order", type=Path, nargs="?", metavar="ORDER", help="the order of turns of the run (round robin)")
    words.add_argument("context", type=int, metavar="EC", help="the number of an execution context with a scheduling context")
    words.add_argument("--limit", type=int, default=MOST, metavar="N", help=f"the most turns of the run ({MOST})")
    words.add_argument("--longest", type=int, default=LONGEST, metavar="N", help=f"show this many of the longest waits, 0 for all ({LONGEST})")
    words.add_argument("--program", type=program_file, metavar="FILE", help="another program in place of the repository's")
    return words


def events_of(back: BackEnd) -> list[Event]:
    """The events of all turns of a run."""
    found: list[Event] = []
    for first in range(0, back.end, PART):
        found += back.events(first, min(first + PART, back.end))
    return found


def schedule_of(schedules: list[Schedule], context: int) -> Schedule:
    """The scheduling context of an execution context."""
    for schedule in schedules:
        if schedule.context == context:
            return schedule
    raise Refused(f"execution context {context} has no scheduling context in this run")


def cells(wait: Wait) -> list[str]:
    """What a row shows of a wait."""
    terms: Terms = wait.all
    last = "-" if wait.last is None else str(wait.last + 1)
    counts = (terms.turns, terms.due, terms.greater, terms.own, terms.ahead, terms.rest, wait.terms.turns, wait.bound)
    return [str(wait.first), last, *map(str, counts)]


HEADS = ["after", "acts in", "turns", "due", "greater", "own", "ahead", "rest", "ready", "bound"]


def table(waits: list[Wait]) -> str:
    """The rows of some waits below their heads."""
    rows = [HEADS, *map(cells, waits)]
    widths = [max(map(len, column)) for column in zip(*rows, strict=True)]
    return "".join("  ".join(cell.rjust(width) for cell, width in zip(row, widths, strict=True)) + "\n" for row in rows)


def report(own: Schedule, waits: list[Wait], longest: int) -> str:
    """What is told of the waits of an execution context."""
    head = f"ec {own.context}: sc {own.number}, processor {own.cpu}, priority {own.priority}, quantum {own.quantum}\n"
    if not waits:
        return head + "it never waited for a turn\n"
    most = max(waits, key=lambda wait: wait.terms.turns)
    ranked = sorted(waits, key=lambda wait: (-wait.terms.turns, -wait.all.turns, wait.first))
    shown = sorted(ranked[: longest or None], key=lambda wait: wait.first)
    told = f"{len(waits)} waits; the longest was {most.terms.turns} turns of the processor, of at most {most.bound}\n"
    return head + told + table(shown)


def main(words: argparse.Namespace) -> int:
    """Writes the table. The status is 1 where a wait was longer than its bound, and 2 where there is no such run."""
    try:
        program = words.program or find("nova_debug")
        back = BackEnd(program, words.scenario, words.order, words.limit)
    except Missing as why:
        raise Refused(f"{why}; --program FILE takes it") from why
    except OSError as error:
        raise Refused(f"{program}: {error.strerror}") from error
    events = events_of(back)
    schedules = schedules_of(back, words.scenario, events)
    own = schedule_of(schedules, words.context)
    waits = list(waits_of(back, schedules, own, events))
    back.close()
    sys.stdout.write(report(own, waits, words.longest))
    broken = [wait for wait in waits if not wait.is_lawful]
    for wait in broken:
        print(f"response: not as the law says: {' '.join(cells(wait))}", file=sys.stderr)
    return 1 if broken else 0


if __name__ == "__main__":
    try:
        sys.exit(ended("response", lambda: main(parser().parse_args())))
    except Refused as why:
        sys.exit(f"response: {why}")
