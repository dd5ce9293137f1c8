"""The tests of what a report leaves open: who was woken by which of several ups."""

from __future__ import annotations

import sys
import unittest
from pathlib import Path

sys.path.insert(0, str(Path(__file__).resolve().parent.parent))

from clocks import Ticks  # noqa: E402
from history import Doing, Lead, find_history  # noqa: E402
from order import read_order  # noqa: E402
from report import read_report  # noqa: E402

# EC 4 waits from turn 10 on, alone on processor 1; the root, on processor 0, has two successes of sm_ctrl before the next event of EC 4.
EVENTS = "at 5 1 4 raise 0 0\nat 10 1 4 begin 12 3\nat 20 0 1 answer 12 0\nat 30 0 1 answer 12 0\nat 50 1 4 answer 10 0\n"
REPORT = f"run open 60\n{EVENTS}ec 1 global ready 00000000\nec 4 global ready 00000000\nsc 2 0 20\nsc 5 1 20\nsm 3 0 0\n"
ORDER = "1 10\n0 1\n1 5\n0 4\n1 5\n0 5\n1 5\n0 5\n1 20\n"


def spans(ask: int | None) -> list[tuple[Doing, int, int]]:
    """What EC 4 does from its wait on, where it is known in which turn it was woken, or is not."""
    history = find_history(read_report(REPORT), None if ask is None else lambda context, places: ask)
    return [(span.doing, span.start, span.end) for span in history.spans if span.context == 4 and span.start >= 10]


class Untold(unittest.TestCase):
    """A stretch of which the report doesn't tell whether an execution context waited."""

    def test_from_the_first_up_to_the_last(self) -> None:
        self.assertEqual(spans(None), [(Doing.WAITS, 10, 20), (Doing.UNTOLD, 20, 30), (Doing.RUNS, 30, 60)])

    def test_one_who_knows_is_asked(self) -> None:
        self.assertEqual(spans(20), [(Doing.WAITS, 10, 20), (Doing.RUNS, 20, 60)])
        self.assertEqual(spans(30), [(Doing.WAITS, 10, 30), (Doing.RUNS, 30, 60)])
        arrows = find_history(read_report(REPORT), lambda context, places: places[-1]).arrows
        self.assertEqual([(arrow.place, arrow.target, arrow.sure) for arrow in arrows if arrow.lead is Lead.WAKE], [(30, 4, True)])

    def test_turns_of_its_processor_are_not_said_to_be_ticks(self) -> None:
        report = read_report(REPORT)
        order = read_order(ORDER, 60, [event.place for event in report.events], [event.cpu for event in report.events])
        ticks = Ticks(report, find_history(report), order)
        self.assertEqual([ticks.within(first, first + 4) for first in (12, 21, 31, 36)], [5, None, 0, 0])


if __name__ == "__main__":
    unittest.main()
