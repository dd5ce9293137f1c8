"""The tests of the refusals: programs that go wrong are found out.

python3 tools/refusals/tests
"""

from __future__ import annotations

import sys
import tempfile
import unittest
from pathlib import Path
from random import Random

TOP = Path(__file__).resolve().parents[1]
sys.path.insert(0, str(TOP))

from calls import Command, Outcome, Whole, faulted, said  # noqa: E402
from endings import wrong  # noqa: E402
from mutations import CHANGES, changed  # noqa: E402
from runner import Ending, Runner  # noqa: E402
from texts import case_of, examples, look  # noqa: E402

# A text of three lines, the last without a line feed, and an order of two.
SCENARIO, ORDER = b"cpus 1\nram 0\nx", b"0 2\n1 1\n"

# Endings of `check`, of `solo` and of `solo` with an order, and whether they are right.
ENDINGS: tuple[tuple[str, Ending, bool], ...] = (
    ("check", Ending(0, b"ok\n", b""), True),
    ("check", Ending(0, b"", b""), False),
    ("check", Ending(4, b"", b"nova: scenario line 4: Missing\n"), True),
    ("check", Ending(4, b"", b"nova: scenario line 5: Missing\n"), False),
    ("check", Ending(4, b"", b"nova: scenario line 0: Missing\n"), False),
    ("check", Ending(4, b"", b"nova: scenario line 1: Idle\n"), False),
    ("check", Ending(4, b"ok\n", b"nova: scenario line 1: Syntax\n"), False),
    ("check", Ending(5, b"", b"nova: order line 1: BadLine\n"), False),
    ("check", Ending(8, b"", b"nova: out of memory\n"), False),
    ("check", Ending(-11, b"", b""), False),
    ("check", Ending(None, b"", b""), False),
    ("solo", Ending(0, b"run quiet 7\nend\n", b""), True),
    ("solo", Ending(0, b"run open 7\nend\n", b""), False),
    ("solo", Ending(0, b"run quiet 21\nend\n", b""), False),
    ("solo", Ending(7, b"run open 20\nend\n", b"nova: not quiet\n"), True),
    ("solo", Ending(7, b"run open 20\nend\n", b""), False),
    ("solo", Ending(5, b"", b"nova: order line 1: BadLine\n"), False),
    ("order", Ending(5, b"", b"nova: order line 2: Idle\n"), True),
    ("order", Ending(5, b"", b"nova: order line 3: Idle\n"), False),
)

# What `run` comes to where each write has one byte: three fetches, an order of four bytes and a report of two.
BYTEWISE = Command(("run", "scenario", "ORDER"), bytewise=True)
WHOLE = Whole(Outcome(Ending(0, b"r\n", b""), b"0 2\n"), {"memory": 1, "thread": 0, "open": 7, "move": 3, "read": 3, "write": 6})

# Kind and number of a call that is refused, the status, and how many bytes are out of the report and of the order.
REFUSED = (
    ("open", 1, 3, 0, 0),
    ("move", 3, 3, 0, 0),
    ("read", 2, 3, 0, 0),
    ("open", 4, 6, 0, 0),
    ("open", 7, 6, 0, 3),
    ("write", 1, 6, 0, 0),
    ("write", 4, 6, 0, 3),
    ("write", 5, 6, 0, 4),
    ("write", 6, 6, 1, 4),
)


class Texts(unittest.TestCase):
    """Random and changed texts, and how runs end."""

    def test_endings_are_told_apart(self) -> None:
        for command, ending, is_right in ENDINGS:
            with self.subTest(command=command, ending=ending):
                order = ORDER if command == "order" else None
                amiss = wrong(ending, "solo" if command == "order" else command, SCENARIO, order, 20)
                self.assertEqual(not amiss, is_right, amiss)

    def test_a_seed_gives_the_same_texts(self) -> None:
        known = examples()
        self.assertEqual([case_of(seed, known) for seed in range(50)], [case_of(seed, known) for seed in range(50)])

    def test_each_change_takes_any_text(self) -> None:
        for change in CHANGES:
            for text in (b"", b"\n", b"7", b"cpus 1\n", b"\x80 x"):
                for seed in range(20):
                    change(Random(seed), text, [b"", b"a 1\nb"])
        self.assertNotEqual(changed(Random(1), SCENARIO, [SCENARIO]), changed(Random(3), SCENARIO, [SCENARIO]))

    def seen(self, text: str) -> dict[int, str]:
        """What goes wrong with a program of this text, over three seeds."""
        with tempfile.TemporaryDirectory() as name:
            program = Path(name, "program")
            program.write_text(f"#!/bin/sh\n{text}\n", "ascii")
            program.chmod(0o755)
            return look(Runner(str(program), Path(name), 0.5), Path(name), range(1, 4), None).wrong

    def test_programs_that_go_wrong_are_found(self) -> None:
        for text, word in (("exec /bin/sleep 5", "stopped"), ("kill -s SEGV $$", "status -11"), ("exit 1", "status 1")):
            with self.subTest(text):
                amiss = self.seen(text)
                self.assertEqual(list(amiss), [1, 2, 3])
                self.assertTrue(all(word in one for one in amiss.values()), amiss)


class Calls(unittest.TestCase):
    """What is to come of a call that is refused."""

    def test_a_move_that_is_refused_gives_a_fault_or_all(self) -> None:
        fault = faulted(WHOLE, BYTEWISE, "move", 1)
        cut = Outcome(Ending(0, b"r", b""), b"0 2\n")
        for outcome, what in ((fault, "fault"), (WHOLE.outcome, "full answer"), (cut, "")):
            self.assertEqual(said(WHOLE, BYTEWISE, "move", 1, outcome), what)
        self.assertEqual(said(WHOLE, BYTEWISE, "read", 1, WHOLE.outcome), "")

    def test_what_is_out_is_a_prefix(self) -> None:
        for kind, number, status, out, order in REFUSED:
            with self.subTest(kind=kind, number=number):
                outcome = faulted(WHOLE, BYTEWISE, kind, number)
                self.assertEqual((outcome.ending.status, len(outcome.ending.out), len(outcome.order)), (status, out, order))
                self.assertEqual(said(WHOLE, BYTEWISE, kind, number, outcome), "fault")
                self.assertEqual(said(WHOLE, BYTEWISE, kind, number, WHOLE.outcome), "full answer" if kind == "move" else "")

    def test_refused_memory_leaves_nothing_or_all(self) -> None:
        for outcome, word in (
            (WHOLE.outcome, "full answer"),
            (Outcome(Ending(8, b"", b"nova: out of memory\n"), b""), "Memory"),
            (Outcome(Ending(8, b"", b"nova: out of memory\n"), b"0 2\n"), ""),
            (Outcome(Ending(8, b"r", b"nova: out of memory\n"), b""), ""),
            (Outcome(Ending(-6, b"", b""), b""), ""),
        ):
            self.assertEqual(said(WHOLE, BYTEWISE, "memory", 1, outcome), word)


if __name__ == "__main__":
    unittest.main()
