"""The tests of the measures: rows that grow slower are found.

python3 tools/speed/tests
"""

from __future__ import annotations

import sys
import tempfile
import unittest
from pathlib import Path

TOP = Path(__file__).resolve().parents[1]
sys.path.insert(0, str(TOP))

import kept  # noqa: E402
from measures import Program  # noqa: E402
from rows import loops, programs  # noqa: E402

# A valgrind that counts 1,000 instructions, and five more for each turn of the limit, which is the last word.
VALGRIND = '#!/bin/sh\nfor last; do :; done\necho "Collected : $((1000 + 5 * last))" >&2\n'


class Kept(unittest.TestCase):
    """What is kept of rows."""

    def test_what_is_written_is_read_again(self) -> None:
        figures = {"jump, quantum 10": 57.8, "sort.nova, by run": 69.0}
        self.assertEqual(kept.read(kept.write(figures)), figures)

    def test_a_row_may_need_a_tenth_more_and_no_more(self) -> None:
        self.assertEqual(kept.faults({"a": 50.0, "b": 10.0, "c": 70.0}, {"a": 54.9, "b": 11.1}), ["b: 11.1 in place of 10.0"])

    def test_a_row_of_which_nothing_is_kept_is_a_fault(self) -> None:
        self.assertEqual(kept.faults({}, {"a": 1.0}), ["a: 1.0, and nothing is kept"])

    def test_each_loop_is_kept(self) -> None:
        figures = kept.read(kept.FILE.read_text())
        self.assertEqual([row.name for row in loops() if row.name not in figures], [])


class Rows(unittest.TestCase):
    """What is counted of runs."""

    def test_what_a_turn_takes_is_the_difference_of_two_runs(self) -> None:
        with tempfile.TemporaryDirectory() as folder:
            valgrind = Path(folder, "valgrind")
            valgrind.write_text(VALGRIND, "ascii")
            valgrind.chmod(0o755)
            program = Program(Path("/bin/false"), Path(folder), str(valgrind))
            self.assertEqual([row.measure(program) for row in loops()], [5.0 for _ in loops()])

    def test_programs_whose_scenarios_are_not_there_are_left_out(self) -> None:
        with tempfile.TemporaryDirectory() as folder:
            Path(folder, "lua.nova").touch()
            found = [row for row in programs(Path(folder)) if row.scenario == Path(folder, "lua.nova")]
        self.assertEqual([row.command for row in found], ["solo", "run"])


if __name__ == "__main__":
    unittest.main()
