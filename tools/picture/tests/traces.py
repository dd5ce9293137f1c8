"""The tests of traces: each example's is of the format, and of what `nova_debug` tells, where that is built."""

from __future__ import annotations

import gzip
import json
import stat
import subprocess
import sys
import tempfile
import unittest
from collections import Counter, defaultdict
from itertools import pairwise
from pathlib import Path
from typing import Any

TOP = Path(__file__).resolve().parents[3]
PICTURE = TOP / "tools/picture"
sys.path.insert(0, str(PICTURE))

from exact import PROGRAM, Exact, Refused, Slice  # noqa: E402
from history import Doing, Lead, find_history  # noqa: E402
from report import Report, read_report  # noqa: E402
from timeline import Window  # noqa: E402
from trace_events import CONTEXTS, PROCESSORS, text_of, trace_events  # noqa: E402

EXAMPLES = TOP / "examples"
# The program that is asked.
asked = PROGRAM

# The keys that each phase of the format wants beside its name, and of which sort they are.
COMMON = {"pid": int, "tid": int}
WANTED: dict[str, dict[str, type]] = {
    "M": {**COMMON, "args": dict},
    "X": {**COMMON, "ts": int, "dur": int},
    "i": {**COMMON, "ts": int, "s": str},
    "b": {**COMMON, "ts": int, "id": int, "cat": str},
    "e": {**COMMON, "ts": int, "id": int, "cat": str},
    "s": {**COMMON, "ts": int, "id": int, "cat": str},
    "f": {**COMMON, "ts": int, "id": int, "cat": str, "bp": str},
}
# A program that tells nothing but slices: of two processors that have turns in turn, in parts.
STAND_IN = """\
import sys
for line in sys.stdin:
    words = line.split()
    if words == ["at"]:
        print("turn 0 of 450000")
    if words[0] == "events":
        print("event 0 0 2 1 step 0 0\\n" * (int(words[2]) - int(words[1])), end="")
    if words == ["contexts"]:
        print("ec 1 global ready 00000000")
        print("ec 4 global ready 00000000")
    if words[0] == "slices":
        first, last = int(words[1]), int(words[2])
        middle = min(max(first, 250_000), last)
        print("slice 0", first, last - 2, (last - first) // 2, "2 1")
        for begin, end, who in ((first, middle, "6 4"), (middle, last, "- -")):
            if begin < end:
                print("slice 1", begin + 1, end - 1, (end - begin) // 2, who)
    print("ok 0", flush=True)
"""

Event = dict[str, Any]


def take_program(words: list[str]) -> None:
    """Takes another program to ask, if the words of the command name one."""
    global asked
    if words[1:2] == ["--program"]:
        asked = Path(words[2])
        del words[1:3]


def read(report: Report, window: Window | None = None, slices: list[Slice] | None = None) -> list[Event]:
    """The trace events of a report, as a viewer reads them."""
    events = trace_events(report, window or Window(1, report.turns), slices or [])
    return json.loads("".join(text_of(events)))["traceEvents"]


def report_of(path: Path) -> Report:
    """The report in a file."""
    return read_report(path.read_text("ascii"))


class Format(unittest.TestCase):
    """What the format wants."""

    def check(self, events: list[Event]) -> None:
        """All its rules."""
        for event in events:
            self.assertTrue(event["name"])
            self.assertIn(event["ph"], WANTED)
            for key, sort in WANTED[event["ph"]].items():
                self.assertIsInstance(event[key], sort)
            self.assertGreaterEqual(event.get("ts", 0), 0)
            self.assertGreater(event.get("dur", 1), 0)
        self.check_names(events)
        tracks = self.check_slices(events)
        self.check_pairs(events, tracks)

    def check_names(self, events: list[Event]) -> None:
        """Each track that something is on has a name."""
        named = {(event["pid"], event["tid"]) for event in events if event["name"] == "thread_name"}
        self.assertLessEqual({(event["pid"], event["tid"]) for event in events if event["ph"] != "M"}, named)

    def check_slices(self, events: list[Event]) -> dict[tuple[int, int], list[tuple[int, int]]]:
        """Of a track each slice is within the one before or after it. Gives the slices of each."""
        tracks: dict[tuple[int, int], list[tuple[int, int]]] = defaultdict(list)
        for event in events:
            if event["ph"] == "X":
                tracks[event["pid"], event["tid"]].append((event["ts"], event["ts"] + event["dur"]))
        for track in tracks.values():
            track.sort(key=lambda ends: (ends[0], -ends[1]))
            around: list[int] = []
            for start, end in track:
                while around and around[-1] <= start:
                    around.pop()
                self.assertTrue(not around or end <= around[-1])
                around.append(end)
        return tracks

    def check_pairs(self, events: list[Event], tracks: dict[tuple[int, int], list[tuple[int, int]]]) -> None:
        """A flow leads from a slice to a slice, and what begins apart from slices ends."""
        pairs: dict[tuple[str, int], list[Event]] = defaultdict(list)
        for event in events:
            if event["ph"] in "sfbe":
                pairs[event["cat"], event["id"]].append(event)
            if event["ph"] in "sf":
                track = tracks[event["pid"], event["tid"]]
                self.assertTrue(any(start <= event["ts"] < end for start, end in track), event)
        for (cat, _), pair in pairs.items():
            self.assertEqual([event["ph"] for event in pair], (["b", "e"] if cat == "help" else ["s", "f"]) * (len(pair) // 2))
            for before, after in pairwise(pair):
                self.assertLessEqual(before["ts"], after["ts"])


class Traces(Format):
    """What is in a trace."""

    def test_each_example_is_of_the_format(self) -> None:
        for path in (*sorted(EXAMPLES.glob("*.report")), *sorted((PICTURE / "tests").glob("*.report"))):
            with self.subTest(path.name):
                self.check(read(report_of(path)))

    def test_a_part_has_what_touches_it(self) -> None:
        report = report_of(EXAMPLES / "monitor.report")
        whole, part = read(report), read(report, Window(20, 30))
        self.check(part)
        self.assertLess(len(part), len(whole))
        self.assertTrue(all(19 <= event["ts"] and event["ts"] + event.get("dur", 0) <= 30 for event in part if event["ph"] != "M"))

    def test_a_file_is_written_with_gzip_and_always_the_same(self) -> None:
        with tempfile.TemporaryDirectory() as folder:
            texts = []
            for name in ("one.json.gz", "other.json.gz"):
                output = Path(folder, name)
                subprocess.run([sys.executable, PICTURE, "trace", EXAMPLES / "hello.report", "--output", output], check=True)
                texts.append(output.read_bytes())
            self.assertEqual(texts[0], texts[1])
            self.check(json.loads(gzip.decompress(texts[0]))["traceEvents"])

    def test_what_goes_on_across_a_part_is_one_slice(self) -> None:
        lines = "ec 1 global ready 00000000\nec 4 global ready 00000000\nsc 2 0 225000\nsc 6 1 125000\n"
        with tempfile.TemporaryDirectory() as folder:
            program = Path(folder, "stand_in")
            program.write_text(f"#!{sys.executable}\n{STAND_IN}")
            program.chmod(program.stat().st_mode | stat.S_IXUSR)
            report = read_report(f"run open 450000\n{lines}")
            exact = Exact(program, Path("scenario"), None, report)
            slices = list(exact.slices(1, report.turns))
            exact.close()
            with self.assertRaises(Refused):
                Exact(program, Path("scenario"), None, read_report(f"run open 449999\n{lines}"))
        both = Slice(0, 0, 449_998, 225_000, 2, 1)
        one, other = Slice(1, 1, 249_999, 125_000, 6, 4), Slice(1, 250_001, 449_999, 100_000, None, None)
        self.assertEqual(sorted(slices, key=lambda it: (it.cpu, it.first)), [both, one, other])
        events = read(report, None, slices)
        self.check(events)
        self.assertIn("nobody acts, nobody pays", [event["name"] for event in events])


class Asked(Format):
    """What `nova_debug` tells."""

    def setUp(self) -> None:
        if not asked.exists():
            self.skipTest("nova_debug is not built")

    def exact_of(self, name: str) -> tuple[Report, Exact]:
        """The report of an example, and its run."""
        order = EXAMPLES / f"{name}.order"
        report = report_of(EXAMPLES / f"{name}.report")
        return report, Exact(asked, EXAMPLES / f"{name}.nova", order if order.exists() else None, report)

    def test_who_pays_adds_up(self) -> None:
        for name in ("clocks", "c_counter", "driver", "helping", "processors", "timer"):
            report, exact = self.exact_of(name)
            slices = list(exact.slices(1, report.turns))
            exact.close()
            if not slices:
                self.skipTest("nova_debug doesn't tell slices")
            with self.subTest(name):
                paid: Counter[int] = Counter()
                for one in slices:
                    paid[one.payer or 0] += one.turns
                ticks = {payer.number: payer.ticks for payer in report.payers if payer.ticks}
                self.assertEqual({payer: turns for payer, turns in paid.items() if payer}, ticks)
                self.assertEqual(paid.total(), report.turns)
                events = read(report, None, slices)
                self.check(events)
                self.assertLessEqual({PROCESSORS, CONTEXTS}, {event["pid"] for event in events if "turns" in event.get("args", {})})

    def test_who_is_woken_when(self) -> None:
        report, exact = self.exact_of("c_counter")
        told, known = find_history(report), find_history(report, exact.woken)
        exact.close()
        self.assertIn(Doing.UNTOLD, {span.doing for span in told.spans})
        self.assertNotIn(Doing.UNTOLD, {span.doing for span in known.spans})
        wakes = [(arrow.place, arrow.target, arrow.sure) for arrow in known.arrows if arrow.lead is Lead.WAKE]
        self.assertIn((763, 6, True), wakes)
        self.assertNotIn(752, [place for place, _, _ in wakes])

    def test_another_run_is_not_asked(self) -> None:
        words = [sys.executable, PICTURE, "run", EXAMPLES / "c_counter.report", "--scenario", EXAMPLES / "c_counter.nova", "--program", asked]
        answer = subprocess.run(words, capture_output=True, text=True, encoding="utf-8", check=False)
        self.assertEqual((answer.returncode, answer.stdout), (1, ""))
        self.assertIn("its run is not that of the report", answer.stderr)
