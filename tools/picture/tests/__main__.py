"""The tests of the pictures.

python3 tools/picture/tests [--program FILE] compares the pictures of the reports in this folder with the SVGs beside them; with --write it writes
those, to be looked at before they are kept. The program is one to ask, in place of nova_debug of the repository.
"""

from __future__ import annotations

import re
import subprocess
import sys
import tempfile
import unittest
from dataclasses import dataclass
from pathlib import Path

HERE = Path(__file__).parent
TOP = HERE.parent
sys.path.insert(0, str(TOP))

import history  # noqa: E402
import objects  # noqa: E402
from clocks import Clock, Ticks, find_firings, misfit  # noqa: E402
from drawing import svg  # noqa: E402
from order import Order, read_order  # noqa: E402
from report import UNPAID, Fault, Kind, read_report  # noqa: E402
from run_picture import draw_run  # noqa: E402
from scenario import Moments, Settings, read_settings  # noqa: E402
from skim import find_events, shorten  # noqa: E402
from timeline import Stretch, Timeline, Window  # noqa: E402
from traces import Asked, Traces, take_program  # noqa: E402, F401
from tree_picture import draw_delegations  # noqa: E402
from untold import Untold  # noqa: E402, F401


@dataclass(frozen=True)
class Case:
    """A picture: the name of its SVG, and the words that make it, with {} for this folder."""

    name: str
    words: str


CASES = (
    Case("calls", "run {}/calls.report"),
    Case("helping", "run {}/helping.report"),
    Case("helping-delegations", "delegations {}/helping.report --fold 6"),
    Case("aborts", "run {}/aborts.report"),
    Case("revoke", "run {}/revoke.report"),
    Case("revoke-delegations", "delegations {}/revoke.report"),
    Case("revoke-delegations-window", "delegations {}/revoke.report --from 23 --to 36"),
    Case("doubts", "run {}/doubts.report"),
    Case("odd", "run {}/odd.report"),
    Case("odd-delegations", "delegations {}/odd.report"),
    Case("turns", "run {}/turns.report --order {}/turns.order"),
    Case("turns-window", "run {}/turns.report --order {}/turns.order --from 7 --to 30 --fold 100"),
    Case("guest", "run {}/guest.report --order {}/guest.order"),
    Case("wide", "run {}/wide.report"),
    Case("time", "run {}/time.report --order {}/time.order --scenario {}/time.nova"),
    Case("time-window", "run {}/time.report --from 20 --to 41"),
    Case("timer-delegations", "delegations {}/../../../examples/timer.report"),
    Case("sides-apart", "sides {}/../../../examples/policy/apart.sides --policy {}/../../../examples/policy/apart.policy"),
    Case("sides-breach", "sides {}/../../../examples/policy/tenants.sides"),
    Case("sides-stuck", "sides {}/stuck.sides --title named"),
    Case("sides-causes", "sides {}/causes.sides --policy {}/causes.policy"),
    Case("sides-flows", "sides {}/flows.sides"),
    Case("nothing", "run {}/nothing.report"),
    Case("nothing-delegations", "delegations {}/nothing.report"),
)

# A report and its parts, from which the reports with a fault are made.
HEAD, EVENT = "run quiet 9\n", "at 4 0 1 answer 3 0\n"
END = "ec 1 global dead 00000000\nsc 2 0 9\ncap 0 - 0 mem 0 0 7 0\n"
SOURCE = "ec 1 global dead 00000000\nsc 2 0 8\nsm 3 1 0\nsource 0 0 3 1 0\n"
FAULTS = (
    ("", "line 1: `run quiet N` or `run open N` is wanted"),
    ("run quiet 09\n", "line 1: `run quiet N` or `run open N` is wanted"),
    ("turn 3\napart\n", "line 1: `run quiet N` or `run open N` is wanted; this is an answer of nova_policy, which `tools/picture sides` draws"),
    ("0 8\n", "line 1: `run quiet N` or `run open N` is wanted; this is an order, and `./nova solo SCENARIO ORDER` makes its report"),
    ("run quiet 9", "line 1: the text ends without a line feed"),
    (HEAD + EVENT + END.rstrip("\n"), "line 5: the text ends without a line feed"),
    (HEAD + "\n" + END, "line 2: no line of a report begins so"),
    (HEAD + "at 4 0 1 answer 3\n" + END, "line 2: not of the form of a line `at`"),
    (HEAD + "at 4 0 1 step 0 0\n" + END, "line 2: not of the form of a line `at`"),
    (HEAD + "at 4  0 1 answer 3 0\n" + END, "line 2: not of the form of a line `at`"),
    (HEAD + EVENT + EVENT + END, "line 3: turn 4 is not after turn 4 and among the 9 turns of the run"),
    (HEAD + "at 10 0 1 answer 3 0\n" + END, "line 2: turn 10 is not after turn 0 and among the 9 turns of the run"),
    (HEAD + "at 4 0 3 answer 3 0\n" + END, "line 2: execution context 3 has no line `ec`"),
    (HEAD + EVENT + "at 5 1 1 raise 7 0\n" + END, "line 3: execution context 1 was on processor 0 before"),
    (HEAD + "at 5 0 1 begin 0 7\n" + END, "line 2: execution context 7 has no line `ec`"),
    (HEAD + END + EVENT, "line 5: a line `at` stands too late"),
    (HEAD + END + "cap 0 - 0 mem 4 0 7 4\n", "line 5: number 0 does not come after 0"),
    (HEAD + END + "cap 7 5 0 mem 4 0 7 4\n", "line 5: its parent, capability range 5, is not there"),
    (HEAD + END + "cap 7 7 0 mem 4 0 7 4\n", "line 5: its parent, capability range 7, is not there"),
    (HEAD + END + "cap 7 0 0 mem 4 21 7 4\n", "line 5: no order is above 20"),
    (HEAD + END + f"cap {'9' * 21} 0 0 mem 4 0 7 4\n", "line 5: not of the form of a line `cap`"),
    (HEAD + "ec 1 global gone 00000000\n", "line 2: not of the form of a line `ec`"),
    (HEAD + "ec 1 global dead 00000000 x5=0000000g\n", "line 2: not of the form of a line `ec`"),
    (HEAD + "ec 1 global dead 00000000 x5=00000000\n", "line 2: no register is written as x5=00000000"),
    (HEAD + "ec 1 global dead 00000000 x32=00000001\n", "line 2: no register is written as x32=00000001"),
    (HEAD + "ec 1 global dead 00000000 x6=00000001 x5=00000001\n", "line 2: number 5 does not come after 6"),
    (HEAD + END + "\u00e9\n", "line 5: no line of a report begins so"),
    (HEAD + "at 4 0 0 late 3 1\n" + END, "line 2: execution context 0 has no line `ec`"),
    (HEAD + "at 4 0 0 irq 0 0\n" + END, "line 2: source 0 has no line `source`"),
    (HEAD + "at 4 1 0 irq 0 0\n" + SOURCE, "line 2: source 0 is of processor 0"),
    (HEAD + "at 4 0 7 irq 0 0\n" + SOURCE, "line 2: execution context 7 has no line `ec`"),
    (HEAD + "sc 2 0 9\nsource 0 0 3 1 0\n", "line 3: its semaphore, 3, has no line `sm`"),
    (HEAD + "sm 3 0 0\nsource 1 0 3 1 0\n", "line 3: source 0 is wanted"),
    (HEAD + "sm 3 0 0\nsource 0 0 3 1\n", "line 3: not of the form of a line `source`"),
)
ORDER_FAULTS = (
    ("0 8\n", "line 1: the order has 8 turns, the report 9"),
    ("", "line 1: the order has 0 turns, the report 9"),
    ("0 8\n1 1", "line 2: the text ends without a line feed"),
    ("0 8\n1  1\n", "line 2: `CPU COUNT` is wanted"),
    ("0 8\n1\n", "line 2: `CPU COUNT` is wanted"),
    ("0 8\n1 x\n", "line 2: `CPU COUNT` is wanted"),
    ("0 8\n01 1\n", "line 2: `CPU COUNT` is wanted"),
    (f"0 {'9' * 5000}\n", "line 1: `CPU COUNT` is wanted"),
    ("0 8\n1 0\n", "line 2: a count of no turns"),
    ("0 8\n0 1\n", "line 2: the line before is of processor 0 too"),
    ("0 3\n1 6\n", "line 2: turn 4 is of processor 0 in the report"),
)
GOOD = HEAD + EVENT + END
# The root calls a handler, which another context, whose payer is one of two, may help; then the handler makes a semaphore.
HELPED = """\
run open 40
at 3 0 1 answer 3 0
at 6 0 1 answer 5 0
at 9 0 1 answer 3 0
at 12 0 1 answer 3 0
at 15 0 1 answer 4 0
at 18 0 1 answer 4 0
at 20 0 1 begin 0 3
{help}at 30 0 3 answer 6 0
ec 1 global calling 00000000
ec 3 local ready 00000000
ec 5 global fresh 00000000
ec 6 global fresh 00000000
sc 2 0 40
sc 7 0 0
sc 8 0 0
sm 9 0 0
"""
SCENARIO_FAULTS = (
    ("ram 0\nimage 0 asm\ncpus 1\n", "line 1: a scenario has a line `cpus` before its images"),
    ("cpus x\n", "line 1: 1 number is wanted"),
    ("cpus 1\nsource 0 1 1\n", "line 2: 4 numbers are wanted"),
)

# Reports of whole runs, whose orders, and scenarios where they have sources, stand beside them; and with those that were written by hand, all.
EXAMPLES = (HERE / "time.report", *sorted(TOP.parents[1].glob("examples/*.report")))
REPORTS = (*sorted(set(HERE.glob("*.report")) - {EXAMPLES[0]}), *EXAMPLES)


def order_of(report: Path) -> Order | None:
    """The order that stands beside a report, if one does."""
    path, text = report.with_suffix(".order"), report.read_text()
    events = find_events(text)
    if events is None or not path.exists():
        return None
    return read_order(path.read_text(), read_report(text).turns, events.turns, events.cpus())


def calls(count: int) -> str:
    """The report of a run that makes a handler, a portal and so many calls, of ten turns each."""
    turns = 10 * count + 10
    made = "at 4 0 1 answer 3 0\nat 9 0 1 answer 5 0\n"
    pairs = "".join(f"at {turn} 0 1 begin 0 3\nat {turn + 5} 0 3 answer 1 0\n" for turn in range(12, turns, 10))
    return f"run open {turns}\n{made}{pairs}ec 1 global ready 00000000\nec 3 local parked 00000000\nsc 2 0 {turns}\n"


def picture(*words: str) -> subprocess.CompletedProcess[str]:
    """A run of the program."""
    return subprocess.run([sys.executable, str(TOP), *words], capture_output=True, text=True, encoding="utf-8", check=False)


def drawn(case: Case) -> str:
    """The picture of a case."""
    answer = picture(*case.words.format(*[HERE] * 3).split())
    if answer.returncode or answer.stderr:
        raise AssertionError(answer.stderr)
    return answer.stdout


class Pictures(unittest.TestCase):
    """The program as a whole."""

    def test_the_pictures_are_those_beside_the_reports(self) -> None:
        for case in CASES:
            with self.subTest(case.name):
                self.assertEqual(drawn(case), (HERE / f"{case.name}.svg").read_text(encoding="utf-8"))

    def test_each_kind_of_event_is_drawn(self) -> None:
        reports = [read_report(path.read_text()) for path in HERE.glob("*.report")]
        self.assertEqual({event.kind for report in reports for event in report.events}, set(Kind))

    def test_a_page_has_the_picture_in_it(self) -> None:
        answer = picture("run", f"{HERE}/calls.report", "--page")
        self.assertIn((HERE / "calls.svg").read_text(encoding="utf-8"), answer.stdout)
        self.assertTrue(answer.stdout.startswith("<!doctype html>"))

    def test_a_fault_has_one_line_and_status_1_and_leaves_no_file(self) -> None:
        with tempfile.TemporaryDirectory() as folder:
            report, order, output = Path(folder, "a.report"), Path(folder, "a.order"), Path(folder, "a.svg")
            for text, turns, file, line in (
                (HEAD + "at 4\n", "0 9\n", report, "line 2: not of the form of a line `at`"),
                (GOOD, "0 9", order, "line 1: the text ends without a line feed"),
            ):
                report.write_text(text)
                order.write_text(turns)
                answer = picture("run", str(report), "--order", str(order), "--output", str(output))
                self.assertEqual((answer.returncode, answer.stderr), (1, f"picture: {file}: {line}\n"))
                self.assertFalse(output.exists())

    def test_sides_are_drawn_from_standard_input_and_for_graphviz(self) -> None:
        file = HERE / "causes.sides"
        words = [sys.executable, str(TOP), "sides", "--title", "causes", "--policy", str(HERE / "causes.policy")]
        read = subprocess.run(words, input=file.read_text(), capture_output=True, text=True, check=False)
        self.assertEqual(read.stdout, (HERE / "sides-causes.svg").read_text(encoding="utf-8"))
        graph = picture("sides", str(file), "--dot").stdout
        self.assertIn('d5 -> d8 [label="serves ec 7 ec 9", color=red, fontcolor=red, penwidth=2]', graph)
        self.assertIn('subgraph cluster_0 { label="trusted"; style=filled; fillcolor=gray95; d0 [label="domain 0"] }', graph)
        self.assertEqual(graph.count(" -> "), 10)
        graph = picture("sides", str(HERE / "flows.sides"), "--dot").stdout
        for line in (
            'd9 -> d14 [label="flows to side 14\ndomain 9 cap 24 to domain 14 cap 40, rights 2 and 5", ltail=cluster_2, lhead=cluster_3, penwidth=2]',
            'd8 -> d5 [label="flows to side a\ndomain 8 cap 20 to domain 5 cap 15, frames 6 to 7\ndomain 8 cap 20 to domain 6 cap 16", '
            "ltail=cluster_2, lhead=cluster_1, color=red, fontcolor=red, penwidth=2]",
            'd6 -> d14 [label="reads with side 14\ndomain 6 cap 17 and domain 14 cap 41, rights 5 and 1", ltail=cluster_1, lhead=cluster_3, dir=none]',
            's30 -> d8 [label="down waits", lhead=cluster_2, dir=none, style=dotted]',
        ):
            self.assertIn(f"  {line}\n", graph)
        self.assertEqual(graph.count(" -> "), 9)

    def test_a_breach_is_drawn_without_the_lines_of_ties(self) -> None:
        text = (HERE / "flows.sides").read_text()
        words = [sys.executable, str(TOP), "sides", "--dot"]
        cut = subprocess.run(words, input=re.sub("(?m)^tie .*\n", "", text), capture_output=True, text=True, check=True).stdout
        self.assertIn('d8 -> d5 [label="flows to side a\ndomain 8 cap 20 to domain 5 cap 15, frames 6 to 7", ', cut)
        self.assertEqual(cut.count(" -> "), 7)

    def test_what_is_no_answer_is_refused(self) -> None:
        with tempfile.TemporaryDirectory() as folder:
            answer = Path(folder, "a.sides")
            for text, line in (
                ("turn 3\napart\ntie a:5 b:6 portal\n", "line 3: this is no tie"),
                ("turn 3\napart\nflows a:5 b:6 frames cap 3 cap 4 strict\n", "line 3: this is no memory of two sides"),
                ("turn 3\napart\nflows a:5 a:6 frames cap 3 cap 4 rights 3 1\n", "line 3: this is no memory of two sides"),
                ("turn 3\napart\nflows a:5 b:6 frames cap 3 cap 4 rights 3\n", "line 3: the rights of two capabilities are wanted"),
                ("turn 3\napart\nmemory a:5 b:6 frames cap 3 cap 4 rights 3 1\n", "line 3: this memory isn't of these rights"),
                ("turn 3\napart\nshared 3: a, b up\n", "line 3: no line of an answer is of this form"),
                ("run quiet 3\n", "line 1: `turn N` is wanted; this is a report, which `tools/picture run` draws"),
            ):
                answer.write_text(text)
                done = picture("sides", str(answer))
                self.assertEqual((done.returncode, done.stderr), (1, f"picture: {answer}: {line}\n"))
            answer.write_text("turn 3\napart\n" + "tie a:5 a:6 portal cap 3\n" * 2001)
            self.assertIn("2001 ties and flows: --dot writes a graph", picture("sides", str(answer)).stderr)

    def test_sources_of_another_scenario_are_refused(self) -> None:
        with tempfile.TemporaryDirectory() as folder:
            scenario = Path(folder, "other.nova")
            scenario.write_text((HERE / "time.nova").read_text().replace("source 1 9 1 4", "source 1 8 1 4"))
            answer = picture("run", f"{HERE}/time.report", "--order", f"{HERE}/time.order", "--scenario", str(scenario))
            self.assertEqual((answer.returncode, answer.stderr), (1, f"picture: {scenario}: its sources are not those of the report\n"))

    def test_the_name_of_the_lane_stands_beside_each_mark_from_20_lanes_on(self) -> None:
        for name, names in (("wide", True), ("calls", False)):
            text = drawn(Case(name, f"run {{}}/{name}.report"))
            rows = re.findall(r"<g><title>at \d+ \d+ (\d+) .*\n.*</title>((?:\n(?!</g>).*)*)", text)
            self.assertGreater(len(rows), 0)
            for context, row in rows:
                self.assertEqual(bool(re.search(rf'<text class="small" .*>EC {context}</text>', row)), names)

    def test_a_picture_above_5_mb_is_cut_and_says_so(self) -> None:
        with tempfile.TemporaryDirectory() as folder:
            report = Path(folder, "a.report")
            for count, cut in ((2_000, False), (5_000, True), (11_000, True)):
                report.write_text(calls(count))
                turns = 10 * count + 10
                note = f"Turns 1 to 4,997 of {turns:,} are drawn: up to turn {turns:,} the picture would pass 5 MB, and --all draws it."
                text = picture("run", str(report)).stdout
                self.assertEqual((note in text, "would pass" in text, len(text) < 1_000_000), (cut, cut, cut))
                if count < 11_000:
                    whole = picture("run", str(report), "--all").stdout
                    self.assertEqual((whole == text, len(whole) > 5_000_000), (not cut, cut))
            text = picture("run", str(report), "--from", "10001", "--to", "100000").stdout
            self.assertIn("Turns 10,001 to 14,997 of 110,010 are drawn: up to turn 100,000 the picture", text)

    def test_a_scenario_that_fires_otherwise_is_refused(self) -> None:
        sources = TOP.parents[1] / "examples" / "sources"
        text = sources.with_suffix(".nova").read_text()
        with tempfile.TemporaryDirectory() as folder:
            scenario = Path(folder, "other.nova")
            for count in (1, 99):
                scenario.write_text(re.sub(r"^(source \d+ \d+ \d+) \d+", rf"\1 {count}", text, flags=re.M))
                answer = picture("run", f"{sources}.report", "--scenario", str(scenario))
                self.assertEqual((answer.returncode, answer.stderr), (1, f"picture: {scenario}: its sources are not those of the report\n"))

    def test_other_refusals(self) -> None:
        for words, line in (
            (["run", "missing"], "picture: missing: No such file or directory\n"),
            (["run", f"{HERE}/calls.report", "--from", "33"], "picture: there are no turns from 33 to 32: the run has turns 1 to 32\n"),
            (["delegations", f"{HERE}/calls.report", "--to", "0"], "picture: there are no turns from 1 to 0: the run has turns 1 to 32\n"),
            (["run", f"{HERE}/calls.report", "--scenario", "missing"], "picture: missing: No such file or directory\n"),
            (
                ["run", f"{HERE}/calls.report", "--scenario", f"{HERE}/time.nova"],
                f"picture: {HERE}/time.nova: its sources are not those of the report\n",
            ),
        ):
            with self.subTest(words):
                answer = picture(*words)
                self.assertEqual((answer.returncode, answer.stdout, answer.stderr), (1, "", line))
        self.assertEqual(picture("paint").returncode, 2)


class Readers(unittest.TestCase):
    """The forms of reports and orders."""

    def test_faults_of_reports(self) -> None:
        read_report(GOOD)
        for text, wanted in FAULTS:
            with self.subTest(wanted), self.assertRaises(Fault) as raised:
                read_report(text)
            self.assertEqual(str(raised.exception), wanted)

    def test_scenarios(self) -> None:
        text = "cpus 0x2 # two\n\n source 1 0x10 007 3\nimage 0 asm\nsource 0 1 1 1\n"
        self.assertEqual(read_settings(text), Settings(2, [Moments(1, 16, 7, 3)]))
        for text, wanted in SCENARIO_FAULTS:
            with self.subTest(wanted), self.assertRaises(Fault) as raised:
                read_settings(text)
            self.assertEqual(str(raised.exception), wanted)

    def test_faults_of_orders(self) -> None:
        order = read_order("0 5\n1 4\n", 9, [4], [0])
        self.assertEqual(order, Order([0, 1], [5, 9]))
        self.assertEqual(list(order.within(2, 6)), [(0, 2, 5), (1, 6, 6)])
        for text, wanted in ORDER_FAULTS:
            with self.subTest(wanted), self.assertRaises(Fault) as raised:
                read_order(text, 9, [4], [0])
            self.assertEqual(str(raised.exception), wanted)


class Windows(unittest.TestCase):
    """Windows that are drawn from a part of the report."""

    def test_a_window_is_drawn_from_a_part_as_from_the_whole(self) -> None:
        for path in REPORTS:
            text = path.read_text()
            report, events = read_report(text), find_events(text)
            if events is None:
                self.fail(path)
            acts = [(event.place, event.cpu) for event in report.events]
            self.assertEqual(list(zip(events.turns, events.cpus())), acts)
            for first in range(1, report.turns + 1, 1 + report.turns // 7):
                for length in (1, 40):
                    window = Window(first, min(first + length - 1, report.turns))
                    runs, trees = (read_report(shorten(text, events, window, ranges)) for ranges in (False, True))
                    with self.subTest(report=path.stem, window=window):
                        self.assertEqual(svg(draw_run("", runs, None, window, 12)), svg(draw_run("", report, None, window, 12)))
                        self.assertEqual(svg(draw_delegations("", trees, window, 40)), svg(draw_delegations("", report, window, 40)))

    def test_what_is_not_drawn_is_not_built(self) -> None:
        text = calls(20_000)
        events, window = find_events(text), Window(100_000, 100_099)
        if events is None:
            self.fail(text)
        self.assertEqual((len(events.turns), len(events.within(window))), (40_002, 20))
        part = read_report(shorten(text, events, window, False))
        self.assertLess(len(part.events), 20 + 3 * 4)

    def test_a_fault_of_a_large_report_has_the_line_of_the_text(self) -> None:
        text = calls(30_000)
        lines = text.count("\n")
        with tempfile.TemporaryDirectory() as folder:
            report = Path(folder, "a.report")
            for bad, line in (
                (text + "sc 2 0 9\n", f"line {lines + 1}: number 2 does not come after 2"),
                (text.replace("at 200002 0 ", "at 200002 1 "), "line 40002: execution context 1 was on processor 0 before"),
                (text.replace("at 200002 0 ", "at 199997 0 "), "line 40002: turn 199997 is not after turn 199997 and"),
                (text.replace("at 200002 0 ", "at 200002  0 "), "line 40002: not of the form of a line `at`"),
            ):
                report.write_text(bad)
                answer = picture("run", str(report), "--from", "100", "--to", "199")
                self.assertEqual((answer.returncode, answer.stdout), (1, ""))
                self.assertIn(f"picture: {report}: {line}", answer.stderr)


class Meaning(unittest.TestCase):
    """What is read out of several events together."""

    STATES = {
        "calling": history.Doing.WAITS,
        "blocked": history.Doing.WAITS,
        "helping": history.Doing.HELPS,
        "sending": history.Doing.HELPS,
        "granting": history.Doing.GIVES,
        "replying": history.Doing.GIVES,
        "revoking": history.Doing.REVOKES,
        "parked": history.Doing.PARKED,
        "dead": history.Doing.DEAD,
    }

    def test_a_payer_in_doubt_is_not_told_as_sure(self) -> None:
        for help_line, paid in (("", {2}), ("at 22 0 5 help 3 0\n", set())):
            replay = history.Replay(read_report(HELPED.format(help=help_line)))
            replay.follow()
            self.assertEqual((replay.history.payers[6], replay.history.payers[-1]), ({2}, paid))

    def test_each_context_ends_in_the_state_of_its_line(self) -> None:
        for path in REPORTS:
            report = read_report(path.read_text())
            replay = history.Replay(report)
            replay.follow()
            for context in report.contexts:
                with self.subTest(report=path.stem, context=context.number):
                    self.assertIs(replay.doing[context.number][0], self.STATES.get(context.state, history.Doing.RUNS))

    def test_who_pays(self) -> None:
        report = read_report((HERE / "helping.report").read_text())
        paid = {event.place: payers for event, payers in zip(report.events, history.find_history(report).payers)}
        self.assertEqual([paid[place] for place in (17, 22, 31, 38, 46)], [{2}, {7}, {2}, {7}, {2, 7}])

    def test_owners_are_told_only_where_there_is_no_doubt(self) -> None:
        for name, wanted in (("helping", {2: 1, 7: 6}), ("doubts", {2: 1}), ("turns", {2: 1, 4: 3})):
            report = read_report((HERE / f"{name}.report").read_text())
            found = objects.find_owners(report, objects.find_objects(report), objects.find_processors(report))
            self.assertEqual(found, wanted)

    def test_ticks_are_the_turns_that_nobody_pays_for(self) -> None:
        for path in EXAMPLES:
            report, order = read_report(path.read_text()), order_of(path)
            ticks = Ticks(report, history.find_history(report), order)
            places = [event.place for event in report.events]
            if order is None and len(ticks.cpus) > 1:
                continue
            gaps = [(before + 1, after - 1) for before, after in zip([0, *places], [*places, report.turns + 1]) if before + 1 < after]
            with self.subTest(path.stem):
                unpaid = sum(event.kind in UNPAID for event in report.events)
                paid = sum(payer.ticks for payer in report.payers)
                told = [ticks.within(*gap) for gap in gaps]
                compare = self.assertLessEqual if None in told else self.assertEqual
                compare(sum(count or 0 for count in told), report.turns - paid - unpaid)

    def test_clocks(self) -> None:
        order = Order([0, 1, 0, 1], [5, 8, 15, 16])
        for cpu, places in ((0, [*range(1, 6), *range(9, 16)]), (1, [6, 7, 8, 16])):
            clock = Clock(order, cpu)
            self.assertEqual([clock.at(place) for place in places], list(range(len(places))))
            self.assertEqual([clock.place(at) for at in range(len(places))], places)
            self.assertEqual([clock.at(place) for place in range(1, 17)], [sum(own < place for own in places) for place in range(1, 17)])
        alone = Clock(None, 0)
        self.assertEqual((alone.at(7), alone.place(6)), (6, 7))

    def test_the_latest_firing_is_as_late_as_the_report_says(self) -> None:
        for path in EXAMPLES:
            text = path.read_text()
            report, events, order = read_report(text), find_events(text), order_of(path)
            scenario = path.with_name(path.name.split(".")[0] + ".nova")
            if not report.sources or events is None:
                continue
            settings = read_settings(scenario.read_text())
            firings = find_firings(settings, report.sources, events.firings(), order)
            with self.subTest(path.stem):
                if order is None and settings.cpus > 1:
                    self.assertEqual(firings, {})
                    continue
                for source in report.sources:
                    delays = [firings[place].delay for place, number in events.firings() if number == source.number]
                    self.assertEqual((len(delays), max(delays, default=0)), (source.fired, source.worst))
                self.assertFalse(misfit(settings, report))
                self.assertEqual(find_firings(Settings(2, settings.sources), report.sources, events.firings(), None), {})

    def test_stretches(self) -> None:
        timeline = Timeline([2, 9], Window(1, 30), 10, 0)
        parts = [(part.stretch, part.first, part.last) for part in timeline.parts]
        event, plain, fold = Stretch.EVENT, Stretch.PLAIN, Stretch.FOLD
        self.assertEqual(parts, [(plain, 1, 1), (event, 2, 2), (plain, 3, 8), (event, 9, 9), (fold, 10, 30)])
        idle = Timeline([2, 9], Window(1, 30), 10, 0, lambda first, last: last - first + 1 if first == 3 else 0)
        self.assertEqual([part.stretch for part in idle.parts], [plain, event, Stretch.TICKS, event, fold])
        for before, after in zip(timeline.parts, timeline.parts[1:]):
            self.assertEqual(before.bottom, after.top)
            self.assertEqual(timeline.end_of(before.last), before.bottom)


if __name__ == "__main__":
    take_program(sys.argv)
    if sys.argv[1:] == ["--write"]:
        for each in CASES:
            (HERE / f"{each.name}.svg").write_text(drawn(each), encoding="utf-8")
    else:
        unittest.main()
