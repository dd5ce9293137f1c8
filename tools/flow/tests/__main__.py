"""Tests what is compared of two runs, and what is said of the premises.

python3 tools/flow/tests [--program FILE]
"""

from __future__ import annotations

import argparse
import subprocess
import sys
import tempfile
import unittest
from pathlib import Path

TOP = Path(__file__).resolve().parents[3]
TOOL = TOP / "tools" / "flow"
sys.path.insert(0, str(TOOL))

from leaks import LEAKS  # noqa: E402
from parts import difference, free_part, own_turns, part, told  # noqa: E402
from premises import Allowed, at_work, broken, creating_alone, made_by_others, revoking_within  # noqa: E402
from scenarios import OWN, SHARED, Fixed, SetUp, call, word  # noqa: E402

PROGRAM = TOP / "crates" / "nova" / "out" / "nova"
PLACE = "0 400\n1 400\n2 330\n"


def run(scenario: str, order: str) -> str:
    with tempfile.TemporaryDirectory() as folder:
        paths = [Path(folder) / "a.nova", Path(folder) / "a.order"]
        paths[0].write_text(scenario)
        paths[1].write_text(order)
        return subprocess.run([PROGRAM, "solo", *paths], capture_output=True, text=True, timeout=120).stdout


def tells(*words: str, program: object = None) -> tuple[int, str]:
    done = subprocess.run([sys.executable, TOOL, "--program", str(program or PROGRAM), *words], capture_output=True, text=True, timeout=300)
    return done.returncode, done.stdout + done.stderr


class Parts(unittest.TestCase):
    """Of reports: which lines are the side's, and how two are told apart."""

    def setUp(self) -> None:
        lines = ["addi x9, x9, 1"]
        self.report = run(SetUp(walled=True).text([Fixed(0, lines), Fixed(1, lines)]), PLACE + "1 30\n")

    def test_a_part_has_what_its_processor_did_and_what_its_domain_has(self) -> None:
        events, rest = part(self.report)
        self.assertTrue(all(event[0] == "1" for event in events))
        self.assertEqual({line[0] for line in rest}, {"ec", "sc", "sm", "cap", "source", "console"})
        self.assertIn(["cap", "17", "mem", "256", "3", "7", "16"], rest)

    def test_a_number_that_differs_is_found(self) -> None:
        line = next(line for line in self.report.splitlines() if line.startswith("ec ") and "x9=" in line)
        other = self.report.replace(line, line.replace("x9=", "x9=1"))
        self.assertIsNone(difference(part(self.report), part(self.report)))
        self.assertIn("x9=1", difference(part(self.report), part(other)) or difference(free_part(self.report), free_part(other)) or "")

    def test_ranges_are_told_by_what_they_give(self) -> None:
        renumbered = "".join(f"{' '.join(['cap', '99', '-'] + line.split()[3:])}\n" if line.startswith("cap") else f"{line}\n" for line in self.report.splitlines())
        self.assertIsNone(difference(part(self.report), part(renumbered)))

    def test_of_a_shared_processor_the_sides_own_events_are_told(self) -> None:
        self.assertTrue(all(event[1] in ("18", "22") for event in part(self.report, 600, shared=True)[0]))
        longer = run(SetUp(walled=True).text([Fixed(0, ["addi x9, x9, 1"]), Fixed(1, [])]), PLACE + "1 31\n")
        self.assertEqual(own_turns(longer, 1130), own_turns(self.report, 1130) + 1)

    def test_of_a_source_that_rings_elsewhere_is_told_that_it_rang(self) -> None:
        event = ["1", "22", "irq", "1", "3"]
        self.assertEqual([told(event, {"1"}), told(event, {"2"})], [["1", "0", "irq", "1", "0"], event])

    def test_a_long_line_is_shown_where_it_differs(self) -> None:
        first, second = [["console", "0", "0" * 400 + tail] for tail in ("12", "13")]
        self.assertEqual(difference(([], [first]), ([], [second])), f"...{'0' * 29}12 / ...{'0' * 29}13")


class Premises(unittest.TestCase):
    """Of states: each condition fails where it is broken."""

    def report(self, set_up: SetUp) -> str:
        lines = ["addi x9, x9, 1"]
        return run(set_up.text([Fixed(0, lines), Fixed(1, lines)]), PLACE)

    def test_walled_sides_meet_all(self) -> None:
        self.assertEqual(broken(self.report(SetUp(walled=True))), set())

    def test_sides_that_may_create_are_not_divided(self) -> None:
        self.assertEqual(broken(self.report(SetUp())), {"IsDivided.creates"})

    def test_a_capability_of_the_others_is_found(self) -> None:
        report = self.report(SetUp(walled=True))
        line = next(line for line in report.splitlines() if line.startswith("cap") and " obj 2 " in line and line.split()[3] != "0")
        words = line.split()
        foreign = " ".join([*words[:8], str(int(words[8]) + 7)])
        self.assertIn("IsClosed.capabilities", broken(report.replace(line, foreign)))

    def test_a_page_that_comes_of_the_others_is_found(self) -> None:
        report = self.report(SetUp(walled=True))
        caps = [line.split() for line in report.splitlines() if line.startswith("cap") and line.split()[4] == "mem" and line.split()[3] != "0"]
        domains = sorted({int(words[3]) for words in caps})  # the side's was made first
        ours, theirs = (next(words for words in caps if int(words[3]) == domain) for domain in domains)
        child = " ".join([*ours[:2], theirs[1], *ours[3:]])
        self.assertEqual(broken(report.replace(" ".join(ours), child)), {"IsGuarded.lines"})

    def test_a_side_that_creates_or_revokes_isnt_at_work(self) -> None:
        works = [["1", "22", "answer", "12", "0"], ["1", "0", "irq", "1", "0"], ["1", "22", "begin", "0", "18"]]
        self.assertEqual(at_work(works), set())
        self.assertEqual(at_work([*works, ["1", "22", "answer", "6", "8"]]), {"IsAtWork.calls"})
        self.assertEqual(at_work([*works, ["1", "18", "made", "52", "33"], ["1", "18", "xlat", "0", "0"]]), set())
        self.assertEqual(at_work([*works, ["1", "22", "gone", "0", "7"]]), {"IsAtWork.revokes"})

    def test_a_side_that_may_revoke_gives_while_it_revokes_nothing(self) -> None:
        revokes = [["1", "22", "begin", "7", "256"], ["1", "22", "gone", "0", "7"], ["1", "22", "answer", "7", "0"]]
        gives = ["1", "18", "made", "0", "0"]
        self.assertEqual(at_work([*revokes, gives], Allowed(revokes=True)), set())
        self.assertEqual(at_work([*revokes[:2], gives, revokes[2]], Allowed(revokes=True)), {"IsAtWork.gives"})
        self.assertEqual(at_work([["1", "22", "answer", "6", "8"]], Allowed(revokes=True)), {"IsAtWork.calls"})

    def test_a_side_that_creates_gives_first_ranges_and_has_no_deadline(self) -> None:
        alone, opens = Allowed(creates=True), ["1", "22", "begin", "2", "31"]
        self.assertEqual(at_work([["1", "22", "answer", number, "0"] for number in "23456"], alone), set())
        self.assertEqual([at_work([opens], alone), at_work([opens])], [set(), {"IsAtWork.calls"}])
        self.assertEqual(at_work([["1", "18", "begin", "7", "256"], opens, ["1", "22", "made", "52", "33"]], Allowed(True, True)), {"IsAtWork.gives"})
        for event in (["answer", "12", "1"], ["late", "8", "1"]):
            self.assertEqual(at_work([["1", "22", *event]], alone), {"IsAtWork.calls"})

    def test_what_others_made_of_the_sides_ranges_is_found(self) -> None:
        report = self.report(SetUp(walled=True))
        caps = [line.split() for line in report.splitlines() if line.startswith("cap") and line.split()[4] == "mem" and line.split()[3] != "0"]
        domains = sorted({int(words[3]) for words in caps})
        ours, theirs = (next(words for words in caps if int(words[3]) == domain) for domain in domains)
        child = " ".join([*theirs[:2], ours[1], *theirs[3:]])
        self.assertEqual(revoking_within([report, report]), set())
        self.assertEqual(revoking_within([report, report.replace(" ".join(theirs), child)]), {"DerivesWithin"})

    def test_ranges_that_were_made_in_another_order_or_of_another_are_found(self) -> None:
        report = self.report(SetUp(walled=True))
        domain = min(int(line.split()[3]) for line in report.splitlines() if line.startswith("cap") and line.split()[4] == "mem" and line.split()[3] != "0")
        older, newer = [line for line in report.splitlines() if line.startswith("cap") and line.split()[3] == str(domain)][:2]
        first, second = older.split(), newer.split()
        swapped = report.replace(older, " ".join(["cap", second[1], *first[2:]])).replace(newer, " ".join(["cap", first[1], *second[2:]]))
        child = report.replace(newer, " ".join(["cap", second[1], first[1], *second[3:]]))
        self.assertEqual(revoking_within([report, swapped]), {"AreDerivedAlike.order"})
        self.assertEqual(revoking_within([report, child]), {"AreDerivedAlike.children"})


    def test_a_side_that_creates_beside_others_that_do_isnt_alone(self) -> None:
        makes, rests, first, then = call(6, 100, OWN, 0) + ["ebreak"], ["ebreak"], "0 400\n1 400\n2 330\n", "0 400\n2 330\n1 400\n"
        own, others = SetUp(walled=True, creates=True).text([Fixed(0, makes), Fixed(1, rests)]), SetUp().text([Fixed(0, rests), Fixed(1, makes)])
        self.assertEqual([made_by_others(run(own, then), 920), made_by_others(run(others, first), 980)], [set(), {"OthersMakeNothing"}])

    def test_what_is_asked_of_two_places_where_a_side_creates_is_found(self) -> None:
        scenario = SetUp(walled=True, rings="root", creates=True).text([Fixed(0, []), Fixed(1, [])])
        place, sooner = run(scenario, PLACE), run(scenario, "0 400\n1 400\n2 60\n")
        own = next(line.split()[8] for line in place.splitlines() if line.startswith("cap") and line.split()[3:6] == ["17", "obj", str(SHARED)])
        self.assertEqual(creating_alone([scenario] * 2, [place] * 2), set())
        self.assertEqual(creating_alone([scenario] * 2, [place, sooner]), {"AreCreatingAlone.objects"})
        self.assertEqual(creating_alone([scenario, scenario.replace("cpus 3", "cpus 4")], [place] * 2), {"AreCreatingAlone.cpus"})
        self.assertEqual(creating_alone([scenario] * 2, [place, place.replace("source 1 1 4 ", f"source 1 1 {own} ")]), {"IsTimeless.alarms"})
        self.assertEqual(creating_alone([scenario] * 2, [place, place + "sc 99 1 0\n"]), {"IsCreatingAlone.schedules"})


class Runs(unittest.TestCase):
    """Of the command: pairs that are the same, and leaks that are not."""

    def test_sides_that_do_everything_differ_in_numbers_alone(self) -> None:
        status, said = tells("--count", "4", "--turns", "800")
        self.assertEqual((status, said.split()[:4]), (0, ["same", "4", "different", "0"]))

    def test_sides_at_work_behind_walls_are_the_same(self) -> None:
        status, said = tells("--walled", "--count", "10", "--turns", "800")
        self.assertEqual((status, said.split()[:4]), (0, ["same", "10", "different", "0"]))

    def test_sides_that_give_and_revoke_behind_walls_are_the_same(self) -> None:
        status, said = tells("--revokes", "--count", "10", "--turns", "800")
        self.assertEqual((status, said.split()[:4]), (0, ["same", "10", "different", "0"]))

    def test_sides_that_create_alone_are_the_same(self) -> None:
        status, said = tells("--creates", "--count", "10", "--turns", "800")
        self.assertEqual((status, said.split()[:4]), (0, ["same", "10", "different", "0"]))

    def test_sides_that_share_a_processor_are_the_same_by_their_own_turns(self) -> None:
        status, said = tells("--shared", "--count", "4", "--turns", "500")
        self.assertEqual((status, said.split()[:4]), (0, ["same", "4", "different", "0"]))

    def test_each_leak_breaks_its_premises_alone_and_is_seen(self) -> None:
        for name in LEAKS:
            with self.subTest(name):
                status, said = tells("--leak", name, "--turns", "600")
                self.assertEqual(status, 0, said)
                self.assertIn(f"without {', '.join(sorted(LEAKS[name].breaks))}\n", said)

    def test_a_program_that_is_none_is_refused_in_a_sentence(self) -> None:
        self.assertEqual(tells("--count", "1", program="/nowhere/nova"), (2, "tools/flow: /nowhere/nova: No such file or directory\n"))
        self.assertEqual(tells("--count", "1", program="/bin/true"), (2, "tools/flow: /bin/true: free.0.0: what it writes is no report\n"))

    def test_a_range_word(self) -> None:
        self.assertEqual(word("mem", 0x100, 4, 7), 0x10021D)


def main() -> None:
    global PROGRAM
    parser = argparse.ArgumentParser(prog="tools/flow/tests")
    parser.add_argument("--program", type=Path, default=PROGRAM)
    words, rest = parser.parse_known_args()
    PROGRAM = words.program.resolve()
    if not PROGRAM.exists():
        sys.exit(f"{PROGRAM} is missing: python3 tools/build")
    unittest.main(argv=sys.argv[:1] + rest)


if __name__ == "__main__":
    main()
