"""The tests of nova_policy: kept answers, of the examples and of attackers' variants; random capabilities, whose ties are found from reports; and
policies that are refused.

python3 tools/policy/tests [--program FILE] [--nova FILE] [--random N] [--write] [NAME..]

--write has the program answer the questions of examples/policy/answers.txt anew, after a change that is meant.
"""

from __future__ import annotations

import argparse
import subprocess
import sys
import tempfile
import unittest
from pathlib import Path

from kept import ANSWERS, TOP, asked, differing, read_kept, text_of
from joined import faults_of
from reported import differing_of

from built import ended, find
from report import Fault
from sides import read_sides

# A policy of tenants.nova, and what is said of it.
REFUSED = (
    ("trust 0\n", "line 1: Word"),
    ("# nothing\n\nside\n", "line 3: Name"),
    ("side 1a 3\n", "line 1: Name"),
    ("side trusted 3\n", "line 1: Name"),
    (f"side a{'b' * 32} 3\n", "line 1: Name"),
    ("trusted\n", "line 1: Empty"),
    ("side a\n", "line 1: Empty"),
    ("side a three\n", "line 1: Number"),
    ("side a 4294967296\n", "line 1: Number"),
    ("side a 3\nside a 10\n", "line 2: SameName"),
    ("side a 3\nside b 10 3\n", "line 2: SameDomain"),
    ("trusted 0 0\n", "line 1: SameDomain"),
    ("".join(f"side s{n} {n}\n" for n in range(1001)), "line 1001: TooMany"),
    ("trusted 0\nside a 3\nside b 10 4 5\n", "line 3: NoDomain 4"),
    ("trusted 0 1000\nside a 4\n", "line 1: NoDomain 1000"),
    ("shared\n", "line 1: Empty"),
    ("shared six\n", "line 1: Number"),
    ("shared 6\nshared 13 6\n", "line 2: SameSemaphore"),
    ("trusted 0\nshared 6 3\nside a 4\n", "line 2: NoSemaphore 3"),
    ("side a 3\nside b 10\nflow a\n", "line 3: Name"),
    ("side a 3\nside b 10\nflow a b a\n", "line 3: Name"),
    ("side a 3\nside b 10\nflow a trusted\n", "line 3: Name"),
    ("side a 3\nside b 10\nflow a 10\n", "line 3: Name"),
    ("side a 3\nflow a b\nside b 10\n", "line 2: NoSide"),
    ("side a 3\nflow b a\n", "line 2: NoSide"),
    ("side a 3\nflow a a\n", "line 2: SameSide"),
    ("side a 3\nside b 10\nflow a b\nflow b a\nflow a b\n", "line 5: SameFlow"),
)
# Words that are no request, or name what isn't there, and the status.
WRONG = (
    ([], 2),
    (["--help"], 2),
    (["examples/apart.nova", "examples/apart.order"], 2),
    (["examples/apart.nova", "--at", "10000001"], 2),
    (["examples/apart.nova", "--from", "9"], 2),
    (["examples/apart.nova", "--until", "10000001"], 2),
    (["examples/apart.nova", "--at", "9", "--until", "8"], 2),
    (["examples/apart.nova", "--at", "9", "--flow", "9"], 2),
    (["examples/apart.nova", "--flow", "9", "--until", "8"], 2),
    (["examples/apart.nova", "--flow", "10000001"], 2),
    (["examples/no_such.nova"], 3),
    (["examples/apart.nova", "--policy", "no_such.policy"], 3),
    (["examples/apart.order"], 4),
    (["examples/apart.nova", "--order", "examples/apart.nova"], 5),
    (["examples/policy/tenants.nova", "--order", "examples/apart.order"], 5),
)


# How many random capabilities are given in the gate.
RANDOM = 100


class Means:
    """The program that is tried, what makes reports, and how many random capabilities are given."""

    program: Path
    nova: Path
    random = RANDOM


class Kept(unittest.TestCase):
    """The kept answers."""

    def test_answers_are_those_that_are_kept(self) -> None:
        questions, _ = read_kept(ANSWERS.read_text())
        self.assertGreater(len(questions), 50)
        for one in questions:
            with self.subTest(one.words, edits=one.edits):
                self.assertIsNone(differing(asked(Means.program, one), one))

    def test_verdicts_and_finest_sides_are_those_of_the_ties(self) -> None:
        questions, _ = read_kept(ANSWERS.read_text())
        for one in questions:
            with self.subTest(one.words, edits=one.edits):
                self.assertEqual(faults_of(read_sides(asked(Means.program, one).text), one.policy), [])

    def test_each_variant_is_another_line_and_a_breach_names_its_capability(self) -> None:
        questions, _ = read_kept(ANSWERS.read_text())
        variants = [one for one in questions if one.edits and "tenants.nova" in one.words and one.status == 9]
        causes = {read_sides(one.answer).breach.cause for one in variants}
        self.assertLessEqual({"domain", "context", "portal", "scheduling", "frames", "shared", "waits", "queue"}, causes)
        for one in variants:
            breach = read_sides(one.answer).breach
            with self.subTest(one.edits):
                self.assertIn(one.last_capability(Means.program), breach.capabilities) if breach.capabilities else self.assertEqual(breach.cause, "queue")


class Reported(unittest.TestCase):
    """Ties, found from reports."""

    def test_ties_are_those_of_the_capabilities_of_the_report(self) -> None:
        with tempfile.TemporaryDirectory() as folder:
            for seed in range(Means.random):
                with self.subTest(seed):
                    self.assertIsNone(differing_of(seed, Means.program, Means.nova, Path(folder)))


class Refused(unittest.TestCase):
    """Policies and words that are refused."""

    def ends(self, words: list[str], status: int, said: str | None) -> None:
        """A call ends so, with one line on standard error, and writes nothing else."""
        done = subprocess.run([str(Means.program), *words], cwd=TOP, capture_output=True, text=True, check=False)
        self.assertEqual((done.returncode, done.stdout, done.stderr.count("\n")), (status, "", 1))
        if said is not None:
            self.assertEqual(done.stderr, f"nova_policy: policy{said}\n")

    def test_policies_are_refused_with_line_and_cause(self) -> None:
        with tempfile.TemporaryDirectory() as folder:
            file = Path(folder, "refused.policy")
            for text, said in REFUSED:
                with self.subTest(said):
                    file.write_text(text)
                    self.ends(["examples/policy/tenants.nova", "--policy", str(file)], 7, f" {said}")
            file.write_text("#" * (1 << 20) + "\n")
            self.ends(["examples/policy/tenants.nova", "--policy", str(file)], 7, ": too long")

    def test_words_are_refused(self) -> None:
        for words, status in WRONG:
            with self.subTest(words):
                self.ends(words, status, None)


class Read(unittest.TestCase):
    """What is no answer isn't read."""

    def test_an_answer_is_read_with_its_ties_or_refused(self) -> None:
        told = read_sides("turn 3\nbreach a:5 trusted:0 domain cap 9 strict\nfrom 9 - 0 obj 0 0 1 0\ntrusted: 0\nside a: 5\nflows a:5 4:4 frames cap 9 cap 11 rights 3 1\nmemory a:5 4:4 frames cap 12 cap 13 rights 5 0\nprocessor 0: a 4\nprocessor 1:\ntie a:5 4:4 queue ec 1 ec 2\nflow a own 0 1 at work until turn 9: ec 2 gives, revokes within from turn 7\nflow 4 IsGuarded.memory cap 9 target 2\n")
        self.assertEqual((told.turn, told.breach.strict, told.links[0].parent, told.sides, told.ties[0].text), (3, True, None, {"a": (5,)}, "queue ec 1 ec 2"))
        self.assertEqual((told.processors, [(one.tie.text, one.rights) for one in (*told.flows, *told.memory)]), ([("a", "4"), ()], [("frames cap 9 cap 11", (3, 1)), ("frames cap 12 cap 13", (5, 0))]))
        for text in ("", "turn x\n", "turn 3\n", "turn 3\napart", "turn 3\napart\nhello\n", "turn 3\napart\nprocessor 1: a\n", "turn 3\nbreach a:5 b:6 portal ec 3\n", "turn 3\napart\ntie a:5 portal cap 3\n", "turn 3\napart\nflows a:5 b:6 portal cap 3 rights 3 1\n", "turn 3\napart\nflows a:5 trusted:0 frames cap 3 cap 4 rights 3 1\n", "turn 3\napart\nflows a:5 b:6 frames cap 3 cap 4\n", "turn 3\napart\nflows a:5 b:6 frames cap 3 cap 4 rights 1 3\n", "turn 3\napart\nmemory a:5 b:6 frames cap 3 cap 4 rights 1 3\n", "turn 3\napart\nmemory a:5 a:6 frames cap 3 cap 4 rights 1 1\n", "turn 3\napart\nflow a\n", "turn 3\napart\nflow a own 0\n", "turn 3\napart\nflow a own 0 at work until turn 9: ec 2 revokes\n", "turn 3\napart\nflow a own 0 at work to the end, revokes\n"):
            with self.subTest(text), self.assertRaises(Fault):
                read_sides(text)


def main(words: list[str]) -> int:
    """Runs the tests that are named, or all. The status is 1 where one fails."""
    parser = argparse.ArgumentParser(prog="policy/tests", description="Tries kept answers, random capabilities, and policies that are refused.")
    parser.add_argument("--program", type=Path, metavar="FILE", help="the program that is tried (nova_policy of the repository)")
    parser.add_argument("--nova", type=Path, metavar="FILE", help="what makes reports (nova of the repository)")
    parser.add_argument("--random", type=int, default=RANDOM, metavar="N", help=f"how many random capabilities ({RANDOM})")
    parser.add_argument("--write", action="store_true", help="write the kept answers anew, and try nothing")
    parser.add_argument("names", nargs="*", metavar="NAME", help="the tests to run")
    given = parser.parse_args(words)
    Means.program = (given.program or find("nova_policy")).resolve()
    Means.random = given.random
    if given.write:
        questions, remarks = read_kept(ANSWERS.read_text())
        ANSWERS.write_text(text_of([asked(Means.program, one).kept(one) for one in questions], remarks))
        for one in (one for one in questions if one.whole):
            (TOP / one.whole).write_text(asked(Means.program, one).text)
        return 0
    Means.nova = (given.nova or find("nova")).resolve()
    return 0 if unittest.main(argv=["tests", *given.names], exit=False).result.wasSuccessful() else 1


if __name__ == "__main__":
    sys.exit(ended("policy/tests", lambda: main(sys.argv[1:])))
