"""What refuses from outside, and what the program makes of it.

python3 tools/refusals texts [--count N] [--first SEED] [--keep FOLDER]
python3 tools/refusals texts --show SEED
python3 tools/refusals calls
"""

from __future__ import annotations

import argparse
import os
import sys
import tempfile
from pathlib import Path

import calls
import texts
from runner import Runner

TOP = Path(__file__).resolve().parents[2]
sys.path.append(str(TOP / "tools" / "build"))

from built import ended, find  # noqa: E402

# How many texts there are, and how long each run may take.
COUNT, SECONDS = 2000, 20.0


def parser() -> argparse.ArgumentParser:
    """The words that the program takes."""
    words = argparse.ArgumentParser(prog="refusals", description="Refuses the program what it reads, writes and takes, and looks at how it ends.")
    words.add_argument("--program", metavar="FILE", help="the program (nova of the repository)")
    words.add_argument("--seconds", type=float, default=SECONDS, metavar="S", help=f"how long a run may take ({SECONDS})")
    which = words.add_subparsers(dest="which", required=True)
    which.add_parser("calls", help="refuse each call to the C library once")
    of_texts = which.add_parser("texts", help="run random and changed texts")
    of_texts.add_argument("--count", type=int, default=COUNT, metavar="N", help=f"so many texts ({COUNT})")
    of_texts.add_argument("--first", type=int, default=1, metavar="SEED", help="the seed of the first of them; each next one is one more (1)")
    of_texts.add_argument("--keep", type=Path, metavar="FOLDER", help="keep the texts of runs that went wrong in this folder")
    of_texts.add_argument("--show", type=int, metavar="SEED", help="write the texts of a seed, and run nothing")
    return words


def show(seed: int) -> int:
    """Writes the texts of a seed."""
    case = texts.case_of(seed, texts.examples())
    sys.stdout.buffer.write(case.scenario)
    if case.order is not None:
        sys.stdout.buffer.write(b"\n--\n" + case.order)
    return 0


def tell(counts: dict[str, int], wrong: list[str]) -> int:
    """Writes what went wrong, and a line of counts. The status is 1 where something did, or nothing was run."""
    for one in wrong:
        print(one, file=sys.stderr)
    if not counts:
        print("refusals: nothing was run", file=sys.stderr)
    print(", ".join(f"{what} {count}" for what, count in sorted(counts.items())), f"; {len(wrong)} went wrong", sep="")
    return 1 if wrong or not counts else 0


def main(words: argparse.Namespace) -> int:
    """Does what the words say."""
    if words.which == "texts" and words.show is not None:
        return show(words.show)
    program = words.program or str(find("nova"))
    with tempfile.TemporaryDirectory() as name:
        folder = Path(name)
        runner = Runner(os.path.abspath(program), folder, words.seconds)
        if words.which == "texts":
            seen = texts.look(runner, folder, range(words.first, words.first + words.count), words.keep)
            return tell(seen.endings, [f"seed {seed}: {said}" for seed, said in seen.wrong.items()])
        os.chdir(TOP)
        tally = calls.Tally()
        refuser = calls.Refuser(runner, folder)
        for command in calls.commands():
            calls.refuse_each(refuser, command, tally)
        return tell(tally.seen, tally.wrong)


if __name__ == "__main__":
    sys.exit(ended("refusals", lambda: main(parser().parse_args())))
