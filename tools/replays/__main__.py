"""Runs scenarios by threads, and takes the turns of each run's order again by one: the report must be the same.

python3 tools/replays [--count N] [--first SEED] [--times N] [--limit N] [--seconds N] [--program FILE] [--keep FOLDER] [FOLDER]
python3 tools/replays --show SEED
"""

from __future__ import annotations

import argparse
import os
import sys
import tempfile
from collections import Counter
from collections.abc import Iterator
from concurrent.futures import ThreadPoolExecutor
from functools import partial
from pathlib import Path

from replay import Replay, Verdict, not_by_threads, processors_of, replay
from scenarios import random_scenario

TOP = Path(__file__).resolve().parents[2]
sys.path.append(str(TOP / "tools" / "build"))

from built import Missing, ended, find  # noqa: E402

# How many random scenarios there are, how many turns each may take, and how many seconds a command.
COUNT, LIMIT, SECONDS = 100, 5000, 120


def parser() -> argparse.ArgumentParser:
    """The words that the program takes."""
    words = argparse.ArgumentParser(prog="replays", description="Takes the turns of runs by threads again by one.")
    words.add_argument("folder", nargs="?", type=Path, metavar="FOLDER", help="run the scenarios of this folder, and no random ones")
    words.add_argument("--count", type=int, default=COUNT, metavar="N", help=f"so many random scenarios ({COUNT})")
    words.add_argument("--first", type=int, default=1, metavar="SEED", help="the seed of the first of them; each next one is one more (1)")
    words.add_argument("--times", type=int, default=1, metavar="N", help="run each scenario so many times (1)")
    words.add_argument("--limit", type=int, default=LIMIT, metavar="N", help=f"how many turns a run may take ({LIMIT})")
    words.add_argument("--seconds", type=int, default=SECONDS, metavar="N", help=f"how many seconds a command may take ({SECONDS})")
    words.add_argument("--program", metavar="FILE", help="the program (nova of the repository)")
    words.add_argument("--keep", type=Path, metavar="FOLDER", help="keep scenarios and orders in this folder")
    words.add_argument("--show", type=int, metavar="SEED", help="write the scenario of a seed, and run nothing")
    return words


def scenarios(words: argparse.Namespace, work: Path) -> Iterator[Path]:
    """The scenarios: those of the folder, or random ones, which are written."""
    if words.folder is not None:
        yield from sorted(words.folder.glob("*.nova"))
        return
    for seed in range(words.first, words.first + words.count):
        path = work / f"{seed}.nova"
        path.write_text(random_scenario(seed), "ascii")
        yield path


def told(seen: list[tuple[Path, Replay]]) -> bool:
    """Writes the differences, one line of counts and, where the runs can't have been by threads, why; and tells whether all is well."""
    for path, one in seen:
        if one.verdict is Verdict.DIFFERENT:
            print(f"different: {path.stem}: {one.said}", file=sys.stderr)
    verdicts = Counter(one.verdict for _, one in seen)
    several = sum(one.blocks > 1 for _, one in seen)
    most = max((one.blocks for _, one in seen), default=0)
    print(", ".join(f"{verdicts[verdict]} {verdict.value}" for verdict in Verdict), end="; ")
    print(f"{several} orders of several blocks, at most {most}; {sum(one.turns for _, one in seen)} turns")
    if not seen:
        print("replays: nothing was run", file=sys.stderr)
    amiss = not_by_threads((processors_of(path.read_text("ascii", "replace")), one) for path, one in seen)
    if amiss:
        print(f"not by threads: {amiss}", file=sys.stderr)
    return bool(seen) and not verdicts[Verdict.DIFFERENT] and not amiss


def main(words: argparse.Namespace) -> int:
    """Does what the words say; the status is 1 where something differs, nothing was run, or nothing by threads."""
    if words.show is not None:
        print(random_scenario(words.show), end="")
        return 0
    if words.folder is not None and not any(words.folder.glob("*.nova")):
        raise Missing(f"{words.folder}: {'no scenario is there' if words.folder.is_dir() else 'there is no such folder'}")
    return replay_all(words, words.program or str(find("nova")))


def replay_all(words: argparse.Namespace, program: str) -> int:
    """Runs the scenarios, and takes their orders again."""
    with tempfile.TemporaryDirectory() as folder:
        work = words.keep or Path(folder)
        work.mkdir(parents=True, exist_ok=True)
        with ThreadPoolExecutor(os.cpu_count()) as workers:
            runs = [(path, number) for path in scenarios(words, work) for number in range(1, words.times + 1)]
            paths = [path for path, _ in runs]
            orders = [work / (f"{path.stem}.{number}.order" if number > 1 else f"{path.stem}.order") for path, number in runs]
            for order in orders:
                order.unlink(missing_ok=True)
            replayed = partial(replay, program, limit=words.limit, seconds=words.seconds)
            seen = list(workers.map(replayed, paths, orders))
        return 0 if told(list(zip(paths, seen))) else 1


if __name__ == "__main__":
    sys.exit(ended("replays", lambda: main(parser().parse_args())))
