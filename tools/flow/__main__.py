"""Two runs in which one side is the same: does its part of the reports stay the same?

python3 tools/flow [--walled | --revokes | --creates | --shared | --leak NAME | --leaks] [--program FILE] [--count N] [--first SEED] [--turns N] [--keep FOLDER]
"""

from __future__ import annotations

import argparse
import random
import subprocess
import sys
import tempfile
from dataclasses import dataclass
from pathlib import Path

sys.path.insert(0, str(Path(__file__).resolve().parent))
from creators import Creator  # noqa: E402
from leaks import LEAKS  # noqa: E402
from parts import difference, free_part, own_turns, part  # noqa: E402
from premises import Allowed, at_work, broken, creating_alone, made_by_others, revoking_within  # noqa: E402
from scenarios import Attacker, Free, Reviser, SetUp, Worker  # noqa: E402

Blocks = list[list[int]]  # a processor and how many turns it has, in order
MADE = [[0, 400], [1, 400], [2, 330]]  # by then the root has made both sides and ended; the second side has just begun
MADE_OTHERWISE = [[0, 400], [2, 330], [1, 400]]
MADE_BETWEEN = [[0, 400], [1, 120], [2, 330], [1, 280]]  # so that ranges have other numbers


def text_of(blocks: Blocks) -> str:
    return "".join(f"{cpu} {count}\n" for cpu, count in blocks)


def orders(seed: object, made: Blocks, turns: int) -> Blocks:
    """The sides are made first; then processor 1 has so many turns, at random between those of others."""
    rng = random.Random(f"order {seed}")
    blocks, left = [list(block) for block in made], turns
    while left:
        cpu, count = rng.choice([0, 1, 1, 2, 2, 2]), rng.choice([1, 1, 2, 3, 10, 40])
        if cpu == 1:
            count = min(count, left)
            left -= count
        if blocks[-1][0] == cpu:
            blocks[-1][1] += count
        else:
            blocks.append([cpu, count])
    return blocks


class Trouble(Exception):
    """Why nothing can be said of the runs."""


class Program:
    """Runs scenarios, whose files it keeps in a folder."""

    def __init__(self, program: str, folder: Path) -> None:
        self.program, self.folder = program, folder

    def report(self, name: str, scenario: str, blocks: Blocks) -> str:
        paths = [self.folder / f"{name}.nova", self.folder / f"{name}.order"]
        paths[0].write_text(scenario)
        paths[1].write_text(text_of(blocks))
        try:
            done = subprocess.run([self.program, "solo", *paths], capture_output=True, text=True, timeout=120)
        except OSError as error:
            raise Trouble(f"{self.program}: {error.strerror}") from error
        except subprocess.TimeoutExpired as error:
            raise Trouble(f"{self.program}: {name} takes longer than {error.timeout:.0f} seconds") from error
        if done.returncode not in (0, 7):
            raise Trouble(f"{self.program}: {name}: status {done.returncode}, {done.stderr.strip()}")
        if not done.stdout.startswith("run "):
            raise Trouble(f"{self.program}: {name}: what it writes is no report")
        return done.stdout


def free_pair(program: Program, seed: int, turns: int) -> tuple[str | None, int]:
    """How two runs differ in a side that does everything, but for numbers, and how many events it has."""
    parts = []
    for other in (0, 1):
        sides = [Free(0, seed), Free(1, f"{seed} {other}")]
        made = [[0, 400], [2, 400], [1, 400]]
        parts.append(free_part(program.report(f"free.{seed}.{other}", SetUp().text(sides), orders(f"{seed} {other}", made, turns))))
    return difference(*parts), len(parts[0][0])


def cut(blocks: Blocks, turns: int) -> Blocks:
    """The first so many turns of these."""
    first: Blocks = []
    for cpu, count in blocks:
        if turns > 0:
            first.append([cpu, min(count, turns)])
        turns -= count
    return first


def with_turns(program: Program, name: str, scenario: str, blocks: Blocks, since: int, count: int) -> str:
    """The report after the least number of turns in which the side has had so many of its own."""
    low, high = since, sum(count for _, count in blocks)
    while high - low > 1:
        middle = (low + high) // 2
        if own_turns(program.report(name, scenario, cut(blocks, middle)), since) < count:
            low = middle
        else:
            high = middle
    return program.report(name, scenario, cut(blocks, high))


@dataclass(frozen=True)
class Pair:
    """Two scenarios, and for each where the runs are compared; what the side may do, and whether it shares its processor."""

    name: str
    scenarios: list[str]
    places: list[Blocks]
    allowed: Allowed = Allowed()
    shared: bool = False

    def reports(self, program: Program, turns: int) -> tuple[list[str], list[str]]:
        """At the places, and after so many turns of the side's processor more, or with equally many turns of its own."""
        blocks = [orders(f"{self.name} {n}", self.places[n], turns) for n in (0, 1)]
        names = [f"{self.name}.{n}" for n in (0, 1)]
        places = [program.report(f"{names[n]}.place", self.scenarios[n], self.places[n]) for n in (0, 1)]
        ends = [program.report(names[n], self.scenarios[n], blocks[n]) for n in (0, 1)]
        if self.shared:
            counts = [own_turns(ends[n], self.since(n)) for n in (0, 1)]
            if min(counts) == own_turns(places[0], self.since(0)):
                return places, places
            more = 0 if counts[0] > counts[1] else 1
            ends[more] = with_turns(program, names[more], self.scenarios[more], blocks[more], self.since(more), min(counts))
        return places, ends

    def since(self, n: int) -> int:
        return sum(count for _, count in self.places[n])


def compared(program: Program, pair: Pair, turns: int) -> tuple[set[str], str | None, int]:
    """Which premises fail at the places and from there on, how the side's parts differ at the ends, and how many events are compared. At the places the parts are to be the same."""
    places, ends = pair.reports(program, turns)
    allowed, begins = pair.allowed, [part(place, pair.since(n)) for n, place in enumerate(places)]
    apart = difference(*begins)
    if apart:
        raise Trouble(f"{pair.name}: the sides differ where they are to be compared: {apart}")
    first, second = [part(end, pair.since(n), allowed.creates, pair.shared) for n, end in enumerate(ends)]
    premises = broken(places[0], allowed.creates) | broken(places[1], allowed.creates) | at_work(first[0], allowed)
    if allowed.revokes:
        premises |= revoking_within(places)
    if allowed.creates:
        premises |= at_work(second[0], allowed) | creating_alone(pair.scenarios, places)
        premises |= made_by_others(ends[0], pair.since(0)) | made_by_others(ends[1], pair.since(1))
    return premises, difference(first, second), len(first[0])


def walled_pair(seed: int, allowed: Allowed, shared: bool) -> Pair:
    """A side at work on a processor of its own, or that it shares, beside one that tries everything.

    Its processor's source rings at its semaphore, where it may have deadlines, at the other side's or at the root's.
    """
    scenarios = []
    for other in (0, 1):
        first, second = random.Random(f"source {seed}"), random.Random(f"source {seed} {other}")
        sources = (
            f"source 0 {second.choice([500, 900])} {second.choice([3, 70])} 1000000",
            f"source 1 {first.choice([300, 450, 500])} {first.choice([7, 40, 100] if allowed.creates else [1, 7, 40, 100])} 1000000",
            f"source 2 {second.choice([340, 500])} {second.choice([1, 2, 9, 50])} 1000000",
        )
        side = Creator(0, seed) if allowed.creates else Reviser(0, seed) if allowed.revokes else Worker(0, seed)
        rings = (("other", "other", "root", "root") if allowed.creates else ("own", "own", "other", "root"))[seed % 4]
        pays = second.choice([1, 2, 3, 5, 9]) << 8 | second.choice([2, 3, 3, 3, 3, 4]) if shared else 0
        scenarios.append(SetUp(walled=True, sources=sources, rings=rings, creates=allowed.creates, shared=pays).text([side, Attacker(1, f"{seed} {other}")]))
    return Pair(f"walled.{seed}", scenarios, [MADE, MADE_BETWEEN if seed % 2 and not shared else MADE], allowed, shared)


def tell_pairs(program: Program, allowed: Allowed | None, words: argparse.Namespace) -> bool:
    """Of pairs that meet the premises, where it is said what the side may do, or of sides that do everything."""
    same = different = events = 0
    for seed in range(words.first, words.first + words.count):
        if allowed:
            premises, differs, more = compared(program, walled_pair(seed, allowed, words.shared), words.turns)
            if premises:
                print(f"{seed}: these premises fail: {', '.join(sorted(premises))}")
                return False
        else:
            differs, more = free_pair(program, seed, words.turns)
        events += more
        same, different = same + (differs is None), different + (differs is not None)
        if differs:
            print(f"{seed}: {differs}")
    print(f"same {same} different {different} events {events}")
    return different == 0


def tell_leak(program: Program, name: str, turns: int) -> bool:
    """Whether the premises that are to fail, and they alone, do, and the side differs."""
    leak = LEAKS[name]
    made = MADE if leak.first == 1 else MADE_OTHERWISE
    premises, differs, _ = compared(program, Pair(f"leak.{name}", leak.pair(name), [made, made], leak.allowed, any(leak.shared)), turns)
    print(f"{name}: {leak.tells}\n  without {', '.join(sorted(premises)) or 'nothing'}\n  {differs or 'no difference'}")
    return premises == leak.breaks and differs is not None


def tell(words: argparse.Namespace, program: Program) -> int:
    if words.leak or words.leaks:
        right = [tell_leak(program, name, words.turns) for name in ([words.leak] if words.leak else LEAKS)]
    else:
        creates = words.creates or words.shared
        allowed = Allowed(words.revokes or creates, creates) if words.walled or words.revokes or creates else None
        right = [tell_pairs(program, allowed, words)]
    return 0 if all(right) else 1


def main() -> int:
    parser = argparse.ArgumentParser(prog="tools/flow")
    parser.add_argument("--program", default="./nova")
    parser.add_argument("--count", type=int, default=50)
    parser.add_argument("--first", type=int, default=0)
    parser.add_argument("--turns", type=int, default=1500, help="of processor 1, after the sides are made")
    parser.add_argument("--keep", type=Path, help="a folder for the scenarios and orders")
    what = parser.add_mutually_exclusive_group()
    what.add_argument("--walled", action="store_true", help="pairs that meet the premises of the law on divided processors")
    what.add_argument("--revokes", action="store_true", help="such pairs, in which the side revokes, too")
    what.add_argument("--creates", action="store_true", help="pairs that meet those of a side that creates alone, and revokes, too")
    what.add_argument("--shared", action="store_true", help="so, on a processor that the sides share")
    what.add_argument("--leak", choices=sorted(LEAKS), help="a pair that meets all premises but those of this leak")
    what.add_argument("--leaks", action="store_true", help="each of these")
    words = parser.parse_args()
    with tempfile.TemporaryDirectory() as folder:
        if words.keep:
            words.keep.mkdir(parents=True, exist_ok=True)
        try:
            return tell(words, Program(words.program, words.keep or Path(folder)))
        except Trouble as why:
            print(f"tools/flow: {why}", file=sys.stderr)
            return 2


if __name__ == "__main__":
    sys.exit(main())
