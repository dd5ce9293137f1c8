"""Proves and builds a program, and shows how far it is.

  python3 tools/build [--plan] [CRATE] [-- WORD..]
  python3 tools/build --built [CRATE]
  python3 tools/build --above CRATE..

proves each crate that CRATE (nova, if none is named) stands on, and then makes CRATE and runs it with the words. A line tells of each
crate that is proved, how many there are, how long that took, and how long the rest may take. What was built of the same sources by the same
kit is used again, by checksums: the times of files mean nothing. With --plan nothing is built: it says what would be, how long that takes, and
the room on disk. --built says by its status, 0 or 1, whether CRATE is built of the sources that are here. --above says what a change of each
crate proves again: how many crates, itself among them, and the minutes of their proofs by one job; of a single one also which. Nothing is
built.

Crates are proved side by side, each as soon as those below it are proved. Those with nearly the longest way to the top go before the others, by
as many jobs as pay. How long it takes yet is reckoned from costs.txt, which has each crate's seconds by one job, and from how fast this machine was so
far.

Ended by a signal, it ends what it began. A second one in the same tree waits for the first.
"""

from __future__ import annotations

import concurrent.futures
import contextlib
import fcntl
import shutil
import signal
import sys
import tempfile
import textwrap
import time
from collections.abc import Iterator
from pathlib import Path

from built import TOP, WORKERS, State, crates, ended, is_release, path_of, record, schedule, state_of
from children import Children, Ended
from kit import NoKit, folder, proved
from schedule import BESIDE, Schedule, Start, above, costs, seconds_by
from trees import copy_of_sources, hand_on

# A crate that takes no more seconds was kept, and tells nothing of how fast the machine is.
KEPT = 4
# After so many seconds without a line there is one.
SILENCE = 60
# What the libraries below a program take on disk, in bytes for each second of cost: 2,409 seconds of nova's take some 9 GB.
ROOM = 3_800_000


def say(text: str) -> None:
    """A line on standard error."""
    print(f"nova: {text}", file=sys.stderr, flush=True)


class Builder:
    """The building of one program: what is proved, what is being proved since when, and how fast this machine is."""

    def __init__(self, plan: Schedule, done: set[str]) -> None:
        self.plan = plan
        self.proved = done
        self.children = Children()
        self._begun: dict[str, float] = {}
        self._starts: dict[str, Start] = {}
        self._anew: dict[str, float] = {}
        self._trees: list[Path] = []

    def minutes_left(self) -> int:
        """How many minutes all that is left may take."""
        now = time.monotonic()
        spent = {crate: now - begun for crate, begun in self._begun.items()}
        pace = self._pace(spent)
        running = {crate: max(0.0, self._wanted(crate) * pace - seconds) for crate, seconds in spent.items()}
        return self.plan.minutes_left(self.proved, running, pace)

    def _wanted(self, crate: str) -> float:
        """The seconds of a crate that is begun, or was, by its jobs and at a pace of 1."""
        return seconds_by(self._starts[crate].jobs, self.plan.cost[crate])

    def _pace(self, running: dict[str, float]) -> float:
        """How many seconds this machine takes for one of cost. What runs for longer than it should counts as well."""
        late = {crate: spent for crate, spent in running.items() if spent > self._wanted(crate)}
        seen = self._anew | late
        return sum(seen.values()) / sum(map(self._wanted, seen)) if seen else 1.0

    def prove(self, crate: str) -> tuple[int, str]:
        """Proves a crate in a tree that nobody uses. The answer is rt's status and what it wrote."""
        tree = self._trees.pop()
        for other in [*self.plan.below[crate], crate]:
            hand_on(other, TOP, tree)
        start = self._starts[crate]
        status, said = self.children.run(["rt", "lib", "--jobs", str(start.jobs)], tree / "crates" / crate, behind=not start.is_near)
        if status == 0:
            hand_on(crate, tree, TOP)
        self._trees.append(tree)
        return status, said

    def make(self) -> tuple[int, str]:
        """Proves and compiles the program itself."""
        return self.children.run(["rt", "run", "--", *self.words], TOP / "crates" / self.plan.program)

    def build(self, words: list[str]) -> int:
        """Builds what is left, the program last, which is run with the words. The answer is a status."""
        self.words = words
        left = [crate for crate in self.plan.below if crate not in self.proved]
        out = path_of(self.plan.program).parent
        out.mkdir(parents=True, exist_ok=True)
        with tempfile.TemporaryDirectory(prefix="trees-", dir=out) as room, concurrent.futures.ThreadPoolExecutor(WORKERS + BESIDE) as pool:
            self._trees = [copy_of_sources(room) for _ in range(min(WORKERS + BESIDE, len(left) - 1))]
            try:
                return self._build(left, pool)
            except BaseException:
                self.children.stop()
                raise

    def _build(self, left: list[str], pool: concurrent.futures.Executor) -> int:
        running: dict[concurrent.futures.Future[tuple[int, str]], str] = {}
        while left or running:
            for crate, start in self.plan.next(left, self.proved, list(running.values())).items():
                left.remove(crate)
                self._begun[crate], self._starts[crate] = time.monotonic(), start
                running[pool.submit(*((self.make,) if crate == self.plan.program else (self.prove, crate)))] = crate
            done = concurrent.futures.wait(running, SILENCE, concurrent.futures.FIRST_COMPLETED).done
            if not done:
                say(f"still {', '.join(running.values())}; some {self.minutes_left()} minutes left")
            for future in done:
                status, said = future.result()
                if not self._is_done(running.pop(future), status, said):
                    self.children.stop()
                    return status
        return 0

    def _is_done(self, crate: str, status: int, said: str) -> bool:
        """Tells of a crate that is proved, or that isn't."""
        seconds = time.monotonic() - self._begun.pop(crate)
        if status != 0:
            print(said, end="", file=sys.stderr)
            say(f"{crate} was not built")
            return False
        self.proved.add(crate)
        if seconds > KEPT:
            self._anew[crate] = seconds
        left = f"; some {self.minutes_left()} minutes left" if crate != self.plan.program else ""
        say(f"{len(self.proved)} of {len(self.plan.below)}: {crate}, {seconds:.0f} s{left}")
        return True


def begun(program: str) -> Builder:
    """A builder of a program, who knows what is built already."""
    plan = schedule(program)
    below = plan.below[program]
    return Builder(plan, proved(below))


def needs(builder: Builder) -> str:
    """What is to be built, how long that takes, and the room on disk."""
    left = [crate for crate in builder.plan.below if crate not in builder.proved]
    gigabytes = sum(builder.plan.cost[crate] for crate in left) * ROOM / 1e9
    free = shutil.disk_usage(TOP).free / 1e9
    told = f"{len(left)} of {len(builder.plan.below)} crates are to be proved: some {builder.minutes_left()} minutes on four idle cores"
    return f"{told}; {gigabytes:.1f} GB on disk, where {free:.1f} GB are free{' (which may not do)' if free < gigabytes else ''}"


def say_above(changed: list[str]) -> int:
    """Writes how much a change of each of these crates proves again, of a single one also which. The answer is a status: 2 where a crate isn't there, or none is named."""
    named, seconds = crates(), costs()
    unknown = [crate for crate in changed if crate not in named]
    if unknown or not changed:
        print(f"build: no crate is named so: {' '.join(unknown)}" if unknown else "build: --above wants the name of a crate", file=sys.stderr)
        return 2
    for crate in changed:
        again = above(crate, named)
        minutes = sum(seconds.get(other, 0) for other in again) / 60
        print(f"{crate:<13} {len(again):>2} crates, {minutes:>2.0f} minutes")
    if len(changed) == 1:
        print(textwrap.fill(" ".join(again), 120, initial_indent="  ", subsequent_indent="  "))
    return 0


@contextlib.contextmanager
def alone() -> Iterator[None]:
    """Waits until no other builder is at work in this tree."""
    (TOP / "out").mkdir(exist_ok=True)
    with (TOP / "out" / "building").open("w") as lock:
        try:
            fcntl.flock(lock, fcntl.LOCK_EX | fcntl.LOCK_NB)
        except BlockingIOError:
            say("another build of this tree is at work: waiting for it")
            fcntl.flock(lock, fcntl.LOCK_EX)
        yield


def end_on(*numbers: signal.Signals) -> None:
    """Has these signals end the builder in order, also where what began it has them ignored."""

    def end(number: int, _: object) -> None:
        say("ended by a signal: what is proved is kept")
        raise SystemExit(128 + number)

    for number in numbers:
        signal.signal(number, end)


def build(program: str, words: list[str]) -> int:
    """Builds a program, and runs it with the words."""
    with alone():
        builder = begun(program)
        say(needs(builder))
        status = builder.build(words)
        if status == 0:
            record(program)
    return status


def main(words: list[str]) -> int:
    """Does what the words say. The status is that of rt where something isn't built, 2 for wrong words, and 3 where there is no kit."""
    cut = words.index("--") if "--" in words else len(words)
    options = {word for word in words[:cut] if word.startswith("-")}
    named = [word for word in words[:cut] if not word.startswith("-")]
    if options == {"--above"} and not is_release():
        return say_above(named)
    program = named[0] if named else "nova"
    if is_release() and not options & {"-h", "--help"}:
        print("build: a release has no sources, so nothing is to be built: its programs are in bin/", file=sys.stderr)
        return 2
    if options - {"--plan", "--built"} or len(named) > 1 or not (TOP / "crates" / program / "src" / "main.rt").is_file():
        print(__doc__.strip() if options & {"-h", "--help"} else f"build: no program is named so: {' '.join(words[:cut])}", file=sys.stderr)
        return 0 if options & {"-h", "--help"} else 2
    if "--built" in options:
        return 0 if state_of(program) is State.BUILT else 1
    end_on(signal.SIGTERM, signal.SIGHUP, signal.SIGINT)
    try:
        folder()
        if "--plan" in options:
            print(needs(begun(program)))
            return 0
        return build(program, words[cut + 1 :])
    except NoKit as why:
        say(str(why))
        return 3
    except (KeyboardInterrupt, Ended):
        say("interrupted: what is proved is kept")
        return 130


if __name__ == "__main__":
    sys.exit(ended("build", lambda: main(sys.argv[1:])))
