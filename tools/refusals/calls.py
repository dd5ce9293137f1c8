"""Refuses each call of a run to the C library once: memory, threads, and what reads and writes files."""

from __future__ import annotations

import os
import subprocess
from collections import Counter
from dataclasses import dataclass, field
from pathlib import Path

from runner import Ending, Runner

HERE = Path(__file__).resolve().parent
TOP = HERE.parents[1]

# The kinds of calls that are refused, as refuse.c names them.
KINDS = ("memory", "thread", "open", "move", "read", "write")

# Those whose refusal is no fault of a file.
OF_ALL = ("memory", "thread")

# Of a scenario that is longer not every read and write of one byte is refused.
SHORT = 600


@dataclass(frozen=True, slots=True)
class Command:
    """A command, with ORDER for the name of the order that it appends to; whether each read and write has one byte; and which kinds of calls are refused."""

    words: tuple[str, ...]
    bytewise: bool = False
    kinds: tuple[str, ...] = KINDS


@dataclass(frozen=True, slots=True)
class Outcome:
    """How a command ended, and what it appended to its order."""

    ending: Ending
    order: bytes


@dataclass(frozen=True, slots=True)
class Whole:
    """A command to which nothing was refused: its outcome, and how many calls of each kind it made."""

    outcome: Outcome
    made: dict[str, int]


@dataclass(slots=True)
class Tally:
    """How many refusals of each kind came to what, and those that went wrong."""

    seen: Counter[str] = field(default_factory=Counter)
    wrong: list[str] = field(default_factory=list)


def compiled(folder: Path) -> Path:
    """The object that refuses calls, compiled into a folder."""
    made = folder / "refuse.so"
    compiler = os.environ.get("CC", "cc")
    subprocess.run([compiler, "-O2", "-shared", "-fPIC", "-o", str(made), str(HERE / "refuse.c")], check=True)
    return made


class Refuser:
    """Runs commands with one of their calls refused."""

    def __init__(self, runner: Runner, folder: Path) -> None:
        self.runner, self.object = runner, compiled(folder)
        self.order, self.counted = folder / "order", folder / "counted"

    def outcome(self, command: Command, kind: str = "", number: int = 0) -> Outcome:
        """What comes of a command where the call of this kind and number is refused."""
        self.order.unlink(missing_ok=True)
        words = [str(self.order) if word == "ORDER" else word for word in command.words]
        environment = {"LD_PRELOAD": str(self.object), "COUNTED": str(self.counted)}
        if kind:
            environment["REFUSE"] = f"{kind} {number}"
        if command.bytewise:
            environment["SHORT"] = "1"
        ending = self.runner.ending(words, environment)
        return Outcome(ending, self.order.read_bytes() if self.order.exists() else b"")

    def is_replayed(self, command: Command, outcome: Outcome) -> bool:
        """Whether the order that a run appended gives the same ending by `solo`."""
        return command.words[0] == "run" and self.runner.ending(["solo", command.words[1], str(self.order)]) == outcome.ending

    def whole(self, command: Command) -> Whole:
        """What comes of it where nothing is refused."""
        outcome = self.outcome(command)
        counts = [line.split() for line in self.counted.read_text("ascii").splitlines()]
        return Whole(outcome, {kind: int(count) for kind, count in counts})


def faulted(whole: Whole, command: Command, kind: str, number: int) -> Outcome:
    """What is to come of a command whose call of this kind and number, one of those that read and write, is refused."""
    fetches = whole.made["read"]
    if kind in ("move", "read") or (kind == "open" and number <= fetches):
        return Outcome(Ending(3, b"", b"nova: read fault\n"), b"")
    # The writes are those to the order, each of which has an `open` too, and then those to standard output.
    before = number - 1 - (fetches if kind == "open" else 0)
    order, out = whole.outcome.order, whole.outcome.ending.out
    if command.bytewise:
        order, out = order[:before], out[: max(0, before - len(order))]
    else:
        order, out = order if before else b"", b""
    return Outcome(Ending(6, out, b"nova: write fault\n"), order)


# What may come of a refusal of memory, and of a thread: nothing is out.
NO_MEMORY = Outcome(Ending(8, b"", b"nova: out of memory\n"), b"")
# Where a call that reads or writes takes memory in the runtime, want of it is that call's fault.
NO_FETCH = Outcome(Ending(3, b"", b"nova: read fault\n"), b"")
NO_WRITE = Outcome(Ending(6, b"", b"nova: write fault\n"), b"")


def said(whole: Whole, command: Command, kind: str, number: int, outcome: Outcome) -> str:
    """What a refusal came to, in a word; nothing where it went wrong."""
    # A file that can't be moved where it is opened is read as a pipe is, from its first byte on.
    if kind == "move" and outcome == whole.outcome:
        return "full answer"
    if kind not in OF_ALL:
        return "fault" if outcome == faulted(whole, command, kind, number) else ""
    named = ((whole.outcome, "full answer"), (NO_MEMORY, "Memory"), (NO_FETCH, "ReadFault"), (NO_WRITE, "WriteFault"))
    return next((name for one, name in named if one == outcome), "")


def refuse_each(refuser: Refuser, command: Command, tally: Tally) -> None:
    """Refuses each call of a command once."""
    whole = refuser.whole(command)
    if whole.outcome.ending.status not in (0, 7):
        tally.wrong.append(f"{' '.join(command.words)}: {whole.outcome.ending.line!r} with nothing refused")
        return
    for kind in command.kinds:
        for number in range(1, whole.made[kind] + 1):
            outcome = refuser.outcome(command, kind, number)
            what = said(whole, command, kind, number, outcome)
            if not what and kind in OF_ALL and refuser.is_replayed(command, outcome):
                what = "full answer"
            tally.seen[f"{kind}: {what or 'wrong'}"] += 1
            if not what:
                tally.wrong.append(f"{' '.join(command.words)}: {kind} {number}: status {outcome.ending.status} {outcome.ending.line!r}")


def commands() -> list[Command]:
    """The commands: over each example, `check`, `solo` and `run`; a bench, and guests compared. Of a `run` to which many orders may come no file is refused."""
    found = [Command(("bench", "7")), Command(("bench", "7"), bytewise=True), Command(("twin", "examples/moved.twin"))]
    for path in sorted((TOP / "examples").glob("*.nova")):
        scenario, order = f"examples/{path.name}", path.with_suffix(".order")
        some = [("check", scenario), ("solo", scenario)]
        if order.exists():
            some.append(("solo", scenario, f"examples/{order.name}"))
        has_one_order = b"cpus 1\n" in path.read_bytes()
        if has_one_order:
            some.append(("run", scenario, "ORDER"))
        else:
            found.append(Command(("run", scenario, "ORDER"), kinds=OF_ALL))
        short = path.stat().st_size <= SHORT
        found += [Command(words, bytewise) for words in some for bytewise in ((False, True) if short else (False,))]
    return found
