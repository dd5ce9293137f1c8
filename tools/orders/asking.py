"""The command line."""

from __future__ import annotations

import argparse
import os
import re
from dataclasses import dataclass
from pathlib import Path
from typing import Any

from sending import DASK
from outcome import DEFAULT, PLAIN, SHOWN, Aspect, Sought, aspects_of
from reading import Parser, program_file

MOST_TURNS = 1_000_000
TURNS, CHANGES, SEED, LENGTHS, SEARCH = 1000, 3, 1, (1, 8), 2000


@dataclass(frozen=True, slots=True)
class Ask:
    """What was asked for. Of another command's words there is nothing."""

    command: str
    scenario: Path
    program: Path | None
    turns: int | None
    jobs: int
    progress: bool
    output: Path | None = None
    changes: int | None = None
    random: int = 0
    seed: int = 1
    weights: tuple[float, ...] = ()
    lengths: tuple[int, int] = LENGTHS
    aspects: tuple[Aspect, ...] = ()
    never: tuple[Sought, ...] = ()
    always: tuple[Sought, ...] = ()
    order: Path = Path()
    keep: Sought = Sought.of("")
    search: int = SEARCH
    stays: Path | None = None
    executor: str | None = None
    open: bool = False
    names: Path | None = None
    elf: tuple[Path, ...] = ()

    @staticmethod
    def of(words: argparse.Namespace) -> Ask:
        """What the words ask for."""
        given: dict[str, Any] = dict(vars(words))
        if words.command != "shrink" and words.changes is None and not words.random:
            given["changes"] = CHANGES
        for name, value in (("seed", SEED), ("lengths", LENGTHS), ("weights", ())):
            given[name] = value if given.get(name) is None else given[name]
        if words.command == "explore":
            chosen = words.by or [aspects_of(DEFAULT)]
            given["aspects"] = tuple(aspect for several in chosen for aspect in several)
            del given["by"]
            given["elf"] = tuple(words.elf)
        for name in ("never", "always"):
            if name in given:
                given[name] = tuple(given[name] or ())
        return Ask(**given)


def number(least: int, most: int | None = None) -> Any:
    """Reads a number that is not below `least` nor above `most`."""

    def read(text: str) -> int:
        value = int(text)
        if value < least or (most is not None and value > most):
            bounds = f"{least} or more" if most is None else f"from {least} to {most}"
            raise argparse.ArgumentTypeError(f"{value} is not {bounds}")
        return value

    read.__name__ = "number"
    return read


def lengths(text: str) -> tuple[int, int]:
    """Reads the lengths of blocks, `A-B` or `A`."""
    found = re.fullmatch(r"([1-9][0-9]*)(?:-([1-9][0-9]*))?", text)
    if found is None or int(found[2] or found[1]) < int(found[1]):
        raise argparse.ArgumentTypeError(f"{text!r} is not of the form A-B, with 1 <= A <= B")
    return int(found[1]), int(found[2] or found[1])


def weights(text: str) -> tuple[float, ...]:
    """Reads a weight for each processor."""
    try:
        found = tuple(float(word) for word in text.split(","))
    except ValueError:
        found = (0.0,)
    if not all(0 < weight < float("inf") for weight in found):
        raise argparse.ArgumentTypeError(f"{text!r} is not a positive number for each processor, with commas between")
    return found


def executor(text: str) -> str:
    """Reads where an executor is."""
    if not text.removeprefix(DASK) or not text.startswith(DASK):
        raise ValueError(f"{text!r} is not of the form dask:ADDRESS")
    return text


def refusing(read: Any) -> Any:
    """Reads as `read` does, and has argparse say what is wrong."""

    def checked(text: str) -> Any:
        try:
            return read(text)
        except ValueError as error:
            raise argparse.ArgumentTypeError(str(error)) from error

    return checked


def amiss(words: argparse.Namespace) -> str | None:
    """What is wrong with words that are right one by one."""
    if words.command == "expect" and not (words.never or words.always):
        return "--never or --always is wanted"
    if words.command != "shrink" and not words.random:
        for name in ("seed", "weights", "lengths"):
            if getattr(words, name) is not None:
                return f"--{name} is of orders at random: --random N is wanted"
    return None


def parser() -> argparse.ArgumentParser:
    """The words that the program takes."""
    top = Parser(prog="orders", description="Runs a scenario over many orders of turns.")
    commands = top.add_subparsers(dest="command", required=True, metavar="COMMAND")
    explore = commands.add_parser("explore", help="group orders by outcome, and write the simplest order of each")
    expect = commands.add_parser("expect", help="say whether an order breaks what is expected of each report")
    shrink = commands.add_parser("shrink", help="make an order simpler while the report still matches")
    for command in (explore, expect, shrink):
        command.add_argument("scenario", type=Path, metavar="SCENARIO", help="the scenario")
    shrink.add_argument("order", type=Path, metavar="ORDER", help="the order to begin with")
    for command in (explore, expect):
        add_choice(command)
    parts = f"{', '.join(PLAIN)} with commas between, or events:KIND,.. or match:REGEX"
    what = f"what makes an outcome: {parts} ({DEFAULT}); may be given again"
    explore.add_argument("--by", action="append", type=refusing(aspects_of), metavar="WHAT", help=what)
    explore.add_argument("--output", type=Path, metavar="FOLDER", help="where to write the orders (NAME.orders, for NAME.nova)")
    explore.add_argument("--names", type=Path, metavar="FILE", help="names of objects: lines OBJECT NAME, or PD:SELECTOR NAME")
    explore.add_argument("--elf", type=Path, action="append", default=[], metavar="FILE", help="an executable whose constants name selectors")
    pattern = {"type": refusing(Sought.of), "metavar": "PATTERN"}
    shown = f"; behind {SHOWN} one for the text that a console shows"
    expect.add_argument("--never", action="append", **pattern, help=f"nothing in a report matches this regular expression{shown}")
    expect.add_argument("--always", action="append", **pattern, help=f"something in each report matches this regular expression{shown}")
    shrink.add_argument("--keep", required=True, **pattern, help=f"what the report is to match{shown}")
    rest = "the simpler order need not come to rest where the one to begin with does"
    shrink.add_argument("--open", action="store_true", help=rest)
    search = f"at last try all orders with fewer changes, with about N runs at most ({SEARCH})"
    shrink.add_argument("--search", type=number(0), default=SEARCH, metavar="N", help=search)
    shrink.add_argument("--output", type=Path, metavar="FILE", help="where to write the order (standard output)")
    for command in (explore, expect, shrink):
        add_means(command)
    return top


def add_choice(command: argparse.ArgumentParser) -> None:
    """Which orders are tried."""
    switches = f"all orders with at most K changes of processor ({CHANGES}, without --random)"
    command.add_argument("--switches", dest="changes", type=number(0), metavar="K", help=switches)
    command.add_argument("--random", type=number(0), default=0, metavar="N", help="N orders at random")
    command.add_argument("--seed", type=int, metavar="S", help=f"what they are drawn from ({SEED})")
    often = "how often each processor has a block of these (1 for each)"
    command.add_argument("--weights", type=weights, metavar="W,..", help=often)
    workers = "send the work to the workers of a scheduler of python3-distributed, dask:ADDRESS"
    command.add_argument("--executor", type=refusing(executor), metavar="dask:ADDRESS", help=workers)
    command.add_argument("--lengths", type=lengths, metavar="A-B", help="how long their blocks are (1-8)")


def add_means(command: argparse.ArgumentParser) -> None:
    """How the orders are tried."""
    turns = f"the greatest number of turns of an order ({TURNS}; where the run takes more in rounds, twice those)"
    command.add_argument("--turns", type=number(1, MOST_TURNS), metavar="N", help=turns)
    jobs = "how many runs at a time (one for each processor)"
    command.add_argument("--jobs", type=number(1), default=len(os.sched_getaffinity(0)), metavar="N", help=jobs)
    command.add_argument("--program", type=program_file, metavar="FILE", help="the program to start (that of the repository)")
    stays = "a program that stays and is asked for one order after another (nova_debug of the repository, where it is built and --program isn't given)"
    command.add_argument("--stays", type=program_file, metavar="FILE", help=stays)
    command.add_argument("--progress", action="store_true", help="say how far the work is also where standard error is no terminal")
