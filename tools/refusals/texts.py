"""Random and changed texts as scenarios and as orders, and the runs over them."""

from __future__ import annotations

from collections import Counter
from collections.abc import Iterable
from dataclasses import dataclass
from pathlib import Path
from random import Random

from endings import wrong
from mutations import changed, random_text
from runner import Ending, Runner

TOP = Path(__file__).resolve().parents[2]

# The limits of turns that `solo` gets, without an order and with one.
LIMITS, ORDER_LIMITS = (1, 20, 300), (300, 10_000)


@dataclass(frozen=True, slots=True)
class Case:
    """A run: the command, the scenario, the order if `solo` has one, and the limit of turns."""

    command: str
    scenario: bytes
    order: bytes | None
    limit: int


@dataclass(frozen=True, slots=True)
class Examples:
    """The texts that changes begin with: scenarios, and orders with their scenarios."""

    scenarios: list[bytes]
    orders: list[tuple[bytes, bytes]]


def examples() -> Examples:
    """The examples of the repository."""
    orders = sorted((TOP / "examples").glob("*.order"))
    scenario_of = {order: order.with_name(order.name.split(".")[0].removesuffix("_right") + ".nova") for order in orders}
    return Examples(
        [path.read_bytes() for path in sorted((TOP / "examples").glob("*.nova"))],
        [(scenario.read_bytes(), order.read_bytes()) for order, scenario in scenario_of.items()],
    )


def case_of(seed: int, known: Examples) -> Case:
    """The run of a seed, always the same one."""
    rng = Random(seed)
    if rng.random() < 0.25:
        scenario, order = rng.choice(known.orders)
        orders = [one for _, one in known.orders]
        order = random_text(rng) if rng.random() < 0.1 else changed(rng, order, orders)
        if rng.random() < 0.1:
            scenario = changed(rng, scenario, known.scenarios)
        return Case("solo", scenario, order, rng.choice(ORDER_LIMITS))
    scenario = random_text(rng) if rng.random() < 0.1 else changed(rng, rng.choice(known.scenarios), known.scenarios)
    return Case(rng.choice(("check", "check", "solo")), scenario, None, rng.choice(LIMITS))


def run(case: Case, runner: Runner, folder: Path) -> Ending:
    """Makes the run, with its texts in the folder."""
    scenario, order = folder / "scenario", folder / "order"
    scenario.write_bytes(case.scenario)
    words = [case.command, str(scenario)]
    if case.order is not None:
        order.write_bytes(case.order)
        words.append(str(order))
    return runner.ending([*words, "--limit", str(case.limit)])


def keep(case: Case, seed: int, folder: Path) -> None:
    """Leaves the texts of a run in a folder."""
    folder.mkdir(parents=True, exist_ok=True)
    (folder / f"{seed}.nova").write_bytes(case.scenario)
    if case.order is not None:
        (folder / f"{seed}.order").write_bytes(case.order)


@dataclass(frozen=True, slots=True)
class Tally:
    """What runs over texts came to: how many there were of each command and status, and what went wrong, by seed."""

    endings: Counter[str]
    wrong: dict[int, str]


def look(runner: Runner, folder: Path, seeds: Iterable[int], kept: Path | None) -> Tally:
    """Makes the runs of these seeds. The texts of those that went wrong are kept in a folder, if one is named."""
    known = examples()
    tally = Tally(Counter(), {})
    for seed in seeds:
        case = case_of(seed, known)
        ending = run(case, runner, folder)
        said = wrong(ending, case.command, case.scenario, case.order, case.limit)
        tally.endings[f"{case.command}{' by an order' if case.order is not None else ''}: status {ending.status}"] += 1
        if said:
            tally.wrong[seed] = f"{case.command}: {said}"
            if kept is not None:
                keep(case, seed, kept)
    return tally
