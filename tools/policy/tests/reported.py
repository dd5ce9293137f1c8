"""The ties of a state, found by other means: from the report of `nova solo`, and from what tenants.nova makes, which a report doesn't tell.

Tenant b's store is given a random range, the policy shares random semaphores and has one tenant flow to the other, or both, and each line of a tie, of what
flows and of what two sides read is compared.
"""

from __future__ import annotations

import random
import subprocess
from collections.abc import Iterator
from dataclasses import dataclass
from pathlib import Path

from kept import TOP

from report import CapRange, Report, Space, read_report

SCENARIO, POLICY = (TOP / "examples" / "policy" / f"tenants.{end}" for end in ("nova", "policy"))
LINE = "more:   li x12, 0x600d"
# Of tenants.nova: which objects are domains, whose each execution context is, what portals and scheduling contexts lead to, and who waits where.
SIDES = {0: "trusted", 3: "a", 10: "b", 17: "b"}
CONTEXTS = {1: 0, 4: 3, 8: 3, 11: 10, 15: 10}
PORTALS, SCHEDULING, SEMAPHORES = {5: 4, 12: 11}, {2: 1, 9: 8, 16: 15}, (6, 7, 13, 14)
WAITS = {8: 7, 15: 14}
WRITE, CREATE, CONTROL, UP, DOWN, ANY = 2, 1, 1, 1, 2, 7
# Both tenants have a thread on the only processor.
PROCESSOR = "processor 0: a b"


@dataclass(frozen=True, slots=True)
class Reach:
    """What a capability leads to: a word for it, the domain that it is of, and the rights that command it."""

    cause: str
    domain: int
    commands: int


def reach_of(target: int) -> Reach | None:
    """What an object is; none of a semaphore."""
    if target in SIDES:
        return Reach("domain", target, CREATE)
    if target in CONTEXTS:
        return Reach("context", CONTEXTS[target], ANY)
    if target in PORTALS:
        return Reach("portal", CONTEXTS[PORTALS[target]], CONTROL)
    if target in SCHEDULING:
        return Reach("scheduling", CONTEXTS[SCHEDULING[target]], CONTROL)
    return None


def meet(one: CapRange, other: CapRange) -> bool:
    """Two ranges of memory have a frame in common."""
    return one.target < other.target + 2**other.order and other.target < one.target + 2**one.order


def tie(source: int, target: int, cause: str, strict: bool = False) -> Iterator[str]:
    """A line of a tie, where it is of a side to another domain."""
    if SIDES[source] != "trusted" and source != target:
        yield f"tie {SIDES[source]}:{source} {SIDES[target]}:{target} {cause}{' strict' if strict else ''}"


def ties_by_semaphore(one: CapRange, ranges: list[CapRange], shared: set[int]) -> Iterator[str]:
    """The ties by a capability to a semaphore: where it is shared, to what was derived from that alone."""
    for other in ranges:
        if other.space is Space.OBJECTS and other.target == one.target and (one.target not in shared or other.parent == one.number):
            yield from tie(one.domain, other.domain, f"shared cap {one.number} cap {other.number}", one.target in shared)
    for context, semaphore in WAITS.items():
        if semaphore == one.target and one.target not in shared:
            yield from tie(one.domain, CONTEXTS[context], f"waits cap {one.number} ec {context}")


def ties_by(one: CapRange, ranges: list[CapRange], shared: set[int], flows: set[tuple[str, str]]) -> Iterator[str]:
    """The ties by a capability."""
    if one.space is Space.MEMORY:
        for other in ranges:
            if one.rights & WRITE and other.space is Space.MEMORY and meet(one, other) and (SIDES[one.domain], SIDES[other.domain]) not in flows:
                yield from tie(one.domain, other.domain, f"frames cap {one.number} cap {other.number}")
        return
    reach = reach_of(one.target)
    if reach is not None:
        yield from tie(one.domain, reach.domain, f"{reach.cause} cap {one.number}", bool(one.rights & reach.commands))
    if one.target in SEMAPHORES:
        yield from ties_by_semaphore(one, ranges, shared)


def common(one: CapRange, other: CapRange) -> str:
    """How memory of two sides is told."""
    return f"{SIDES[one.domain]}:{one.domain} {SIDES[other.domain]}:{other.domain} frames cap {one.number} cap {other.number} rights {one.rights} {other.rights}"


def flowing(ranges: list[CapRange], flows: set[tuple[str, str]]) -> list[str]:
    """The lines of the memory that flows."""
    memory = [one for one in ranges if one.space is Space.MEMORY]
    return [
        f"flows {common(one, other)}"
        for one in memory
        for other in memory
        if one.rights & WRITE and meet(one, other) and (SIDES[one.domain], SIDES[other.domain]) in flows
    ]


def reading(ranges: list[CapRange]) -> list[str]:
    """The lines of the memory that two sides reach, and that neither may write."""
    memory = [one for one in ranges if one.space is Space.MEMORY and not one.rights & WRITE and SIDES[one.domain] != "trusted"]
    return [f"memory {common(one, other)}" for one in memory for other in memory if one.number < other.number and SIDES[one.domain] != SIDES[other.domain] and meet(one, other)]


def ties_of(report: Report, shared: set[int], flows: set[tuple[str, str]]) -> list[str]:
    """The lines of all ties. Nobody waits for a handler or gives a first range, and the two that wait do so at two semaphores."""
    return [line for one in report.ranges for line in ties_by(one, report.ranges, shared, flows)]


def random_range(chance: random.Random) -> int:
    """A range word: some pages, or some of the root's selectors."""
    rights = chance.randint(0, 7)
    if chance.random() < 0.3:
        order = chance.randint(0, 3)
        return (chance.randrange(0, 8, 2**order) << 12) | order << 7 | rights << 2 | 1
    order = chance.choice((0, 0, 0, 1, 2, 4, 6))
    first = chance.choice((0, 1, 2, 40, 41, 42, 43, 50, 51, 52, 53, 60, 64, 73, 74, 80, 89, 90)) >> order << order
    return (first << 12) | order << 7 | rights << 2 | 3


def sharer_of(side: str, semaphore: int, ranges: list[CapRange]) -> str | None:
    """What a side may do at a semaphore, and whether it waits there; none where it does neither."""
    rights = {right for right in (UP, DOWN) for one in ranges if one.space is Space.OBJECTS and one.target == semaphore and SIDES[one.domain] == side and one.rights & right}
    waits = any(at == semaphore and SIDES[CONTEXTS[context]] == side for context, at in WAITS.items())
    words = [word for word, is_so in (("up", UP in rights), ("down", DOWN in rights), ("waits", waits)) if is_so]
    return " ".join((side, *words)) if words else None


def shared_line(semaphore: int, ranges: list[CapRange]) -> str:
    """The line of a semaphore that sides share."""
    told = [sharer_of(side, semaphore, ranges) for side in dict.fromkeys(SIDES.values())]
    return f"shared {semaphore}:" + ",".join(f" {sharer}" for sharer in told if sharer)


def differing_of(seed: int, program: Path, nova: Path, folder: Path) -> str | None:
    """The first tie in which an answer and a report differ, or none."""
    chance = random.Random(seed)
    word = random_range(chance)
    shared = {semaphore for semaphore in SEMAPHORES if chance.random() < 0.4}
    flows = {pair for pair in (("a", "b"), ("b", "a")) if chance.random() < 0.4}
    policy = folder / "random.policy"
    said = [f"shared {' '.join(map(str, sorted(shared)))}\n" if shared else "", *(f"flow {source} {sink}\n" for source, sink in sorted(flows))]
    policy.write_text(POLICY.read_text() + "".join(said))
    file = folder / "random.nova"
    file.write_text(SCENARIO.read_text().replace(LINE, f"more:   li x12, {word:#x}"))
    told = subprocess.run([str(program), str(file), "--policy", str(policy)], capture_output=True, text=True, check=False).stdout.splitlines()
    report = subprocess.run([str(nova), "solo", str(file)], capture_output=True, text=True, check=True).stdout
    lines = [line for line in told if line.startswith(("processor ", "tie ", "shared ", "flows ", "memory "))]
    read = read_report(report)
    pairs = zip([*lines, "(the end)"], [*(shared_line(semaphore, read.ranges) for semaphore in sorted(shared)), *flowing(read.ranges, flows), *reading(read.ranges), PROCESSOR, *ties_of(read, shared, flows), "(the end)"], strict=False)
    return next((f"range {word:#x}, shared {sorted(shared)}, flows {sorted(flows)}: {one!r} in place of {other!r}" for one, other in pairs if one != other), None)
