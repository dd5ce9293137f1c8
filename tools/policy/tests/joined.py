"""The verdict and the finest sides of an answer, found from its lines of ties by other means: a table of what is joined with what."""

from __future__ import annotations

from pathlib import Path

from sides import TRUSTED, Place, Tie, Told


def is_respected(tie: Tie, side: dict[int, str]) -> bool:
    """Whether these sides respect a tie. What a trusted domain is tied to doesn't matter, and such ties aren't told."""
    source, target = side[tie.source.domain], side[tie.target.domain]
    return source in (TRUSTED, target) or (target == TRUSTED and not tie.strict)


def named(told: Told, policy: Path | None) -> dict[int, str]:
    """What the side of each domain is called before any are joined."""
    domains = [*told.trusted, *(domain for side in told.sides.values() for domain in side)]
    found = {domain: str(domain) for domain in domains}
    if policy is None:
        return found | {0: TRUSTED}
    for line in policy.read_text().splitlines():
        match line.partition("#")[0].split():
            case [word, *numbers] if word == TRUSTED:
                found |= dict.fromkeys(map(int, numbers), TRUSTED)
            case ["side", name, *numbers]:
                found |= dict.fromkeys(map(int, numbers), name)
    return found


def flows_in(policy: Path | None) -> set[tuple[str, str]]:
    """Which sides flow to which."""
    lines = policy.read_text().splitlines() if policy else []
    words = [line.partition("#")[0].split() for line in lines]
    return {(line[1], line[2]) for line in words if line[:1] == ["flow"]}


def lines_in(policy: Path | None) -> list[str]:
    """The names of a policy's sides, in the order of its lines."""
    lines = policy.read_text().splitlines() if policy else []
    words = [line.partition("#")[0].split() for line in lines]
    return [line[1] for line in words if line[:1] == ["side"]]


def first_of(one: str, other: str, lines: list[str]) -> tuple[str, str]:
    """Two sides, first that of the earlier line; or of the lesser number, behind all that have lines."""
    before, behind = sorted((one, other), key=lambda name: (lines.index(name), 0) if name in lines else (len(lines), int(name)))
    return before, behind


def joined(ties: list[Tie], side: dict[int, str], lines: list[str]) -> tuple[dict[int, str], Tie | None]:
    """The finest sides that respect all ties, each called as the first of those that it was joined of; or the first tie that none respect."""
    side = dict(side)
    for tie in ties:
        if is_respected(tie, side):
            continue
        if side[tie.target.domain] == TRUSTED:
            return side, tie
        new, old = first_of(side[tie.source.domain], side[tie.target.domain], lines)
        side = {domain: new if name == old else name for domain, name in side.items()}
    return side, None


def groups(side: dict[int, str]) -> dict[str, tuple[int, ...]]:
    """The sides, each with its domains."""
    names = set(side.values()) - {TRUSTED}
    return {name: tuple(sorted(domain for domain, other in side.items() if other == name)) for name in names}


def misnamed(place: Place, side: dict[int, str]) -> bool:
    """A tie calls the side of a domain otherwise."""
    return side[place.domain] != place.side


def faults_of(told: Told, policy: Path | None) -> list[str]:
    """What is wrong with an answer by its own ties."""
    side = named(told, policy)
    flows = [common.tie for common in told.flows]
    memory = [common.tie for common in told.memory]
    for place in (place for tie in (*told.ties, *flows, *(memory if policy else ())) for place in (tie.source, tie.target)):
        side.setdefault(place.domain, place.side)
    faults = [f"{tie.text}: its sides are called otherwise" for tie in (*told.ties, *flows) if misnamed(tie.source, side) or misnamed(tie.target, side)]
    faults += [f"{tie.text} flows" for tie in flows if (tie.source.side, tie.target.side) not in flows_in(policy)]
    faults += [f"{tie.text} is a tie" for tie in told.ties if tie.cause == "frames" and (tie.source.side, tie.target.side) in flows_in(policy)]
    finest, stuck = joined(told.ties, side, lines_in(policy))
    if stuck != told.stuck:
        faults.append(f"stuck at {told.stuck}, where the ties have {stuck}")
    if stuck is None and groups(finest) != told.sides:
        faults.append(f"sides {told.sides}, where the ties have {groups(finest)}")
    judged = side if policy else finest
    faults += [f"{tie.text}: its sides are called otherwise" for tie in memory if misnamed(tie.source, judged) or misnamed(tie.target, judged)]
    broken = next((tie for tie in told.ties if not is_respected(tie, judged)), None)
    if policy is not None and broken != told.breach:
        faults.append(f"a breach by {told.breach}, where the ties have {broken}")
    if policy is None and told.breach is not None:
        faults.append("a breach of the finest sides")
    if told.verdict in ("apart", "served", "single") and broken is None and (told.verdict == "single") != (len(groups(judged)) < 2):
        faults.append(f"{told.verdict} of {len(groups(judged))} sides")
    return faults
