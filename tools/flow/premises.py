"""The premises of `noninterference_on_divided_processors`, or of `noninterference` where a side creates, in the state at the end of a report, for the sides that a root makes.

They are named as the fields of the conditions of `law_flow` and `law_integrity`. S is the domain that the root makes on processor 1, T the one on
processor 2; P has what the root makes for S, and what semaphores S holds; and processor 1 is the side's own. What objects are is known of how they are made; all else is read off the report.
"""

from __future__ import annotations

from dataclasses import dataclass

from parts import KINDS, made_at, made_for, made_since, makes, objects_of

WRITE, CREATE = 2, 1


class State:
    """A report's states, capabilities, semaphores and sources, and which domain and processor an execution context has."""

    def __init__(self, report: str) -> None:
        lines = [line.split() for line in report.splitlines()]
        self.first, self.second = made_at(lines, 1), made_at(lines, 2)
        self.own = objects_of(self.first, lines)
        self.contexts = {int(line[1]): line[3] for line in lines if line[0] == "ec"}
        self.kinds = {0: "pd"} | {int(line[1]): "sm" for line in lines if line[0] == "sm"}
        self.homes: dict[int, tuple[int, int]] = {}  # the domain and the processor of the sides' execution contexts
        self.made = [made_for(domain, lines) for domain in (self.first, self.second)]
        acted = {int(line[3]): int(line[2]) for line in lines if line[0] == "at"}
        for domain, cpu, made in ((self.first, 1, self.made[0]), (self.second, 2, self.made[1])):
            self.kinds |= dict(zip(made, KINDS))
            self.homes |= {n: (domain, acted.get(n, 3 - cpu if n > domain + 6 else cpu)) for n, kind in zip(made, KINDS) if kind == "ec"}
        self.capabilities = [Capability(line) for line in lines if line[0] == "cap"]
        self.by_number = {capability.number: capability for capability in self.capabilities}
        self.schedules = {int(line[1]) for line in lines if line[0] == "sc" and int(line[1]) > self.first and line[2] == "1"}  # that pay for turns of the side's processor
        self.sources = [(int(line[2]), int(line[3])) for line in lines if line[0] == "source"]  # processor and semaphore

    def line(self, capability: Capability) -> list[Capability]:
        above = []
        while capability.parent is not None:
            capability = self.by_number[capability.parent]
            above.append(capability)
        return above


class Capability:
    """A line `cap`."""

    def __init__(self, line: list[str]) -> None:
        self.number, self.domain, self.kind = int(line[1]), int(line[3]), line[4]
        self.parent = None if line[2] == "-" else int(line[2])
        self.rights, self.target = int(line[7]), int(line[8])
        self.held = tuple(line[4:])  # what it gives
        self.targets = range(self.target, self.target + 2 ** int(line[6]))


def frames(state: State, domain: int, rights: int) -> set[int]:
    return {frame for c in state.capabilities if c.domain == domain and c.kind == "mem" and c.rights & rights for frame in c.targets}


def of_objects(state: State, domain: int, own: range) -> set[str]:
    """Of what a domain's capabilities lead to: whether the set is closed, and what it may make."""
    found = set()
    for capability in state.capabilities:
        if capability.domain != domain or capability.kind != "obj":
            continue
        kind = state.kinds.get(capability.target)
        if kind != "sm" and capability.target not in own:
            found.add("IsClosed.capabilities")
        if kind == "pd" and capability.rights & CREATE and domain == state.second:
            found.add("IsDivided.creates")
    return found


def of_both(state: State) -> set[str]:
    """What both sides hold, reach, and have of one another."""
    held = [{c.target for c in state.capabilities if c.domain == domain and c.kind == "obj"} for domain in (state.first, state.second)]
    found = set()
    if held[0] & held[1]:
        found.add("AreSetsApart.objects")
    if held[0] - state.own:
        found.add("IsSide.holds")
    if any(state.kinds.get(n) == "sm" and n in held[1] for n in state.own):
        found.add("IsGuarded.semaphores")
    if frames(state, state.first, 7) & frames(state, state.second, WRITE):
        found.add("IsGuarded.memory")
    if any(above.domain == state.second for c in state.capabilities if c.domain == state.first for above in state.line(c)):
        found.add("IsGuarded.lines")
    return found


def of_processors(state: State) -> set[str]:
    """Who is on the side's processor, and what rings there."""
    found = set()
    for context, (domain, cpu) in state.homes.items():
        if domain == state.second and cpu == 1:
            found.add("IsDivided.others")
        if domain == state.first and cpu != 1:
            found.add("HasHome.contexts")
    if any(state.contexts[n] not in ("parked", "dead") for n in state.contexts if n not in state.homes):
        found.add("AreSeparate.rest")
    if any(cpu != 1 and semaphore in state.own for cpu, semaphore in state.sources):
        found.add("HasHome.rings")
    return found


CREATE_PD, CREATES, REVOKE, WAIT, TIMEOUT = "2", {"2", "3", "4", "5", "6"}, "7", "12", "1"
GIVES = {"made", "skip", "xlat", "ended"}


@dataclass(frozen=True)
class Allowed:
    """What a side may do beside what each at work does."""

    revokes: bool = False
    creates: bool = False  # alone, without deadlines


def at_work(events: list[list[str]], allowed: Allowed = Allowed()) -> set[str]:
    """Whether these events of the side's processor are of a side at work."""
    found, amid = set(), set()  # who is amid a revoke
    for _, context, kind, a, b in events:
        creates = kind == "answer" and a in CREATES or (kind, a) == ("begin", CREATE_PD)
        asks = creates and not allowed.creates or (kind, a) == ("answer", REVOKE) and not allowed.revokes
        waits = kind == "late" or (kind, a, b) == ("answer", WAIT, TIMEOUT)
        if asks or waits and allowed.creates:
            found.add("IsAtWork.calls")
        if kind == "gone" and not allowed.revokes:
            found.add("IsAtWork.revokes")
        if kind in GIVES and amid - {context}:
            found.add("IsAtWork.gives")
        if kind == "begin" and a == REVOKE:
            amid.add(context)
        elif kind == "answer" and a == REVOKE:
            amid.discard(context)
    return found


def revoking_within(reports: list[str]) -> set[str]:
    """What fails at two places of what is asked where the side revokes."""
    states = [State(report) for report in reports]
    own = [sorted((c for c in state.capabilities if c.domain == state.first), key=lambda c: c.number) for state in states]
    children = [{(c.held, above[0].held) for c in ranges if (above := state.line(c)) and above[0].domain == state.first} for state, ranges in zip(states, own)]
    found = set()
    for state in states:
        if any(above.domain == state.first for c in state.capabilities if c.domain != state.first for above in state.line(c)):
            found.add("DerivesWithin")
    if children[0] != children[1]:
        found.add("AreDerivedAlike.children")
    if [c.held for c in own[0]] != [c.held for c in own[1]]:
        found.add("AreDerivedAlike.order")
    return found


def creating_alone(scenarios: list[str], reports: list[str]) -> set[str]:
    """What fails at places of two scenarios of what is asked where the side creates alone, without alarms."""
    states = [State(report) for report in reports]
    found = set()
    if len({made_since([line.split() for line in report.splitlines()], 0).stop for report in reports}) > 1:
        found.add("AreCreatingAlone.objects")
    if len({scenario.split()[1] for scenario in scenarios}) > 1:
        found.add("AreCreatingAlone.cpus")
    if any(state.schedules - state.own - set(state.made[1]) for state in states):
        found.add("IsCreatingAlone.schedules")
    if any(semaphore in state.own for state in states for _, semaphore in state.sources):
        found.add("IsTimeless.alarms")
    return found


def made_by_others(report: str, since: int) -> set[str]:
    """Whether somebody else makes an object after so many turns."""
    lines = [line.split() for line in report.splitlines()]
    number, own = made_since(lines, since).start, set(State(report).made[0])
    for line in lines:
        if line[0] != "at" or int(line[1]) <= since or not makes(line[2:]):
            continue
        if int(line[3]) not in own:
            return {"OthersMakeNothing"}
        own.add(number)
        number += 1
    return set()


def broken(report: str, creates: bool = False) -> set[str]:
    """The premises that don't hold; where the side creates, those but of processors: that the others make nothing is asked of the run."""
    state = State(report)
    first, second = state.made
    found = of_objects(state, state.first, first) | of_objects(state, state.second, second) | of_both(state) | of_processors(state)
    return {name for name in found if not (creates and name.startswith(("IsDivided", "HasHome")))}
