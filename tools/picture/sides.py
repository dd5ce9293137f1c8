"""Reads what `nova_policy` tells of the sides of a state, and refuses what is not of its form."""

from __future__ import annotations

import re
from dataclasses import dataclass, field

from report import HEAD, Fault, otherwise

TRUSTED = "trusted"
WRITE = 2
# How many numbers a cause has, and the words between them.
CAUSES = {
    **dict.fromkeys(("domain", "context", "portal", "scheduling"), ("cap",)),
    **dict.fromkeys(("frames", "shared"), ("cap", "cap")),
    "waits": ("cap", "ec"),
    "queue": ("ec", "ec"),
    "serves": ("ec", "ec"),
    "takes": ("ec", "ec"),
    "gives": ("ec",),
}
PLACE = re.compile(r"(trusted|[A-Za-z0-9_-]+):(\d+)")
LINK = re.compile(r"from (\d+) (-|\d+) (\d+) (mem|obj) (\d+) (\d+) (\d+) (\d+)")
NUMBER = re.compile(r"0|[1-9]\d*|0x[0-9a-fA-F]+")
SIDE = re.compile(r"(trusted|side [A-Za-z0-9_-]+):((?: \d+)*)")
ROLE = re.compile(r"domain (\d+) (at rest|bare|mute|at work)")
SHARER = r" [A-Za-z0-9_-]+(?: up| down| waits)+"
SHARED = re.compile(rf"shared (\d+):((?:{SHARER}(?:,{SHARER})*)?)")
PROCESSOR = re.compile(r"processor (\d+):((?: [A-Za-z0-9_-]+)*)")
FLOW = re.compile(r"flow [A-Za-z0-9_-]+ (own(?: \d+)* at work (?:(?:to the end|until turn \d+: ec \d+ (?:creates|gives))(?:, revokes within from turn \d+)?|until turn \d+: ec \d+ revokes DerivesWithin cap \d+ target \d+)|waits ec \d+|[A-Z][A-Za-z]+\.[a-z]+(?: (?:cap|target|object|ec|processor|source|sm) \d+)+)")


@dataclass(frozen=True, slots=True)
class Place:
    """A protection domain, and what its side is called."""

    side: str
    domain: int

    def __str__(self) -> str:
        return f"{self.side}:{self.domain}"


@dataclass(frozen=True, slots=True)
class Tie:
    """What ties a domain to another: its cause, with the numbers of capabilities and execution contexts. Strict: the other may not be trusted instead."""

    source: Place
    target: Place
    cause: str
    numbers: tuple[int, ...]
    strict: bool

    @property
    def text(self) -> str:
        """The cause with its numbers."""
        pairs = zip(CAUSES[self.cause], self.numbers, strict=True)
        return " ".join((self.cause, *(f"{word} {number}" for word, number in pairs)))

    @property
    def capabilities(self) -> tuple[int, ...]:
        """The capabilities among its numbers."""
        return tuple(number for word, number in zip(CAUSES[self.cause], self.numbers, strict=True) if word == "cap")


@dataclass(frozen=True, slots=True)
class Common:
    """Memory that two sides reach: the capabilities by which they do, as those of a tie, and the rights of each, where they are told."""

    tie: Tie
    rights: tuple[int, int] | None


@dataclass(frozen=True, slots=True)
class Shared:
    """A semaphore that sides share, by the number of its object, and what each of them, or what is trusted, may do there."""

    semaphore: int
    sharers: tuple[tuple[str, str], ...]


@dataclass(frozen=True, slots=True)
class Link:
    """A capability, as a report tells it, and from which it came."""

    number: int
    parent: int | None
    domain: int
    text: str


@dataclass(slots=True)
class Told:
    """What is told: the verdict with what shows it, what trusted domains are, the sides to which those named are joined or the tie for which there are none, the semaphores that they share on purpose, the memory
    that flows from one to another and that two reach to read alone, the sides that may take turns of each processor, and all ties."""

    turn: int
    verdict: str
    why: str = ""
    breach: Tie | None = None
    links: list[Link] = field(default_factory=list)
    roles: dict[int, str] = field(default_factory=dict)
    stuck: Tie | None = None
    trusted: tuple[int, ...] = ()
    sides: dict[str, tuple[int, ...]] = field(default_factory=dict)
    shared: list[Shared] = field(default_factory=list)
    flows: list[Common] = field(default_factory=list)
    memory: list[Common] = field(default_factory=list)
    processors: list[tuple[str, ...]] = field(default_factory=list)
    ties: list[Tie] = field(default_factory=list)


def read_tie(text: str, line: int) -> Tie:
    """A tie, from its two places on."""
    words = text.split(" ")
    places = [PLACE.fullmatch(word) for word in words[:2]]
    cause = words[2] if len(words) > 2 else ""
    strict = words[-1] == "strict"
    rest = words[3:-1] if strict else words[3:]
    wanted = CAUSES.get(cause, ())
    if len(places) != 2 or None in places or not wanted or tuple(rest[::2]) != wanted or not all(word.isdigit() for word in rest[1::2]):
        raise Fault(line, "this is no tie")
    if len(rest) != 2 * len(wanted):
        raise Fault(line, "this is no tie")
    source, target = (Place(place[1], int(place[2])) for place in places if place)
    return Tie(source, target, cause, tuple(map(int, rest[1::2])), strict)


def read_common(text: str, line: int, flows: bool) -> Common:
    """Memory that two sides reach: that flows from the first, which may write it, or that neither may write."""
    said, _, rights = text.partition(" rights ")
    tie = read_tie(said, line)
    if tie.cause != "frames" or tie.strict or TRUSTED in (tie.source.side, tie.target.side) or tie.source.side == tie.target.side:
        raise Fault(line, "this is no memory of two sides")
    if (found := re.fullmatch(r"(\d+) (\d+)", rights)) is None:
        raise Fault(line, "the rights of two capabilities are wanted")
    one, other = int(found[1]), int(found[2])
    if not one & WRITE if flows else (one | other) & WRITE:
        raise Fault(line, "this memory isn't of these rights")
    return Common(tie, (one, other))


def read_sharers(text: str) -> tuple[tuple[str, str], ...]:
    """Who shares a semaphore, and what each may do there."""
    names = (sharer.strip().partition(" ") for sharer in text.split(",") if sharer)
    return tuple((name, may) for name, _, may in names)


def read_line(told: Told, text: str, line: int) -> None:
    """What a line behind the first tells."""
    word, _, rest = text.partition(" ")
    if word in ("apart", "single") and not rest and not told.verdict:
        told.verdict = word
    elif word == "served" and not told.verdict:
        told.verdict, told.why = word, rest
    elif word == "breach" and not told.verdict:
        told.verdict, told.breach = word, read_tie(rest, line)
    elif word == "stuck" and told.stuck is None:
        told.stuck = read_tie(rest, line)
        told.verdict = told.verdict or word
    elif word == "tie":
        told.ties.append(read_tie(rest, line))
    elif word == "flows":
        told.flows.append(read_common(rest, line, flows=True))
    elif word == "memory":
        told.memory.append(read_common(rest, line, flows=False))
    elif (shared := SHARED.fullmatch(text)) is not None:
        told.shared.append(Shared(int(shared[1]), read_sharers(shared[2])))
    elif FLOW.fullmatch(text) is not None:
        return  # not drawn
    elif (role := ROLE.fullmatch(text)) is not None and told.verdict == "served":
        told.roles[int(role[1])] = role[2]
    elif (processor := PROCESSOR.fullmatch(text)) is not None and int(processor[1]) == len(told.processors):
        told.processors.append(tuple(processor[2].split()))
    elif (link := LINK.fullmatch(text)) is not None:
        told.links.append(Link(int(link[1]), None if link[2] == "-" else int(link[2]), int(link[3]), " ".join(link.groups())))
    elif (side := SIDE.fullmatch(text)) is not None:
        domains = tuple(map(int, side[2].split()))
        if side[1] == TRUSTED:
            told.trusted = domains
        else:
            told.sides[side[1].removeprefix("side ")] = domains
    else:
        raise Fault(line, "no line of an answer is of this form")


def read_sides(text: str) -> Told:
    """What an answer tells. Raises Fault."""
    first, *rest = text.split("\n")
    if not (turn := re.fullmatch(r"turn (\d+)", first)):
        other = "; this is a report, which `tools/picture run` draws" if HEAD.fullmatch(first) else otherwise(first)
        raise Fault(1, f"`turn N` is wanted{other}")
    if not text.endswith("\n"):
        raise Fault(len(rest) + 1, "the text ends without a line feed")
    told = Told(int(turn[1]), "")
    for number, line in enumerate(rest[:-1], 2):
        read_line(told, line, number)
    if not told.verdict:
        raise Fault(len(rest) + 1, "no line says what the sides are")
    return told


def named_in(policy: str) -> dict[int, str]:
    """The side of each domain that a policy names. Numbers are decimal, or hexadecimal behind 0x; what is not of its form is left out."""
    found: dict[int, str] = {}
    for line in policy.splitlines():
        match line.partition("#")[0].split():
            case [word, *numbers] if word == TRUSTED:
                found |= {int(number, 0): TRUSTED for number in numbers if NUMBER.fullmatch(number)}
            case ["side", name, *numbers]:
                found |= {int(number, 0): name for number in numbers if NUMBER.fullmatch(number)}
    return found
