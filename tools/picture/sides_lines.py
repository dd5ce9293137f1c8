"""What is drawn of the sides of a state: their domains, the ties from one domain to another, and the memory of two sides."""

from __future__ import annotations

from collections.abc import Iterator
from dataclasses import dataclass
from enum import Enum

from sides import TRUSTED, Common, Link, Place, Tie, Told

# The most capabilities that are written of memory that flows from one side to another.
PAIRS = 4


@dataclass(frozen=True, slots=True)
class Edge:
    """The ties of one cause from a domain to another, as one line."""

    source: int
    target: int
    ties: tuple[Tie, ...]
    broken: bool

    @property
    def strict(self) -> bool:
        """Whether the other may not be trusted instead."""
        return self.ties[0].strict

    @property
    def text(self) -> str:
        """The cause, with the capabilities of the source, as far as there is room for them."""
        first = self.ties[0]
        if len(first.capabilities) != 1 or len(self.ties) == 1:
            return first.text if len(self.ties) == 1 else f"{first.text} and {len(self.ties) - 1} more"
        numbers = [str(tie.numbers[0]) for tie in self.ties[:4]]
        more = f" and {len(self.ties) - 4} more" if len(self.ties) > 4 else ""
        return f"{first.cause} cap {', '.join(numbers)}{more}"

    @property
    def hint(self) -> str:
        """Each of the ties in a line."""
        return hint_of(self.ties)


class Way(Enum):
    """How memory is of two sides: it flows from one to the other by the policy, or against it; or both reach it, and neither may write it."""

    FLOWS = "flows"
    BREAKS = "breaks"
    READS = "reads"


@dataclass(frozen=True, slots=True)
class Stream:
    """The memory of two sides, as one line. Each text has two capabilities to it."""

    source: str
    target: str
    way: Way
    common: tuple[Common, ...]
    texts: tuple[str, ...]

    @property
    def text(self) -> str:
        """What becomes of it, and the other side."""
        return f"{'reads with' if self.way is Way.READS else 'flows to'} {side_text(self.target)}"

    @property
    def broken(self) -> bool:
        """Whether it is against the policy."""
        return self.way is Way.BREAKS

    @property
    def hint(self) -> str:
        """Each two capabilities in a line."""
        return "\n".join(f"{hint_of((one.tie,))}{rights_text(one, ' rights ', ' ')}" for one in self.common)


def rights_text(one: Common, before: str, between: str) -> str:
    """The rights of both capabilities, where they are told."""
    return f"{before}{one.rights[0]}{between}{one.rights[1]}" if one.rights else ""


def hint_of(ties: tuple[Tie, ...]) -> str:
    """Each of some ties in a line."""
    return "\n".join(f"{tie.source} {tie.target} {tie.text}{' strict' if tie.strict else ''}" for tie in ties)


def side_text(name: str) -> str:
    """What a side is called in a picture."""
    return name if name == TRUSTED else f"side {name}"


def span(word: str, first: int, last: int) -> str:
    """Places or frames, from one to another."""
    return f"{word} {first}" if first == last else f"{word}s {first} to {last}"


def red_tie(told: Told) -> Tie | None:
    """The tie for which the sides aren't isolated, or for which there are none."""
    return told.breach or told.stuck


def ties_of(told: Told) -> list[Tie]:
    """All ties that are told, also where the lines `tie` are left out."""
    red = red_tie(told)
    return told.ties if red is None or red in told.ties else [*told.ties, red]


def is_broken(told: Told, tie: Tie) -> bool:
    """Whether the sides of a policy don't respect a tie, or there are no sides for it."""
    respected = tie.source.side == tie.target.side or (tie.target.side == TRUSTED and not tie.strict)
    return tie == red_tie(told) or (told.verdict == "breach" and not respected)


def is_flow(told: Told, tie: Tie) -> bool:
    """Whether a tie is memory that flows from one side to another against the policy."""
    return told.verdict == "breach" and tie.cause == "frames" and tie.source.side != tie.target.side and TRUSTED not in (tie.source.side, tie.target.side)


def edges_of(told: Told) -> list[Edge]:
    """The ties as lines. That of the verdict is for itself."""
    found: dict[tuple[int, int, str, bool, bool, bool], list[Tie]] = {}
    for tie in ties_of(told):
        if not is_flow(told, tie):
            key = (tie.source.domain, tie.target.domain, tie.cause, tie.strict, tie == red_tie(told), is_broken(told, tie))
            found.setdefault(key, []).append(tie)
    return [Edge(key[0], key[1], tuple(ties), key[5]) for key, ties in found.items()]


def frames_of(link: Link) -> tuple[int, int]:
    """The first and the last frame to which a capability to memory leads."""
    words = link.text.split(" ")
    first = int(words[7])
    return first, first + 2 ** int(words[5]) - 1


def memory_text(tie: Tie, links: list[Link]) -> str:
    """The frames that two capabilities share, where it is told to which both lead."""
    known = {link.number: frames_of(link) for link in links}
    if tie.cause != "frames" or not all(number in known for number in tie.numbers):
        return ""
    one, other = (known[number] for number in tie.numbers)
    return span("frame", max(one[0], other[0]), min(one[1], other[1]))


def stream_texts(way: Way, common: list[Common], links: list[Link]) -> Iterator[str]:
    """The capabilities to memory of two sides, with its frames and their rights, where they are told, as far as there is room for them."""
    for one in common[:PAIRS]:
        tie, frames = one.tie, memory_text(one.tie, links)
        between = "and" if way is Way.READS else "to"
        pair = f"domain {tie.source.domain} cap {tie.numbers[0]} {between} domain {tie.target.domain} cap {tie.numbers[1]}"
        yield f"{pair}{f', {frames}' if frames else ''}{rights_text(one, ', rights ', ' and ')}"
    if len(common) > PAIRS:
        yield f"and {len(common) - PAIRS} more"


def common_of(told: Told) -> Iterator[tuple[Way, Common]]:
    """The memory of two sides. The tie of the verdict is the first that breaks."""
    yield from ((Way.FLOWS, one) for one in told.flows)
    against = sorted((tie for tie in ties_of(told) if is_flow(told, tie)), key=lambda tie: tie != told.breach)
    yield from ((Way.BREAKS, Common(tie, None)) for tie in against)
    yield from ((Way.READS, one) for one in told.memory)


def streams_of(told: Told, sides: dict[str, list[int]]) -> list[Stream]:
    """The memory of each two sides that are drawn."""
    side = {domain: name for name, domains in sides.items() for domain in domains}
    found: dict[tuple[str, str, Way], list[Common]] = {}
    for way, one in common_of(told):
        found.setdefault((side[one.tie.source.domain], side[one.tie.target.domain], way), []).append(one)
    return [Stream(*key, tuple(common), tuple(stream_texts(key[2], common, told.links))) for key, common in found.items()]


def sides_of(told: Told, named: dict[int, str]) -> dict[str, list[int]]:
    """The domains of each side that is drawn, trusted ones first. Where a tie is red these are the sides as they are called before any are joined."""
    printed = {domain: name for name, domains in told.sides.items() for domain in domains} | dict.fromkeys(told.trusted, TRUSTED)
    placed: dict[int, str] = {place.domain: place.side for place in places_of(told)}
    if red_tie(told):
        printed |= placed
        printed |= {domain: name for domain, name in named.items() if domain in printed}
    found: dict[str, list[int]] = {TRUSTED: []}
    for domain, name in sorted((placed | printed).items()):
        found.setdefault(name, []).append(domain)
    return found


def places_of(told: Told) -> Iterator[Place]:
    """Each domain of a tie, or of memory of two sides."""
    for tie in (*ties_of(told), *(one.tie for one in (*told.flows, *told.memory))):
        yield from (tie.source, tie.target)
