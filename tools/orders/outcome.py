"""What two runs have to have in common to be of one outcome."""

from __future__ import annotations

import re
from collections.abc import Iterable, Iterator
from dataclasses import dataclass

from shared import Kind

# An outcome: the lines that were asked for, taken out of a report.
Outcome = tuple[str, ...]

DEFAULT = "end,states,consoles,semaphores"
# What begins so is looked for in what consoles show.
SHOWN = "console:"


@dataclass(frozen=True, slots=True)
class Lines:
    """The lines that begin with a word; of each so many words, where that is said."""

    word: str
    count: int | None = None

    def __call__(self, report: str) -> Iterator[str]:
        found = (line for line in report.splitlines() if line.startswith(f"{self.word} "))
        return found if self.count is None else (" ".join(line.split(" ", self.count)[: self.count]) for line in found)


@dataclass(frozen=True, slots=True)
class Events:
    """The events of some kinds, without their turns."""

    kinds: frozenset[str]

    def __call__(self, report: str) -> Iterator[str]:
        for line in Lines("at")(report):
            at, _, rest = line.split(" ", 2)
            if rest.split(" ", 3)[2] in self.kinds:
                yield f"{at} - {rest}"


@dataclass(frozen=True, slots=True)
class Matches:
    """All that matches; where the pattern has groups, what is in these."""

    pattern: re.Pattern[str]

    def __call__(self, report: str) -> Iterator[str]:
        for found in self.pattern.finditer(report):
            yield " ".join(group or "" for group in found.groups()) if self.pattern.groups else found[0]


# What an outcome is made of. They are values, so that they can be sent to another process.
Aspect = Lines | Events | Matches

PLAIN: dict[str, Aspect] = {
    "end": Lines("run", 2),
    "states": Lines("ec", 4),
    "registers": Lines("ec"),
    "consoles": Lines("console"),
    "semaphores": Lines("sm"),
    "caps": Lines("cap"),
}


def _plain(name: str) -> Aspect:
    """One of the aspects that are named by a word alone."""
    if name not in PLAIN:
        raise ValueError(f"there is no {name!r}: one of {', '.join(PLAIN)}, events:KIND,.. or match:REGEX is wanted")
    return PLAIN[name]


def _events(kinds: str) -> Aspect:
    """The events of some kinds."""
    known = {kind.value for kind in Kind}
    wanted = frozenset(kinds.split(","))
    if not wanted <= known:
        raise ValueError(f"there is no event {min(wanted - known)!r}")
    return Events(wanted)


def pattern_of(text: str) -> re.Pattern[str]:
    """A pattern to look for in reports: `^` and `$` are the ends of lines. Raises ValueError where it is none."""
    try:
        return re.compile(text, re.MULTILINE)
    except re.error as error:
        raise ValueError(f"{text!r} is no pattern: {error}") from error


@dataclass(frozen=True, slots=True)
class Sought:
    """A pattern that is looked for in the lines of a report, or in the texts that its consoles show; and the words that ask for it."""

    words: str
    pattern: re.Pattern[str]
    in_consoles: bool

    @staticmethod
    def of(words: str) -> Sought:
        """What words ask for. Raises ValueError where there is no pattern in them."""
        return Sought(words, pattern_of(words.removeprefix(SHOWN)), words.startswith(SHOWN))

    def is_in(self, report: str) -> bool:
        """Whether it is found."""
        return any(map(self.pattern.search, shown_in(report) if self.in_consoles else [report]))


def shown_in(report: str) -> Iterator[str]:
    """The texts that consoles show, each byte a character."""
    for line in Lines("console")(report):
        digits = line.split()[2]
        yield "" if digits == "-" else bytes.fromhex(digits).decode("latin-1")


def aspects_of(text: str) -> list[Aspect]:
    """The aspects that one `--by` names: plain ones with commas between, events of some kinds, or a pattern. Raises ValueError."""
    name, colon, rest = text.partition(":")
    if colon and name == "events":
        return [_events(rest)]
    if colon and name == "match":
        return [Matches(pattern_of(rest))]
    return [_plain(word) for word in text.split(",")]


def outcome_of(report: str, aspects: Iterable[Aspect]) -> Outcome:
    """The outcome of a run."""
    return tuple(line for aspect in aspects for line in aspect(report))


def broken(report: str, never: Iterable[Sought], always: Iterable[Sought]) -> str | None:
    """Which expectation a report breaks."""
    for sought in never:
        if sought.is_in(report):
            return f"{sought.words!r} is there"
    for sought in always:
        if not sought.is_in(report):
            return f"{sought.words!r} is not there"
    return None
