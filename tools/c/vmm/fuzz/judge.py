"""What is wrong with a run of two monitors, of which the first has a random guest and the second one that is known."""

from __future__ import annotations

import re
from collections import Counter
from dataclasses import dataclass

# The turns of both processors from an exit of the guest to its reply, at most. The longest are those of the longest divisions.
LONGEST = 6000

# Reasons of exits for a thread: ebreak, by which the handler ends with its machine, and main when it returns.
EBREAK = "7"
ENDED = re.compile(rb"\nvmm: the guest [a-z ]+ [0-9a-f]{8}\n\Z")
EVENT = re.compile(r"at (\d+) \d+ (\d+) (\w+) (\d+) (\d+)")


@dataclass
class Report:
    """A report, read."""

    text: str

    def __post_init__(self) -> None:
        """Reads contexts, scheduling contexts, consoles and capability ranges."""
        self.contexts = {line[1]: line[0] for line in re.finditer(r"^ec (\d+) .*$", self.text, re.MULTILINE)}
        self.kinds = {line[1]: line[2] for line in re.finditer(r"^ec (\d+) (\w+)", self.text, re.MULTILINE)}
        self.charged = {line[1]: int(line[2]) for line in re.finditer(r"^sc (\d+) \d+ (\d+)$", self.text, re.MULTILINE)}
        self.consoles = {line[1]: bytes.fromhex(line[2]) for line in re.finditer(r"^console (\d) ([0-9a-f]+)$", self.text, re.MULTILINE)}
        self.ranges = [tuple(line.groups()) for line in re.finditer(r"^cap \d+ \S+ (\d+) (\w+ .*)$", self.text, re.MULTILINE)]

    def events(self) -> list[tuple[int, str, str, str, str]]:
        """Turn, context, kind and two numbers of each event."""
        return [(int(event[1]), event[2], event[3], event[4], event[5]) for event in map(EVENT.fullmatch, self.text.splitlines()) if event]


@dataclass
class Known:
    """What is known of a run in which both guests are the known one: the contexts of both sides, and what the guests may have."""

    report: Report

    def __post_init__(self) -> None:
        """The virtual CPUs of guests are those that were replied to most; the others only began their domains."""
        replies = Counter(context for _, context, kind, _, _ in self.report.events() if kind == "raise" and self.report.kinds.get(context) == "vcpu")
        self.guest, self.neighbour = sorted((context for context, _ in replies.most_common(2)), key=int)
        self.handler, self.main = self.served(self.guest), self.mains()[0]
        rights = [(domain, held) for domain, held in self.report.ranges if re.fullmatch(r"mem 524288 \d+ 7 \d+", held)]
        self.domain = min((domain for domain, _ in rights), key=int)
        self.held = self.of_domain(self.report)
        self.main_turns, self.guest_turns = self.clocks()

    def served(self, guest: str) -> str:
        """The handler of a guest."""
        return next(second for _, context, kind, _, second in self.report.events() if context == guest and kind == "sent")

    def mains(self) -> list[str]:
        """The threads of main: global ones, but for the root."""
        return sorted((context for context, kind in self.report.kinds.items() if kind == "global" and context != "1"), key=int)

    def clocks(self) -> tuple[str, str]:
        """The scheduling contexts of main, whose number is the lesser, and of the guest, of the first processor."""
        own = re.findall(r"^sc (\d+) 0 \d+$", self.report.text, re.MULTILINE)
        return sorted(own, key=int)[-2], sorted(own, key=int)[-1]

    def of_domain(self, report: Report) -> set[str]:
        """What the guest's domain holds."""
        return {held for domain, held in report.ranges if domain == self.domain}


def late_exit(known: Known, report: Report) -> str:
    """An exit of the random guest that was answered late, while its machine went on."""
    began = None
    last = 0
    for turn, context, kind, first, _ in report.events():
        last = turn
        if context == known.guest and kind == "raise":
            began = turn
        elif context == known.handler and kind == "answer" and first == "1" and began is not None:
            if turn - began > LONGEST:
                return f"the exit of turn {began} is answered in turn {turn}"
            began = None
    if began is not None and last - began > LONGEST and not ENDED.search(report.consoles.get("0", b"")):
        return f"the exit of turn {began} is never answered"
    return ""


def harmed_monitor(known: Known, report: Report) -> str:
    """A monitor of the random guest that died otherwise than by its guest's end of the machine."""
    for turn, context, kind, first, _ in report.events():
        if context in (known.handler, known.main) and kind == "died" and first != EBREAK:
            return f"context {context} died of {first} in turn {turn}"
    died = {context for _, context, kind, _, _ in report.events() if kind == "died"} & {known.handler, known.main}
    if died and not ENDED.search(report.consoles.get("0", b"")):
        return f"context {min(died)} ended, and the console doesn't say that the machine did"
    if report.charged[known.main_turns] > report.charged[known.guest_turns] + LONGEST:
        return "main had more turns than the guest"
    return ""


def fault(known: Known, report: Report) -> str:
    """What is wrong with a run, or nothing."""
    if report.consoles.get("1") != known.report.consoles["1"]:
        return "the neighbour's console is another one"
    if report.contexts[known.neighbour] != known.report.contexts[known.neighbour]:
        return "the neighbour ends with other registers"
    if more := known.of_domain(report) - known.held:
        return f"the guest holds {min(more)}"
    return harmed_monitor(known, report) or late_exit(known, report)
