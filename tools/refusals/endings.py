"""How a run ended, and what is wrong with that: its status, its line on standard error, and what it wrote."""

from __future__ import annotations

import re

from runner import Ending

# The causes that a scenario, and an order, may be refused for.
OF_SCENARIO = (
    *("TooLong", "Syntax", "Repeated", "Missing", "Range", "Overlap"),
    *("UnknownName", "BadOperand", "OutOfRange", "TwiceLabel", "NoLabel"),
    *("NotElf", "Class", "ByteOrder", "Version", "NotExec", "Machine", "Table", "Dynamic", "Segment"),
)
OF_ORDER = ("TooLong", "BadLine", "BadCpu", "ZeroCount", "NotMerged", "TooMany", "Idle")

SCENARIO_LINE = re.compile(rf"nova: scenario line (0|[1-9][0-9]*): ({'|'.join(OF_SCENARIO)})\n".encode())
ORDER_LINE = re.compile(rf"nova: order line (0|[1-9][0-9]*): ({'|'.join(OF_ORDER)})\n".encode())
REPORT = re.compile(rb"run (quiet|open) (0|[1-9][0-9]*)\n(?s:.*)\n")


def lines_of(text: bytes) -> int:
    """How many lines a text has."""
    return text.count(b"\n") + (not text.endswith(b"\n") and text != b"")


def refusal(ending: Ending, form: re.Pattern[bytes], last: int) -> str:
    """What is wrong with a refusal, whose line is of this form and names one up to the last."""
    if ending.out:
        return "a refusal, and something is out"
    said = form.fullmatch(ending.line)
    if said is None:
        return f"the line {ending.line!r}"
    return "" if (said[2] == b"TooLong") == (said[1] == b"0") and int(said[1]) <= last else f"the line {ending.line!r} of a text of {last}"


def report(ending: Ending, word: bytes, limit: int) -> str:
    """What is wrong with an ending that has a report: it begins with this word, and with at most so many turns."""
    if ending.line != (b"" if word == b"quiet" else b"nova: not quiet\n"):
        return f"the line {ending.line!r}"
    said = REPORT.fullmatch(ending.out)
    return "" if said and said[1] == word and int(said[2]) <= limit else f"a report {ending.out[:40]!r}"


def wrong(ending: Ending, command: str, scenario: bytes, order: bytes | None, limit: int) -> str:
    """What is wrong with the ending of `check`, or of `solo` with or without an order; nothing where all is well."""
    match ending.status:
        case None:
            return "it had to be stopped"
        case 0 if command == "check":
            return "" if (ending.out, ending.line) == (b"ok\n", b"") else f"{ending.out[:40]!r} {ending.line!r}"
        case 0:
            return report(ending, b"quiet", limit)
        case 4:
            return refusal(ending, SCENARIO_LINE, lines_of(scenario) + 1)
        case 5 if order is not None:
            return refusal(ending, ORDER_LINE, lines_of(order))
        case 7 if command == "solo":
            return report(ending, b"open", limit)
        case _:
            return f"status {ending.status} {ending.line!r}"
