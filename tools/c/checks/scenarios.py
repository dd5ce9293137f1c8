"""The kept scenarios: built anew, compared byte for byte, and run."""

from __future__ import annotations

import shlex
import subprocess
from typing import TYPE_CHECKING

if TYPE_CHECKING:
    from pathlib import Path

    from outcome import Outcome
    from programs import Tools

# Each has a line for each scenario: the words for build.sh, at the top of the repository.
LISTS = ["tools/c/scenarios", "tools/c/examples/scenarios"]

# What they were made with. Another compiler may write other bytes.
VERSION = "12.2.0"


def lines(top: Path) -> list[list[str]]:
    """The words of all lines."""
    texts = [(top / name).read_text() for name in LISTS if (top / name).exists()]
    return [words for text in texts for line in text.splitlines() if (words := shlex.split(line, comments=True))]


def version(tools: Tools) -> str:
    """The version of the compiler."""
    return subprocess.run([tools.compiler, "-dumpfullversion"], capture_output=True, text=True, check=True).stdout.strip()


def wrong_bytes(tools: Tools, words: list[str], kept: Path) -> str:
    """Builds a scenario anew, and answers how it differs from what is kept."""
    anew = tools.scratch / kept.name
    built = tools.build([str(anew) if word.endswith(".nova") else word for word in words])
    if built.returncode or built.stderr:
        return f"build.sh says: {built.stderr.strip()}"
    if not kept.exists():
        return "isn't kept"
    return "" if anew.read_bytes() == kept.read_bytes() else "is built otherwise than it is kept"


def wrong_report(tools: Tools, kept: Path) -> str:
    """Runs a scenario in three ways, and answers what is wrong."""
    order, report = kept.with_suffix(".order"), kept.with_suffix(".report")
    written, wrong = tools.runs(kept, order if order.exists() else None)
    if wrong:
        return wrong
    return "" if report.exists() and written == report.read_text() else "writes another report than is kept"


def look_at(outcome: Outcome, tools: Tools, words: list[str], *, building: bool) -> None:
    """Looks at the scenario of a line."""
    kept = tools.top / next(word for word in words if word.endswith(".nova"))
    if not outcome.wants(kept.name):
        return
    if building:
        outcome.count(f"{kept.name}, built anew", wrong_bytes(tools, words, kept))
    if kept.exists():
        outcome.count(f"{kept.name}, run", wrong_report(tools, kept))


def look(outcome: Outcome, tools: Tools) -> None:
    """Looks at all scenarios of the lists. One program, as words and as an executable, has one report."""
    building = tools.has_compiler
    if building and version(tools) != VERSION:
        building = False
        outcome.skip(f"the bytes of kept scenarios: the compiler is {version(tools)}, and they were made with {VERSION}")
    for words in lines(tools.top):
        look_at(outcome, tools, words, building=building)
    reports = [(tools.top / "examples" / f"{name}.report").read_bytes() for name in ("console", "words")]
    if outcome.wants("words.nova"):
        outcome.count("words.nova, as console.nova", "" if reports[0] == reports[1] else "their reports differ")
