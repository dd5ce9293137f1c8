"""The laws that no row of docs/THEOREMS.md links to: what the comment of each says first.

They stand in the table of the section `## Other laws`, by the order of crates.txt: a row for each crate, `| **crate** | its subject |`,
and then `` | [`law`](../crates/..) | the first sentence of its comment | `` for each law, one of more than LONG words up to its colon, where
FEW come before that.
"""

from __future__ import annotations

import re
from pathlib import Path

from heads import crate_summary, layers, shortened
from names import Law
from sentences import sentence, told

NAME = "Other laws"
HEADING = f"## {NAME}"
TABLE = "| law | what it says |\n|---|---|\n"
# How the rows of a crate and of a law begin.
CRATE, LAW = "| **", "| [`"
LONG, FEW = 30, 10


def parts(page: str) -> tuple[str, str, str]:
    """A page up to the heading of the section with it, the section, and what comes after it."""
    before, mark, rest = page.partition(f"\n{HEADING}\n")
    found = re.search(r"^## ", rest, re.MULTILINE)
    end = found.start() if found else len(rest)
    return before + mark, rest[:end], rest[end:]


def of_crate(crate: str, top: Path) -> str:
    """The row of a crate: its subject."""
    return f"{CRATE}{crate}** | {crate_summary(top, crate)} |"


def said(law: Law, top: Path) -> str:
    """What the comment of a law says first, as the cell of a table; empty without a comment."""
    first = sentence((top / law.path).read_text("utf-8"), law.name)
    return shortened(first, LONG, FEW).replace("|", r"\|")


def of_law(law: Law, top: Path) -> str:
    """The row of a law."""
    return f"{LAW}{law.name}`](../{law.path}) | {said(law, top)} |"


def without_row(page: str, laws: list[Law], top: Path) -> dict[str, list[Law]]:
    """The laws that no row of the page links to, by their crates, in the order of crates.txt."""
    named = {(link.path, link.name) for link in told(page)}
    left = [law for law in laws if (law.path, law.name) not in named]
    crates = [crate for layer in layers(top) for crate in layer.crates]
    by_crate = {crate: [law for law in left if law.crate == crate] for crate in crates}
    return {crate: found for crate, found in by_crate.items() if found}


def wanted(page: str, laws: list[Law], top: Path) -> list[str]:
    """The rows that the section is to have: a law without a comment has none."""
    rows: list[str] = []
    for crate, found in without_row(page, laws, top).items():
        rows += [of_crate(crate, top), *(of_law(law, top) for law in found if said(law, top))]
    return rows


def stale(page: str, laws: list[Law], top: Path) -> list[str]:
    """The rows that are missing, those that are stale and those of a law without a comment, a fault each; another order is one, too."""
    there = [line for line in parts(page)[1].splitlines() if line.startswith((CRATE, LAW))]
    rows = wanted(page, laws, top)
    faults = [f'"{NAME}" lacks this row: {row}' for row in rows if row not in there]
    faults += [f'"{NAME}" has a row that no law without one above is to have: {row}' for row in there if row not in rows]
    silent = [law for found in without_row(page, laws, top).values() for law in found if not said(law, top)]
    faults += [f"{law.path} says nothing of {law.name}" for law in silent]
    return faults or ([] if there == rows else [f'"{NAME}" has its rows in another order than crates.txt'])


def written(page: str, laws: list[Law], top: Path) -> str:
    """The page with the table of the section written anew: what stands before it stays."""
    before, section, after = parts(page)
    introduction = re.split(r"^(?:\||- \[`)", section, maxsplit=1, flags=re.MULTILINE)[0].strip("\n")
    table = TABLE + "\n".join(wanted(page, laws, top))
    return before + "\n" + (f"{introduction}\n\n" if introduction else "") + table + "\n" + ("\n" + after if after else "")
