"""The table of definitions: what its rows define, and which laws they credit.

A row is `| `definition`, .. | `law` (`clause`, ..), `law` of `crate`; .. |`. A crate is that of the laws in its phrase, which ends with a
semicolon, a colon or a full stop; a law in a phrase without a crate may be of any. Names with a slash are files. A row whose left side
names nothing begins a subject.
"""

from __future__ import annotations

import re
from dataclasses import dataclass

from names import Law

SECTION = "# Definitions that code copies"
NAME = re.compile(r"`([^`]+)`")
# A name on the right side, and the clauses in brackets behind it.
CREDIT = re.compile(r"`([^`/]+)`(?: \((`[^`]+`(?:, `[^`]+`)*)\))?")
PHRASE_END = re.compile(r"[;:.] ")


@dataclass(frozen=True)
class Credit:
    """A law that a row credits, with its clauses, and the crates of its phrase."""

    law: str
    clauses: tuple[str, ...]
    crates: frozenset[str]


@dataclass(frozen=True)
class Row:
    """A row that names definitions, and its right side."""

    definitions: tuple[str, ...]
    right: str

    def credits(self, crates: set[str]) -> list[Credit]:
        """What it credits, where these are the names of crates."""
        found = []
        for phrase in PHRASE_END.split(self.right):
            names = CREDIT.findall(phrase)
            its = frozenset(name for name, _ in names if name in crates)
            found += [Credit(name, tuple(NAME.findall(clauses)), its) for name, clauses in names if name not in crates]
        return found

    def says_none(self) -> bool:
        """Whether some of what it defines is pinned by none."""
        return "**none**" in self.right


def read(text: str) -> list[Row]:
    """The rows of the table in a page."""
    section = text.partition(SECTION)[2].partition("\n## ")[0]
    rows = [line.split("|") for line in section.splitlines()]
    return [Row(tuple(NAME.findall(cells[1])), cells[2].strip()) for cells in rows if len(cells) == 4 and NAME.search(cells[1])]


def wrong(credit: Credit, laws: list[Law]) -> list[str]:
    """What is wrong with a credit: its law, its crate or a clause isn't there."""
    meant = [law for law in laws if law.name == credit.law and (not credit.crates or law.crate in credit.crates)]
    if not meant:
        where = f" of {' or '.join(sorted(credit.crates))}" if credit.crates else ""
        return [f"no law{where}: {credit.law}"]
    return [f"no clause of {credit.law}: {clause}" for clause in credit.clauses if all(clause not in law.clauses for law in meant)]
