"""The rows of docs/THEOREMS.md: what each links to, which clauses it names, and which edits it says are refused.

The last cell of a row is `[`name`](../crates/..): `clause`, ..`, perhaps several. Behind the link to a function stand clauses of its
contract; behind the link to a type, functions of its crate or their clauses; behind the link to a record of a specification, its fields. In
the section on mutants the last cell is `` `crate`: `edit`, ..; `crate`: .. ``.
"""

from __future__ import annotations

import re
from dataclasses import dataclass
from pathlib import Path

from names import CLAUSE

MUTANTS = "## Mutants"
# What has a row for each of its clauses or fields: the top calls, and what one of them says of a run.
WHOLE = (
    ("nova_main", "crates/nova_top/src/main_call.rt"),
    ("policy_main", "crates/nova_policy/src/main_call.rt"),
    ("IsRun", "crates/nova_answers/specs/Runs.antt"),
)
LINK = re.compile(r"\[`([^`]+)`\]\(\.\./(crates/[^)#]+)\)([^\[]*)")
NAME = re.compile(r"`([^`]+)`")


@dataclass(frozen=True)
class Link:
    """A name with the file that a row links to, and the names behind it."""

    name: str
    path: str
    behind: tuple[str, ...]


def links(text: str) -> list[Link]:
    """The links of all rows of a page."""
    return [Link(name, path, tuple(NAME.findall(behind))) for cell in last_cells(text) for name, path, behind in LINK.findall(cell)]


def last_cells(text: str) -> list[str]:
    """The last cell of each row of a text."""
    return [line.rstrip(" |").rpartition("|")[2] for line in text.splitlines() if line.startswith("|")]


def contracts(text: str, name: str) -> list[str]:
    """The contracts of the functions of a name: each ends where the body begins, or at an empty line."""
    contract = rf"^( *)(?:pub(?:\([a-z]+\))? )?fn {name}\b(.*?)(?:^\1\{{|^$|\Z)"
    return [found[1] for found in re.findall(contract, text, re.MULTILINE | re.DOTALL)]


def fields(text: str, name: str) -> set[str]:
    """The fields of a record of a specification, which ends at an empty line."""
    record = re.search(rf"^pub record {name} .*?(?:^$|\Z)", text, re.MULTILINE | re.DOTALL)
    return set(re.findall(r"^  pub (\w+) :", record[0], re.MULTILINE)) if record else set()


def clauses(text: str, name: str) -> set[str]:
    """The clauses of the functions of a name."""
    return {clause for contract in contracts(text, name) for clause in CLAUSE.findall(contract)}


def unnamed(told: list[Link], whole: tuple[tuple[str, str], ...], top: Path) -> list[str]:
    """The clauses and fields that no row names of what is to be named whole, a line each."""
    faults = []
    for name, path in whole:
        text = (top / path).read_text("utf-8")
        stated = fields(text, name) if path.endswith(".antt") else clauses(text, name)
        named = {behind for link in told if (link.name, link.path) == (name, path) for behind in link.behind}
        faults += [f"no row of {name}: {clause}" for clause in sorted(stated - named)]
    return faults


def missing(link: Link, top: Path) -> list[str]:
    """What a link names that isn't there, a line each."""
    file, name = top / link.path, link.name.rpartition("::")[2]
    if not file.is_file():
        return [f"no file of {link.name}: {link.path}"]
    text = file.read_text("utf-8")
    if file.suffix == ".antt":
        there = re.search(rf"^pub record {name}\b", text, re.MULTILINE)
        known = set(re.findall(r"^  pub (\w+) :", text, re.MULTILINE))
    elif contracts(text, name):
        there, known = True, clauses(text, name)
    else:
        there = re.search(rf"^pub(?:\([a-z]+\))? (?:struct|enum|trait) {name}\b", text, re.MULTILINE)
        known = names_of_crate(file)
    wrong = [] if there else [f"not in {link.path}: {link.name}"]
    return wrong + [f"not behind {link.name}: {name}" for name in link.behind if there and name not in known]


def edits_gone(text: str, top: Path) -> list[str]:
    """The edits that the section on mutants names and no crate has, a line each."""
    section = text.partition(MUTANTS)[2].partition("\n## ")[0]
    phrases = [NAME.findall(phrase) for cell in last_cells(section) for phrase in cell.split("; ")]
    named = [(names[0], edit) for names in phrases for edit in names[1:]]
    return [f"no edit of {crate}: {edit}" for crate, edit in named if not (top / "crates" / crate / "must-fail" / f"{edit}.edit").is_file()]


def names_of_crate(file: Path) -> set[str]:
    """The functions and clauses of all sources of a file's crate."""
    top = next(folder for folder in file.parents if folder.name == "src")
    texts = [source.read_text("utf-8") for source in sorted(top.rglob("*.rt"))]
    return {name for text in texts for name in CLAUSE.findall(text) + re.findall(r"\bfn (\w+)", text)}
