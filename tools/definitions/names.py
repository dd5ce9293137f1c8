"""The names that sources have: definitions of a folder, and laws of crates with their clauses."""

from __future__ import annotations

import re
from collections import Counter
from dataclasses import dataclass, field
from pathlib import Path

# A public definition begins at the start of its line: `abbrev pub x : T`, `pub record X (..) : T where`.
DEFINITION = re.compile(r"^(?:[a-z]+ )?pub (?:record |data )?(\S+)", re.MULTILINE)
# A type of numbers, lists or fields, with nothing in it to pin: `abbrev pub X : Type 0`, `pub record X : Type 0 where`.
TYPE = re.compile(r"^(?:abbrev )?pub (?:record )?(\w+) : Type 0(?: where)?$", re.MULTILINE)
# A law is a public function that takes nothing and gives nothing; its contract ends where its body begins.
LAW = re.compile(r"^pub fn (\w+)\(\)\n(.*?)^\{", re.MULTILINE | re.DOTALL)
CLAUSE = re.compile(r"^ +ensures (\w+) \{", re.MULTILINE)


@dataclass(frozen=True)
class Law:
    """A law of a crate, with the names of its clauses; one without names has none. Its source is a path below the repository."""

    crate: str
    name: str
    clauses: frozenset[str]
    path: str = field(default="", compare=False)


def defined(folder: Path) -> set[str]:
    """The public definitions of a folder of specs. One whose name two files have has its file before it: `Turn.answer_of`."""
    files = {file.stem: names_in(file.read_text("utf-8")) for file in folder.glob("*.antt")}
    often = Counter(name for names in files.values() for name in names)
    return {name if often[name] == 1 else f"{file}.{name}" for file, names in files.items() for name in names}


def types(folder: Path) -> set[str]:
    """The types among the definitions of a folder of specs."""
    return {name for file in folder.glob("*.antt") for name in TYPE.findall(file.read_text("utf-8"))}


def names_in(text: str) -> set[str]:
    """The public definitions of one file."""
    return set(DEFINITION.findall(re.sub(r"^(?:pub )?(?:mod|use) .*", "", text, flags=re.MULTILINE)))


def laws_of(top: Path) -> list[Law]:
    """The laws of all crates of a repository."""
    found = []
    for file in sorted(top.glob("crates/*/src/**/*.rt")):
        path = file.relative_to(top)
        for name, contract in LAW.findall(file.read_text("utf-8")):
            found.append(Law(path.parts[1], name, frozenset(CLAUSE.findall(contract)), path.as_posix()))
    return found
