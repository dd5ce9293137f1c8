"""Enumerations of the crates, and the files that have a table of one: a row for most of its variants."""

from __future__ import annotations

import re
from dataclasses import dataclass
from pathlib import Path

COMMENTS = re.compile(r"//.*|--.*")
IMPORTS = re.compile(r"^\s*(?:pub )?use .*$", re.MULTILINE)
FOLDERS = ("src", "specs", "proofs")
# In tests a further variant wants no row.
TESTS = "nova_tests_"


@dataclass(frozen=True)
class Enumeration:
    """An enumeration: the heading of its section in docs/ARCHITECTURE.md, where it stands, and which share of its variants makes a table."""

    heading: str
    path: str
    name: str
    share: float


ENUMERATIONS = (
    Enumeration("A hypercall", "crates/nova_calls/src/call.rt", "Call", 0.75),
    Enumeration("A deed", "crates/nova_model/src/deed.rt", "Deed", 0.5),
    Enumeration("A kind of event", "crates/nova_model/src/event.rt", "EventKind", 0.75),
    Enumeration("A state of an execution context", "crates/nova_model/src/context.rt", "State", 0.75),
)


def variants(text: str, name: str) -> list[str]:
    """The variants of an enumeration, in a source."""
    found = re.search(rf"^pub enum {name} \{{(.*?)^\}}", text, re.MULTILINE | re.DOTALL)
    return re.findall(r"^    (\w+)", found[1], re.MULTILINE) if found else []


def named(text: str, names: list[str]) -> int:
    """How many of these names a text has, beside its comments and imports."""
    words = set(re.findall(r"\w+", IMPORTS.sub("", COMMENTS.sub("", text))))
    return sum(name in words for name in names)


def sources(top: Path) -> list[Path]:
    """The sources, definitions and proofs of all crates but those of tests."""
    folders = [crate / folder for crate in (top / "crates").iterdir() if not crate.name.startswith(TESTS) for folder in FOLDERS]
    return sorted(file for folder in folders for file in folder.rglob("*") if file.suffix in (".rt", ".antt"))


def tables(top: Path, of: Enumeration) -> list[str]:
    """The files that have a table of an enumeration, by path below the crates."""
    names = variants((top / of.path).read_text("utf-8"), of.name)
    return [
        file.relative_to(top / "crates").as_posix()
        for file in sources(top)
        if names and named(file.read_text("utf-8"), names) >= of.share * len(names)
    ]


# Where else a further variant shows: a heading, a definition, and the module that it is imported from.
CITED = (("A hypercall", "rows", "Rattle.nova_calls.specs.Hypercalls"),)


def citing(top: Path, name: str, module: str) -> list[str]:
    """The proofs that import a definition from a module, by path below the crates."""
    line = re.compile(rf"^use {re.escape(module)}\.\{{[^}}]*\b{name}\b", re.MULTILINE)
    proofs = [file for file in sources(top) if "proofs" in file.relative_to(top / "crates").parts]
    return [file.relative_to(top / "crates").as_posix() for file in proofs if line.search(file.read_text("utf-8"))]
