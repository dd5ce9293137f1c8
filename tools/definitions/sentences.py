"""The lines of docs/THEOREMS.md that say of a function or type what its doc comment says first.

A line is `` - [`Lines`](../crates/..) (`clause`, ..): the first sentence of the comment ``. Before the colon it is written by hand.
"""

from __future__ import annotations

import re
from dataclasses import dataclass
from pathlib import Path

from heads import SENTENCE
from rows import NAME, Link, links

LINE = re.compile(r"^(- \[`([\w:]+)`\]\(\.\./(crates/[^)#]+\.rt)\)([^\[\]:]*)):(?: (.*))?$", re.MULTILINE)
COMMENT = re.compile(r"(?:^ *///.*\n)+", re.MULTILINE)


@dataclass(frozen=True)
class Line:
    """A line: what it links to, how it begins, and the sentence that it has."""

    link: Link
    begins: str
    sentence: str


def lines(page: str) -> list[Line]:
    """The lines of a page."""
    return [Line(Link(name, path, tuple(NAME.findall(behind))), begins, said) for begins, name, path, behind, said in LINE.findall(page)]


def told(page: str) -> list[Link]:
    """The links of all rows and lines of a page."""
    return links(page) + [line.link for line in lines(page)]


def sentence(text: str, name: str) -> str:
    """What the comment of a function, a type or a trait says first, of `Type::name` that of the type's; empty without one."""
    owner, _, last = name.rpartition("::")
    begins = re.search(rf"^(?:impl|pub trait)\b[^\n]*\b{owner}\b", text, re.MULTILINE) if owner else None
    head = rf"({COMMENT.pattern})(?: *#\[.*\n)* *(?:pub(?:\([a-z]+\))? )?(?:fn|struct|enum|trait) {last}\b"
    found = re.compile(head, re.MULTILINE).search(text, begins.start() if begins else 0)
    if not found:
        return ""
    said = " ".join(line.strip().removeprefix("///").strip() for line in found[1].splitlines())
    first = SENTENCE.match(said)
    return first[0] if first else said


def wanted(link: Link, top: Path) -> str:
    """What the line of a link is to say; empty where its file is gone."""
    file = top / link.path
    return sentence(file.read_text("utf-8"), link.name) if file.is_file() else ""


def stale(page: str, top: Path) -> list[str]:
    """The lines that don't say what the comment says, and those without a comment, a fault each."""
    faults = []
    for line in lines(page):
        said = wanted(line.link, top)
        if not said or line.sentence != said:
            faults.append(f"the line of {line.link.name} isn't what {line.link.path} says: {said or 'nothing'}")
    return faults


def written(page: str, top: Path) -> str:
    """The page with the sentences of its lines written anew; one without a comment stays."""

    def anew(found: re.Match[str]) -> str:
        said = wanted(Link(found[2], found[3], ()), top)
        return f"{found[1]}: {said}" if said else found[0]

    return LINE.sub(anew, page)
