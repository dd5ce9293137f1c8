"""What crates and files of definitions say of themselves: the first sentence of the comment at their head, by the layers of crates.txt."""

from __future__ import annotations

import re
from dataclasses import dataclass
from pathlib import Path

SENTENCE = re.compile(r".*?[.!?](?=\s|$)")
# A remark behind the first sentence that says where the rule comes from.
SOURCE = re.compile(r"\((?:NOVA|EuroSys|RISC-V|RV32I)[^()]*\)")
# A sentence of more than LONG words stands up to its first colon in an index, where at least FEW words come before that.
LONG, FEW = 20, 4
# What only names the files beside it.
NAMES = "Lib.antt"


@dataclass(frozen=True)
class Layer:
    """A heading of crates.txt, and the crates below it."""

    name: str
    crates: tuple[str, ...]


def layers(top: Path) -> list[Layer]:
    """The layers of a repository, the lowest first."""
    found: list[tuple[str, list[str]]] = []
    for line in (top / "crates.txt").read_text("utf-8").splitlines():
        if line.startswith("# "):
            found.append((line[2:].rstrip("."), []))
        elif ":" in line:
            found[-1][1].append(line.partition(":")[0].split()[0])
    return [Layer(name, tuple(crates)) for name, crates in found]


def head(text: str, mark: str) -> str:
    """The first paragraph of the comment that a text begins with, whose lines begin with this mark; empty where there is none."""
    lines: list[str] = []
    for line in text.splitlines():
        said = line.removeprefix(mark).strip()
        if not line.startswith(mark) or not said:
            break
        lines.append(said)
    return " ".join(lines)


def summary(text: str, mark: str) -> str:
    """The first sentence of that comment, a long one shortened, with the source that it names, as the cell of a table."""
    said = head(text, mark)
    sentence = SENTENCE.match(said)
    first = sentence[0] if sentence else said
    source = SOURCE.search(said, len(first))
    short = shortened(first)
    return (f"{short} {source[0]}" if source else short).replace("|", r"\|")


def shortened(sentence: str, long: int = LONG, few: int = FEW) -> str:
    """A sentence, up to its first colon where it has more than `long` words, at least `few` of them before it, and no command there."""
    before = sentence.partition(": ")[0]
    is_said = len(before.split()) >= few and not before.startswith("`")
    is_cut = is_said and before != sentence and len(sentence.split()) > long
    return f"{before}." if is_cut else sentence


def crate_summary(top: Path, crate: str) -> str:
    """What a crate says of itself."""
    sources = [top / "crates" / crate / "src" / name for name in ("lib.rt", "main.rt")]
    return next((summary(file.read_text("utf-8"), "//!") for file in sources if file.is_file()), "")


def specs(top: Path, crate: str) -> list[tuple[str, str]]:
    """The files of definitions of a crate, by path below the crates, and what each says of itself."""
    files = sorted((top / "crates" / crate / "specs").rglob("*.antt"))
    return [(file.relative_to(top / "crates").as_posix(), summary(file.read_text("utf-8"), "--")) for file in files if file.name != NAMES]
