"""Compares what docs/ARCHITECTURE.md says of crates and files with the crates.

python3 tools/changes [--tables | --write] [FOLDER]

Fails where the row of a crate isn't the first sentence that the crate says of itself, or a crate has none; and where the page names a file, or
a function in brackets behind one, that isn't there. `--tables` shows which files have a row for most hypercalls, deeds, kinds of events or
states, and which proofs cite the rows of hypercalls; `--write` writes the rows of the crates into the page.
"""

from __future__ import annotations

import argparse
import sys
from pathlib import Path

from crates import file_rows, stale_crates, with_crates
from page import gone, named
from tables import CITED, ENUMERATIONS, citing, tables

sys.path.append(str(Path(__file__).resolve().parents[1] / "build"))

from ending import ended  # noqa: E402

TOP = Path(__file__).resolve().parents[2]
PAGE = "docs/ARCHITECTURE.md"


def parser() -> argparse.ArgumentParser:
    """The words that the program takes."""
    words = argparse.ArgumentParser(prog="changes", description="Compares what the page on architecture says of files with the crates.")
    words.add_argument("--tables", action="store_true", help="show the files that a further variant concerns")
    words.add_argument("--write", action="store_true", help="write the rows of the crates into the page")
    words.add_argument("top", nargs="?", type=Path, default=TOP, metavar="FOLDER", help="the repository (this one)")
    return words


def shown(top: Path) -> str:
    """The files that have a table of each enumeration, and those that cite a definition beside it, by heading and crate."""
    texts = [f"{of.heading}: a row for most\n{file_rows(tables(top, of))}" for of in ENUMERATIONS]
    texts += [f"{heading}: cites {name}\n{file_rows(citing(top, name, module))}" for heading, name, module in CITED]
    return "\n\n".join(texts)


def main(words: argparse.Namespace) -> int:
    """Writes the faults and a line of counts, or the tables; the status is 1 where there is a fault."""
    if words.tables:
        print(shown(words.top))
        return 0
    text = (words.top / PAGE).read_text("utf-8")
    if words.write:
        (words.top / PAGE).write_text(with_crates(text, words.top), "utf-8")
        return 0
    faults = stale_crates(text, words.top) + gone(text, words.top)
    for fault in faults:
        print(f"{PAGE}: {fault}", file=sys.stderr)
    print(f"{len(named(text))} files named; {len(faults)} faults")
    return 1 if faults else 0


if __name__ == "__main__":
    sys.exit(ended("changes", lambda: main(parser().parse_args())))
