"""Compares docs/PINS.md with the definitions of the model and the laws of the crates, docs/THEOREMS.md with the crates' contracts,
docs/DEFINITIONS.md with the files of definitions, and scenarios of specifications with the texts of examples/.

python3 tools/definitions [--write] [FOLDER]

Fails where a definition of the model, but a type, is missing from the table of docs/PINS.md, where the table has a name that no definition
has, where it credits a law or a clause that isn't there, or a law of another crate; and where a row of docs/THEOREMS.md links to a function
that isn't in the file, or names a clause that the function's contract hasn't, or an edit that no crate has, or where no row has a clause of a
top call, a line isn't the first sentence of its comment, or the table of other laws isn't what those without a row above say; where a row of
docs/DEFINITIONS.md isn't what its file says, or a file has none; and where a scenario of a specification isn't word for word the text of its
name. `--write` writes these lines, that table and the rows of docs/DEFINITIONS.md anew.
"""

from __future__ import annotations

import argparse
import sys
from pathlib import Path

import index
import others
import sentences
from names import defined, laws_of, types
from rows import WHOLE, edits_gone, missing, unnamed
from scenarios import differing
from table import Row, read, wrong

sys.path.append(str(Path(__file__).resolve().parents[1] / "build"))

from ending import ended  # noqa: E402

TOP = Path(__file__).resolve().parents[2]
INDEX = "docs/DEFINITIONS.md"
THEOREMS = "docs/THEOREMS.md"


def parser() -> argparse.ArgumentParser:
    """The words that the program takes."""
    words = argparse.ArgumentParser(prog="definitions", description="Compares pages on what is proved with definitions and contracts.")
    words.add_argument("--write", action="store_true", help=f"write the rows of {INDEX}, and the sentences and other laws of {THEOREMS}")
    words.add_argument("top", nargs="?", type=Path, default=TOP, metavar="FOLDER", help="the repository (this one)")
    return words


def named_wrong(rows: list[Row], top: Path) -> list[str]:
    """The definitions of the model, but its types, that no row names, and the names that no definition has, a line each."""
    named = {name for row in rows for name in row.definitions}
    model = defined(top / "crates/nova_model/specs")
    known = model.union(*(defined(folder) for folder in top.glob("crates/*/specs") if folder.parent.name != "nova_model"))
    missing = [f"missing from the table: {name}" for name in sorted(model - types(top / "crates/nova_model/specs") - named)]
    return missing + [f"no definition: {name}" for name in sorted(named - known)]


def credited_wrong(rows: list[Row], top: Path) -> list[str]:
    """The rows that say nothing, and what they credit that isn't there, a line each."""
    laws, crates = laws_of(top), {folder.name for folder in top.glob("crates/*")}
    silent = [f"row of {row.definitions[0]}: nothing is said" for row in rows if not row.right]
    credits = [(row, credit) for row in rows for credit in row.credits(crates)]
    return silent + [f"row of {row.definitions[0]}: {fault}" for row, credit in credits for fault in wrong(credit, laws)]


def theorems_wrong(page: str, top: Path) -> list[str]:
    """The links, clauses, edits and other laws of the page that aren't as the crates have them, a line each."""
    told = sentences.told(page)
    not_there = [fault for link in told for fault in missing(link, top)]
    faults = not_there + unnamed(told, WHOLE, top) + edits_gone(page, top)
    return faults + sentences.stale(page, top) + others.stale(page, laws_of(top), top)


def theorems_written(page: str, top: Path) -> str:
    """The page with its sentences and its other laws written anew."""
    return others.written(sentences.written(page, top), laws_of(top), top)


def write(top: Path) -> None:
    """Writes what is written of both pages."""
    for page, text in ((INDEX, index.written), (THEOREMS, theorems_written)):
        file = top / page
        file.write_text(text(file.read_text("utf-8"), top), "utf-8")


def main(words: argparse.Namespace) -> int:
    """Writes the faults and a line of counts, or what is written of the pages; the status is 1 where there is a fault."""
    if words.write:
        write(words.top)
        return 0
    pins, theorems, definitions = ((words.top / page).read_text("utf-8") for page in ("docs/PINS.md", THEOREMS, INDEX))
    rows = read(pins)
    faults = named_wrong(rows, words.top) + credited_wrong(rows, words.top)
    faults += [f"{THEOREMS}: {fault}" for fault in theorems_wrong(theorems, words.top)]
    faults += [f"{INDEX}: {fault}" for fault in index.stale(definitions, words.top)] + differing(words.top)
    for fault in faults:
        print(fault, file=sys.stderr)
    named = {name for row in rows for name in row.definitions}
    none = sum(row.says_none() for row in rows)
    told = len(sentences.told(theorems))
    print(f"{len(named)} definitions in {len(rows)} rows, {none} with none; {told} links of theorems; {len(faults)} faults")
    return 1 if faults else 0


if __name__ == "__main__":
    sys.exit(ended("definitions", lambda: main(parser().parse_args())))
