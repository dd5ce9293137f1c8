"""The lists of the crates of each layer, which this tool writes into docs/ARCHITECTURE.md, and lists of files by crate, which it shows."""

from __future__ import annotations

import re
import sys
from itertools import groupby
from pathlib import Path

sys.path.append(str(Path(__file__).resolve().parents[1] / "definitions"))

from heads import crate_summary, layers  # noqa: E402

# The section with a list for each layer, below the layer's name.
HEADING = "By layer"
# Crates that have no row: those of tests, and those that outside tools are compared with.
WITHOUT_ROW = ("nova_tests_", "vectors_")
# How a layer's name, and how the row of a crate begins.
BEGINS = ("**", "- ")


def crate_lists(top: Path) -> str:
    """A list for each layer of crates.txt: its crates that have a row, and what each says of itself."""
    texts = []
    for layer in layers(top):
        rows = [f"- `{crate}`: {crate_summary(top, crate)}" for crate in layer.crates if not crate.startswith(WITHOUT_ROW)]
        if rows:
            texts.append("\n".join([f"**{layer.name}**", "", *rows, ""]))
    return "\n".join(texts)


def file_rows(files: list[str]) -> str:
    """The lines of a list of files, a crate each."""
    crates = groupby((file.partition("/")[::2] for file in files), key=lambda pair: pair[0])
    return "\n".join(f"  {crate}: {', '.join(file for _, file in pairs)}" for crate, pairs in crates)


def span(text: str, heading: str) -> tuple[int, int]:
    """Where a section of the third level begins, behind its heading, and where it ends; both are the end of a page without it."""
    found = re.search(rf"^### {re.escape(heading)}\n", text, re.MULTILINE)
    if not found:
        return len(text), len(text)
    after = re.compile(r"^#{1,3} ", re.MULTILINE).search(text, found.end())
    return found.end(), after.start() if after else len(text)


def with_crates(text: str, top: Path) -> str:
    """The page with the lists of the crates: what stands before the first of them stays."""
    begin, end = span(text, HEADING)
    before = text[begin:end].partition("\n**")[0].rstrip("\n")
    return text[:begin] + before + "\n\n" + crate_lists(top) + "\n" + text[end:]


def stale_crates(text: str, top: Path) -> list[str]:
    """The rows of crates that are missing, or that aren't what the crate says, a line each."""
    begin, end = span(text, HEADING)
    there = [line for line in text[begin:end].splitlines() if line.startswith(BEGINS)]
    wanted = [line for line in crate_lists(top).splitlines() if line.startswith(BEGINS)]
    faults = [f"{crate} says nothing at its head" for layer in layers(top) for crate in layer.crates if not crate_summary(top, crate)]
    faults += [f'"{HEADING}" lacks this row: {line}' for line in wanted if line not in there]
    faults += [f'"{HEADING}" has a row of no crate: {line}' for line in there if line not in wanted]
    return faults or ([] if there == wanted else [f'"{HEADING}" has its rows in another order than crates.txt'])
