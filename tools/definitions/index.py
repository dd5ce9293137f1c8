"""The rows of docs/DEFINITIONS.md, one a file of definitions: what the file says of itself.

They stand in the section `## Files`, by the layers of crates.txt, a list for each crate below its name. What a file says begins without the
file's own name and a colon. A file without a comment at its head has a row that is written by hand, with BY_HAND behind the file.
"""

from __future__ import annotations

import re
from pathlib import Path

from heads import layers, specs

SECTION = "## Files"
BY_HAND = "†"
ROW = re.compile(rf"^- `([^`]+)`( {BY_HAND})?: (.*)$")
CRATE = re.compile(r"^`(\w+/specs)`$")


def parts(page: str) -> tuple[str, str, str]:
    """A page before the section, the section, and what comes after it."""
    before, mark, rest = page.partition(f"\n{SECTION}\n")
    found = re.search(r"^## ", rest, re.MULTILINE)
    end = found.start() if found else len(rest)
    return before + mark, rest[:end], rest[end:]


def rows(section: str) -> dict[str, tuple[bool, str]]:
    """The rows of a section by file, below the crates: whether one is written by hand, and what it says."""
    folder, found = "", {}
    for line in section.splitlines():
        if crate := CRATE.match(line):
            folder = crate[1]
        elif row := ROW.match(line):
            found[f"{folder}/{row[1]}"] = (bool(row[2]), row[3])
    return found


def wanted(top: Path, crate: str) -> list[tuple[str, str]]:
    """The files of definitions of a crate, by path below the crates, and the row that each is to have; empty where the file says nothing."""
    return [(file, without_name(file, said).replace(r"\|", "|")) for file, said in specs(top, crate)]


def without_name(file: str, said: str) -> str:
    """What a file says of itself, without its own name and a colon in front: `RangeWords.antt` with `Range words: ..`."""
    name = " ".join(re.findall(r"[A-Z][a-z]*", Path(file).stem))
    return said[len(name) + 2 :] if said.lower().startswith(f"{name.lower()}: ") else said


def introduction(section: str) -> str:
    """What a section says before its first table."""
    return re.split(r"^### ", section, maxsplit=1, flags=re.MULTILINE)[0]


def stale(page: str, top: Path) -> list[str]:
    """The rows that are missing, that aren't what their file says, or whose file is gone, a line each."""
    there, faults = rows(parts(page)[1]), []
    files = {file: said for layer in layers(top) for crate in layer.crates for file, said in wanted(top, crate)}
    for file, said in files.items():
        by_hand, row = there.get(file, (False, ""))
        if not row:
            faults.append(f"no row of {file}")
        elif by_hand and said:
            faults.append(f"the row of {file} is written by hand, and the file says: {said}")
        elif not by_hand and row != said:
            faults.append(f"the row of {file} isn't what the file says: {said or 'nothing'}")
    return faults + [f"no file of definitions: {file}" for file in there if file not in files]


def crate_list(crate: str, files: list[tuple[str, str]], there: dict[str, tuple[bool, str]]) -> str:
    """The rows of a crate below its name; of a file that says nothing as the page has it."""
    rows = [(file, said or there.get(file, (True, ""))[1], f" {BY_HAND}" * (not said)) for file, said in files]
    lines = "".join(f"- `{file.removeprefix(f'{crate}/specs/')}`{mark}: {said}\n" for file, said, mark in rows)
    return f"`{crate}/specs`\n\n{lines}\n"


def written(page: str, top: Path) -> str:
    """The page with its rows written anew; those that are written by hand stay, unless their file says something."""
    before, section, after = parts(page)
    there = rows(section)
    text = introduction(section)
    for layer in layers(top):
        lists = [crate_list(crate, files, there) for crate in layer.crates if (files := wanted(top, crate))]
        if lists:
            text += f"### {layer.name}\n\n" + "".join(lists)
    return before + text.rstrip("\n") + "\n" + ("\n" + after if after else "")
