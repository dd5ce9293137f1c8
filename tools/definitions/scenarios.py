"""Scenarios that specifications have word for word, compared with the texts of examples/."""

from __future__ import annotations

import re
from dataclasses import dataclass
from pathlib import Path

from words import assembled

# The file of a crate whose scenarios are texts of examples/, by the names of these.
FILE = "crates/law_integrity/specs/Examples.antt"
SCENARIO = re.compile(r"^abbrev pub (\w+) : Scenario\n(.*?)^}", re.MULTILINE | re.DOTALL)
NUMBERS = ("cpus", "ram", "consoles")
ROOT = ("pc", "sp", "priority", "quantum")


@dataclass(frozen=True)
class Told:
    """What a scenario says: the numbers of its settings, of its root, and its images, by their addresses."""

    settings: dict[str, int]
    root: list[int]
    images: list[tuple[int, list[int]]]


def of_text(text: str) -> Told:
    """What a text says, whose images are all `asm` blocks."""
    settings = {name: int(number, 0) for name, number in re.findall(r"^(\w+) (\w+)(?=\s|$)", text, re.MULTILINE) if name in NUMBERS}
    root = re.search(r"^root (\S+) (\S+) (\S+) (\S+)", text, re.MULTILINE)
    blocks = re.findall(r"^image (\w+) asm\n(.*?)^end$", text, re.MULTILINE | re.DOTALL)
    images = [(int(address, 0), assembled(block.split("\n"), int(address, 0))) for address, block in blocks]
    return Told(settings, [int(number, 0) for number in root.groups()], images)


def of_spec(text: str) -> Told:
    """What a scenario of a specification says."""
    settings = {name: int(re.search(rf"\b{name} = (\d+);", text).group(1)) for name in NUMBERS}
    root = [int(re.search(rf"\b{name} = (\d+)[; ]", text).group(1)) for name in ROOT]
    images = re.findall(r"image (\d+) \(([\d∷\s]*)\[\]\)", text)
    return Told(settings, root, [(int(address), [int(word) for word in re.findall(r"\d+", words)]) for address, words in images])


def differing(top: Path) -> list[str]:
    """The scenarios that say other than the text of their name, a line each."""
    found = SCENARIO.findall((top / FILE).read_text("utf-8"))
    faults = [] if found else [f"no scenario in {FILE}"]
    for name, body in found:
        text = top / f"examples/{name}.nova"
        if not text.exists():
            faults.append(f"{FILE}: no {text.name} for {name}")
        elif of_spec(body) != of_text(text.read_text("utf-8")):
            faults.append(f"{FILE}: {name} isn't {text.name}")
    return faults
