"""The machine instructions a turn that are kept, so that no row grows slower unseen."""

from __future__ import annotations

from collections.abc import Mapping
from pathlib import Path

FILE = Path(__file__).with_name("kept.txt")

# How much more than what is kept a row may need.
MARGIN = 1.10


def read(text: str) -> dict[str, float]:
    """The rows of a file: a figure, a blank and a name each."""
    pairs = (line.split(" ", 1) for line in text.splitlines() if line and not line.startswith("#"))
    return {name: float(figure) for figure, name in pairs}


def write(figures: Mapping[str, float]) -> str:
    """The file of these rows."""
    return "# Machine instructions a turn, by row.\n" + "".join(f"{figure:.1f} {name}\n" for name, figure in figures.items())


def faults(kept: Mapping[str, float], measured: Mapping[str, float]) -> list[str]:
    """The rows that need more than they may, or of which nothing is kept."""
    found = []
    for name, figure in measured.items():
        if name not in kept:
            found.append(f"{name}: {figure:.1f}, and nothing is kept")
        elif figure > kept[name] * MARGIN:
            found.append(f"{name}: {figure:.1f} in place of {kept[name]:.1f}")
    return found
