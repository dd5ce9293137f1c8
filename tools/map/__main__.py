"""Draws the crates of crates.txt in their layers, as SVG.

python3 tools/map [FILE]

writes the drawing to FILE, or to standard output. A layer is a heading of crates.txt (a line `# Name`); the first is the lowest. Crates of a
heading that begins with `Laws` stand beside the others, and crates of the headings in BELOW below all. Those in FIRST have a frame: they are
the ones to read first. Fails where a crate names one of a higher layer.
"""

from __future__ import annotations

import sys
from dataclasses import dataclass, field
from html import escape
from pathlib import Path

sys.path.append(str(Path(__file__).resolve().parents[1] / "build"))

from ending import ended  # noqa: E402

TOP = Path(__file__).resolve().parents[2]
WIDTH, SIDE, ROW, GAP, LETTER = 880, 200, 30, 10, 7.2
BELOW = ("Vectors", "Tests")
FIRST = ("nova_model", "law_integrity", "nova_kernel", "nova_run", "nova_top")
PAPER, INK, QUIET, LAYER, CRATE, LAW = "#ffffff", "#1f2328", "#59636e", "#f1f4f8", "#dbe7f7", "#e9f3de"


@dataclass
class Layer:
    """A heading, and the crates below it, each with those that it names."""

    name: str
    crates: dict[str, list[str]] = field(default_factory=dict)

    @property
    def is_beside(self) -> bool:
        """Whether it stands beside the others."""
        return self.name.startswith("Laws")

    @property
    def is_below(self) -> bool:
        """Whether it stands below all others."""
        return self.name.split(",")[0].split()[0] in BELOW


def read(text: str) -> list[Layer]:
    """The layers of a crates.txt, the lowest first."""
    layers: list[Layer] = []
    for line in text.splitlines():
        if line.startswith("# "):
            layers.append(Layer(line[2:].rstrip(".")))
        elif ":" in line:
            name, _, named = line.partition(":")
            layers[-1].crates[name.split()[0]] = named.split()
    return layers


def upward(layers: list[Layer]) -> list[str]:
    """The crates that name one of a higher layer, a line each. Laws may be named by all but what lies below them in crates.txt."""
    height = {crate: at for at, layer in enumerate(layers) for crate in layer.crates}
    return [
        f"{crate} of '{layer.name}' names {other} of '{layers[height[other]].name}'"
        for at, layer in enumerate(layers)
        for crate, named in layer.crates.items()
        for other in named
        if height.get(other, 0) > at
    ]


def rows(crates: list[str], width: float) -> list[list[str]]:
    """Crates in rows of a width."""
    made: list[list[str]] = [[]]
    used = 0.0
    for crate in crates:
        need = box_width(crate) + GAP
        if made[-1] and used + need > width:
            made.append([])
            used = 0.0
        made[-1].append(crate)
        used += need
    return made


def box_width(crate: str) -> float:
    """How wide a crate's box is."""
    return len(crate) * LETTER + 14


def text(x: float, y: float, words: str, colour: str, size: int = 12, weight: str = "normal") -> str:
    """A line of text."""
    return f'<text x="{x:.0f}" y="{y:.0f}" fill="{colour}" font-size="{size}" font-weight="{weight}">{escape(words)}</text>'


def box(x: float, y: float, width: float, height: float, colour: str, frame: str = "none") -> str:
    """A filled box, with a frame or without."""
    return f'<rect x="{x:.0f}" y="{y:.0f}" width="{width:.0f}" height="{height:.0f}" rx="4" fill="{colour}" stroke="{frame}" stroke-width="2"/>'


def band(layer: Layer, x: float, y: float, width: float) -> tuple[list[str], float]:
    """A layer's drawing at a place, and how high it is."""
    lines, drawn = rows(list(layer.crates), width - 2 * GAP), []
    height = 26 + len(lines) * (ROW + 4) + 4
    drawn += [box(x, y, width, height, LAYER), text(x + GAP, y + 17, layer.name, INK, 12, "bold")]
    for number, crates in enumerate(lines):
        left, top = x + GAP, y + 26 + number * (ROW + 4)
        for crate in crates:
            frame = INK if crate in FIRST else "none"
            colour = LAW if layer.is_beside or crate.startswith("law_") else CRATE
            drawn += [box(left, top, box_width(crate), ROW, colour, frame), text(left + 7, top + 19, crate, INK)]
            left += box_width(crate) + GAP
    return drawn, height


def stack(layers: list[Layer], x: float, y: float, width: float) -> tuple[list[str], float]:
    """Layers one below another, the last of them on top, and where they end."""
    drawn: list[str] = []
    for layer in reversed(layers):
        made, height = band(layer, x, y, width)
        drawn, y = drawn + made, y + height + GAP
    return drawn, y


def draw(layers: list[Layer]) -> str:
    """The drawing."""
    upper = [layer for layer in layers if not layer.is_beside and not layer.is_below]
    main, bottom = stack(upper, GAP, 34, WIDTH)
    beside, side_end = stack([layer for layer in layers if layer.is_beside], WIDTH + 2 * GAP, 34, SIDE)
    below, end = stack([layer for layer in layers if layer.is_below], GAP, max(bottom, side_end), WIDTH + SIDE + GAP)
    wide, high = WIDTH + SIDE + 3 * GAP, end
    note = "A crate names crates of its own layer, of layers below it, and laws (green). Framed: to be read first."
    head = f'<svg xmlns="http://www.w3.org/2000/svg" width="{wide}" height="{high:.0f}" font-family="DejaVu Sans Mono, monospace">'
    return "\n".join([head, f'<rect width="100%" height="100%" fill="{PAPER}"/>', text(GAP, 21, note, QUIET), *main, *beside, *below, "</svg>", ""])


def main(words: list[str]) -> int:
    """Writes the drawing. The answer is the exit status."""
    layers = read((TOP / "crates.txt").read_text())
    wrong = upward(layers)
    if wrong:
        print(*wrong, sep="\n", file=sys.stderr)
        return 1
    if words:
        Path(words[0]).write_text(draw(layers))
    else:
        sys.stdout.write(draw(layers))
    return 0


if __name__ == "__main__":
    sys.exit(ended("map", lambda: main(sys.argv[1:])))
