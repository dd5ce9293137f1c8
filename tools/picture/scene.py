"""What a picture is made of, before it is written as SVG: lines, boxes, texts, marks and arrows at their places, each with a class.

Places are in pixels from the left upper corner. A class is a name of the style sheet in `drawing`.
"""

from __future__ import annotations

from dataclasses import dataclass, field
from enum import Enum

# All texts are in a font whose letters have one width.
FONT, TITLE = 11, 15
LETTER = 0.605


def text_width(text: str, size: int = FONT) -> float:
    """The width of a text."""
    return len(text) * size * LETTER


class Shape(Enum):
    """The outline of a mark around its middle."""

    DOT = "M-5 0a5 5 0 1 0 10 0a5 5 0 1 0 -10 0z"
    RING = "M-5.5 0a5.5 5.5 0 1 0 11 0a5.5 5.5 0 1 0 -11 0zM-3 0a3 3 0 1 0 6 0a3 3 0 1 0 -6 0z"
    DOWN = "M-6 -5H6L0 6z"
    DIAMOND = "M0 -6.5L6.5 0L0 6.5L-6.5 0z"
    SQUARE = "M-5 -5H5V5H-5z"
    CROSS = "M-6 -4L-4 -6L0 -2L4 -6L6 -4L2 0L6 4L4 6L0 2L-4 6L-6 4L-2 0z"
    GLASS = "M-5.5 -6H5.5L-5.5 6H5.5z"
    STRUCK = (
        "M-6 -6H6V6H-6zM-3.7 -2.5L-1.2 0L-3.7 2.5L-2.5 3.7L0 1.2L2.5 3.7L3.7 2.5L1.2 0L3.7 -2.5L2.5 -3.7L0 -1.2L-2.5 -3.7z"
    )
    PLUS = "M-2 -6H2V-2H6V2H2V6H-2V2H-6V-2H-2z"
    SLASHED = "M-6 0a6 6 0 1 0 12 0a6 6 0 1 0 -12 0zM-4 0a4 4 0 1 0 8 0a4 4 0 1 0 -8 0zM-2.7 1.5L1.5 -2.7L2.7 -1.5L-1.5 2.7z"
    MINUS = "M-6 0a6 6 0 1 0 12 0a6 6 0 1 0 -12 0zM-4 0a4 4 0 1 0 8 0a4 4 0 1 0 -8 0zM-2.7 -1H2.7V1H-2.7z"
    SLANTED = "M-3 -5H7L3 5H-7z"
    BAR = "M-6.5 -2H6.5V2H-6.5z"
    CLOCK = "M-6 0a6 6 0 1 0 12 0a6 6 0 1 0 -12 0zM-4.2 0a4.2 4.2 0 1 0 8.4 0a4.2 4.2 0 1 0 -8.4 0zM-0.8 -3.5H0.8V-0.3L2.7 1.6L1.6 2.7L-0.8 0.4z"
    BOLT = "M1.5 -7L-5 1H-1L-1.5 7L5 -1H1z"


@dataclass(frozen=True, slots=True)
class Line:
    """A straight line."""

    x1: float
    y1: float
    x2: float
    y2: float
    style: str


@dataclass(frozen=True, slots=True)
class Box:
    """A rectangle, with rounded corners where `round` isn't 0."""

    x: float
    y: float
    width: float
    height: float
    style: str
    round: float = 0


@dataclass(frozen=True, slots=True)
class Label:
    """A text whose line begins, is centred or ends at x, by its class."""

    x: float
    y: float
    text: str
    style: str = ""


@dataclass(frozen=True, slots=True)
class Mark:
    """A mark that is filled with the colours of these classes, one beside another."""

    x: float
    y: float
    shape: Shape
    colours: tuple[str, ...]


@dataclass(frozen=True, slots=True)
class Arrow:
    """A level arrow, with an open head where what it means asks for one."""

    x1: float
    x2: float
    y: float
    style: str
    open_head: bool = False


@dataclass(frozen=True, slots=True)
class Group:
    """Items that show a text when the pointer rests on one of them."""

    hint: str
    items: tuple[Item, ...]


Item = Line | Box | Label | Mark | Arrow | Group


@dataclass(slots=True)
class Scene:
    """A whole picture; later items lie over earlier ones."""

    title: str
    width: float = 0
    height: float = 0
    items: list[Item] = field(default_factory=list)
