"""Pages: their blocks of text, their tables, their headings and their links."""

from __future__ import annotations

import re
from dataclasses import dataclass
from functools import cached_property
from pathlib import Path

HEADING = re.compile(r"#{1,6} +(.*)")
LINK = re.compile(r"\[[^\]]*\]\(([^)\s]+)\)")
CODE = re.compile(r"``.*?``|`[^`\n]*`")


@dataclass(frozen=True)
class Block:
    """A block between two fences: its language, the words behind that, its lines, the line of its first fence, and the heading it is under."""

    language: str
    words: tuple[str, ...]
    text: str
    line: int
    heading: int

    def value(self, name: str) -> str | None:
        """What a word `name=VALUE` gives, or none."""
        return next((word.partition("=")[2] for word in self.words if word.startswith(name + "=")), None)


@dataclass(frozen=True)
class Row:
    """A row of a table: the table's first cell, the row's cells, its line, and the heading it is under."""

    title: str
    cells: tuple[str, ...]
    line: int
    heading: int


@dataclass(frozen=True)
class Page:
    """A page of Markdown."""

    path: Path
    text: str

    @cached_property
    def _parts(self) -> tuple[list[Block], list[Row], list[str], list[str]]:
        """Blocks, rows of tables, headings, and the lines outside blocks."""
        blocks: list[Block] = []
        rows: list[Row] = []
        headings: list[str] = []
        prose: list[str] = []
        fence: tuple[list[str], int] | None = None
        inside: list[str] = []
        title: str | None = None
        for number, line in enumerate(self.text.split("\n"), 1):
            if fence is not None:
                if line == "```":
                    words, first = fence
                    blocks.append(Block((words or [""])[0], tuple(words[1:]), "".join(x + "\n" for x in inside), first, len(headings)))
                    fence = None
                else:
                    inside.append(line)
                continue
            if line.startswith("```"):
                fence, inside = (line[3:].split(), number), []
                continue
            prose.append(line)
            title = self._row(rows, title, line, number, len(headings))
            if (heading := HEADING.fullmatch(line)) is not None:
                headings.append(heading[1])
        return blocks, rows, headings, prose

    @staticmethod
    def _row(rows: list[Row], title: str | None, line: str, number: int, heading: int) -> str | None:
        """Adds a row of a table, and answers the title of the table that the next line may belong to."""
        if not line.startswith("|"):
            return None
        cells = tuple(cell.strip() for cell in line.strip("|").split(" | "))
        if title is not None and not set(line) <= set("|-: "):
            rows.append(Row(title, cells, number, heading))
        return cells[0] if title is None else title

    @property
    def blocks(self) -> list[Block]:
        return self._parts[0]

    @property
    def rows(self) -> list[Row]:
        return self._parts[1]

    @cached_property
    def anchors(self) -> frozenset[str]:
        """The names by which links lead to headings, as GitHub makes them."""
        seen: dict[str, int] = {}
        names = set()
        for heading in self._parts[2]:
            plain = LINK.sub(lambda link: link[0][1 : link[0].index("]")], heading).lower()
            name = re.sub(r"[^\w\- ]", "", plain).replace(" ", "-")
            times = seen[name] = seen.get(name, -1) + 1
            names.add(f"{name}-{times}" if times else name)
        return frozenset(names)

    @cached_property
    def headings(self) -> frozenset[str]:
        """The headings, without marks of code."""
        return frozenset(heading.replace("`", "") for heading in self._parts[2])

    @cached_property
    def links(self) -> list[str]:
        """Where links lead, but for those to other sites."""
        prose = CODE.sub("", "\n".join(self._parts[3]))
        return [to for to in LINK.findall(prose) if "://" not in to]


def read(path: Path) -> Page:
    """The page in a file."""
    return Page(path, path.read_text("utf-8"))
