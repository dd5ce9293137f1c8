"""What a page shows, tried: scenarios, orders, commands, parts of files, and tables."""

from __future__ import annotations

from dataclasses import dataclass, field

from machine import Machine
from page import Block, Page
from tables import AROUND, CALLS, EXAMPLES, ORDERS, SETTINGS, assembled, ended, misanswered, refused


@dataclass
class Tried:
    """How many samples were tried, how many were not, and what is wrong with those that were."""

    count: int = 0
    left: int = 0
    faults: list[str] = field(default_factory=list)

    def note(self, page: Page, line: int, fault: str | None) -> None:
        """Counts one more."""
        self.count += 1
        if fault is not None:
            self.faults.append(f"{page.path}:{line}: {fault}")


def is_quoted(block: Block) -> bool:
    """It is a file, or a part of one, that is there."""
    return block.value("whole") is not None or block.value("part") is not None


def answer_to(page: Page, index: int) -> str | None:
    """The text behind a block, under the same heading, that says what comes of it; or none."""
    behind = page.blocks[index + 1 : index + 2]
    same = [block for block in behind if block.language == "text" and block.heading == page.blocks[index].heading and not is_quoted(block)]
    return same[0].text if same else None


def is_wanting(block: Block, machine: Machine) -> bool:
    """A command that it needs isn't installed, or isn't built."""
    needed = block.value("needs")
    return needed is not None and not all(map(machine.has, needed.split(",")))


def is_part(lines: list[str], of: list[str]) -> bool:
    """These lines stand there, in this order."""
    rest = iter(of)
    return all(line in rest for line in lines)


def misquoted(block: Block, machine: Machine) -> str | None:
    """What is wrong with a quoted file, or none."""
    name = block.value("whole") or block.value("part") or ""
    path = machine.top / name
    if not path.is_file():
        return f"no file {name}"
    kept = path.read_text("utf-8")
    right = block.text == kept if block.value("whole") else is_part(block.text.splitlines(), kept.splitlines())
    return None if right else f"this isn't in {name}"


def differing(said: str, wanted: str) -> str | None:
    """The first line in which two texts differ, or none."""
    if said == wanted:
        return None
    pairs = zip(said.splitlines() + ["(the end)"], wanted.splitlines() + ["(the end)"], strict=False)
    return next((f"{one!r} in place of {other!r}" for one, other in pairs if one != other), "other ends of lines")


def run(block: Block, wanted: str | None, order: str | None, machine: Machine) -> str | None:
    """What is wrong with a scenario and its report, or none. Without a report it is only read."""
    if wanted is None:
        return differing(machine.nova("check", block.text).out, "ok\n")
    end = machine.nova("solo", block.text, order, block.words)
    return differing(end.err if wanted.startswith("nova: ") else end.out, wanted)


def told(block: Block, wanted: str | None, machine: Machine) -> str | None:
    """What is wrong with the lines of a shell, or none. What is written decides, and without it the status."""
    end = machine.shell(block.text)
    if wanted is None:
        return None if end.status == 0 else f"status {end.status}: {end.err.strip()}"
    return differing(end.out, wanted)


def try_rows(page: Page, machine: Machine, tried: Tried) -> None:
    """Tries the rows of tables: of an order, with the last scenario under the table's heading."""
    for row in page.rows:
        if row.title in AROUND:
            tried.note(page, row.line, refused(row, machine))
        elif row.title == EXAMPLES:
            tried.note(page, row.line, assembled(row, machine))
        elif row.title == CALLS:
            tried.note(page, row.line, misanswered(row, machine))
        elif row.title == ORDERS:
            scenario = [block for block in page.blocks if block.language == "nova" and block.heading == row.heading and block.line < row.line]
            tried.note(page, row.line, ended(row, scenario[-1].text, machine))


def try_block(page: Page, index: int, scenario: Block | None, machine: Machine, tried: Tried) -> None:
    """Tries a block, which is an order of the scenario before it, or stands for itself."""
    block, wanted = page.blocks[index], answer_to(page, index)
    if is_quoted(block):
        tried.note(page, block.line, misquoted(block, machine))
    elif block.language == "nova":
        tried.note(page, block.line, run(block, wanted, None, machine))
    elif block.language == "order" and wanted is not None and scenario is not None:
        tried.note(page, block.line, run(scenario, wanted, block.text, machine))
    elif block.language == "asm":
        image = f"{SETTINGS}image 0 asm\n{block.text}end\n"
        tried.note(page, block.line, differing(machine.nova("check", image).out, "ok\n"))
    elif block.language == "sh" and "try" in block.words:
        if is_wanting(block, machine):
            tried.left += 1
        else:
            tried.note(page, block.line, told(block, wanted, machine))


def try_page(page: Page, machine: Machine, tried: Tried) -> None:
    """Tries all that a page shows."""
    scenario = None
    for index, block in enumerate(page.blocks):
        scenario = block if block.language == "nova" else scenario
        try_block(page, index, scenario, machine, tried)
    try_rows(page, machine, tried)
