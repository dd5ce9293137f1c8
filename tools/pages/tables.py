"""Tables of instructions, of lines that are refused, of hypercalls with their answers, and of orders with what they come to."""

from __future__ import annotations

import re

from machine import Machine
from page import Row

SETTINGS = "cpus 1\nram 0\nconsoles 0\nroot 0 0 1 10\n"
CODE = re.compile(r"`([^`]*)`")

# By the title of a table's first column: what stands before the line, and behind it.
AROUND = {
    "line outside a block": ("", ""),
    "line of a hex block": (SETTINGS + "image 0 hex\n", "end\n"),
    "line of an elf block": (SETTINGS + "image 0 elf\n", "end\n"),
    "line of an asm block": (SETTINGS + "image 0 asm\n", "end\n"),
}
ORDERS = "lines of the order"
EXAMPLES = "example"
CALLS = "registers of the root"
STATUSES = ("SUCCESS", "TIMEOUT", "ABORTED", "OVERFLOW", "BAD_HYP", "BAD_CAP", "BAD_PAR", "BAD_CPU", "BUSY")
REGISTER = re.compile(r"x(\d+)=(\w+)")


def refused(row: Row, machine: Machine) -> str | None:
    """What is wrong with a row of a line that is refused, or none."""
    before, behind = AROUND[row.title]
    line = CODE.findall(row.cells[0])[0]
    wanted = f"nova: scenario line {before.count(chr(10)) + 1}: {row.cells[1]}\n"
    said = machine.nova("check", f"{before}{line}\n{behind}").err
    return None if said == wanted else f"{line!r}: {said.strip() or 'no fault'} in place of {wanted.strip()}"


def assembled(row: Row, machine: Machine) -> str | None:
    """What is wrong with a row whose first cell is an instruction, or none."""
    before, behind = AROUND["line of an asm block"]
    line = CODE.findall(row.cells[0])[0]
    end = machine.nova("check", f"{before}{line}\n{behind}")
    return None if end.out == "ok\n" else f"{line!r}: {end.err.strip()}"


def call_of(registers: str) -> str:
    """The lines of assembler that make a hypercall with these registers, the others of its arguments being 0."""
    values = dict.fromkeys(("17", "10", "11", "12", "13", "14"), "0") | dict(REGISTER.findall(registers))
    return "".join(f"li x{register}, {value}\n" for register, value in values.items()) + "ecall\n"


def misanswered(row: Row, machine: Machine) -> str | None:
    """What is wrong with a row of hypercalls, or none: x10, and x11 if it is told, at the end of the run."""
    calls = "".join(call_of(call) for call in CODE.findall(row.cells[0]))
    said = machine.nova("solo", f"cpus 2\nram 2\nconsoles 0\nroot 0 0 1 10\nimage 0 asm\n{calls}ebreak\nend\n").out
    root = next((line for line in said.splitlines() if line.startswith("ec 1 ")), "")
    left = {register: int(value, 16) for register, value in REGISTER.findall(root)}
    status, _, value = row.cells[1].partition(", x11=")
    wanted = (STATUSES.index(status), int(value, 0) if value else left.get("11", 0))
    found = (left.get("10", 0), left.get("11", 0))
    return None if root and found == wanted else f"{row.cells[0]}: x10 and x11 are {found} in place of {wanted}"


def lines_of(cell: str) -> tuple[str, tuple[str, ...]]:
    """The order of a cell, and the options with which it is run."""
    order, _, options = cell.partition(" with ")
    lines = [] if order == "none" else CODE.findall(order) + [""] * ("a blank line" in order)
    return "".join(line + "\n" for line in lines), tuple(word for option in CODE.findall(options) for word in option.split())


def ended(row: Row, scenario: str, machine: Machine) -> str | None:
    """What is wrong with a row of an order, or none."""
    order, options = lines_of(row.cells[0])
    end = machine.nova("solo", scenario, order, options)
    wanted = {"Done": (0, ""), "Limit": (7, "nova: not quiet\n")}.get(row.cells[1])
    if wanted is None:
        why, _, line = row.cells[1].partition(" in line ")
        wanted = (5, f"nova: order line {line}: {why}\n")
    return None if (end.status, end.err) == wanted else f"order {order!r}: {end.status} {end.err.strip()} in place of {row.cells[1]}"
