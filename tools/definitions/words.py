"""The words of a text's `asm` blocks, for the instructions that the scenarios of specifications have."""

from __future__ import annotations

import re

# Instructions of registers and a number: rd, rs1, n; their operation and the number that tells them apart.
WITH_NUMBER = {"addi": (0x13, 0), "slli": (0x13, 1)}
LOADS = {"lw": (0x03, 2), "jalr": (0x67, 0)}
STORES = {"sb": 0, "sw": 2}
BRANCHES = {"beq": 0, "bne": 1}
SYSTEM = {"ecall": 0x73, "ebreak": 0x100073}


def register(name: str) -> int:
    """The number of a register, as `x5`."""
    return int(name[1:])


def place(operand: str) -> tuple[int, int]:
    """An offset and a register, as `8(x5)`."""
    offset, name = re.fullmatch(r"(-?\w+)\((\w+)\)", operand).groups()
    return int(offset, 0), register(name)


def of_number(operation: int, function: int, rd: int, rs1: int, n: int) -> int:
    """An instruction with a number of 12 bits."""
    return (n & 0xFFF) << 20 | rs1 << 15 | function << 12 | rd << 7 | operation


def upper(rd: int, n: int) -> int:
    """`lui`."""
    return (n & 0xFFFFF) << 12 | rd << 7 | 0x37


def loaded(rd: int, n: int) -> list[int]:
    """`li`: a `lui`, and an `addi` of the low bits, which are signed."""
    low = (n & 0xFFF) - ((n & 0x800) << 1)
    return [upper(rd, (n - low) >> 12), of_number(0x13, 0, rd, rd, low)]


def stored(function: int, rs2: int, offset: int, rs1: int) -> int:
    """A store."""
    return (offset >> 5 & 0x7F) << 25 | rs2 << 20 | rs1 << 15 | function << 12 | (offset & 0x1F) << 7 | 0x23


def branch(function: int, rs1: int, rs2: int, way: int) -> int:
    """A branch of so many bytes."""
    high = (way >> 12 & 1) << 31 | (way >> 5 & 0x3F) << 25
    return high | rs2 << 20 | rs1 << 15 | function << 12 | (way >> 1 & 0xF) << 8 | (way >> 11 & 1) << 7 | 0x63


def jump(rd: int, way: int) -> int:
    """`jal` of so many bytes."""
    return (way >> 20 & 1) << 31 | (way >> 1 & 0x3FF) << 21 | (way >> 11 & 1) << 20 | (way >> 12 & 0xFF) << 12 | rd << 7 | 0x6F


def words_of(name: str, operands: list[str], at: int, labels: dict[str, int]) -> list[int]:
    """The words of one line; an instruction that isn't known here is a KeyError."""
    if name in SYSTEM:
        return [SYSTEM[name]]
    rd = register(operands[0])
    if name == "li":
        return loaded(rd, int(operands[1], 0))
    if name == "lui":
        return [upper(rd, int(operands[1], 0))]
    if name == "jal":
        return [jump(rd, labels[operands[1]] - at)]
    if name in STORES:
        return [stored(STORES[name], rd, *place(operands[1]))]
    if name in BRANCHES:
        return [branch(BRANCHES[name], rd, register(operands[1]), labels[operands[2]] - at)]
    if name == "add":
        return [register(operands[2]) << 20 | register(operands[1]) << 15 | rd << 7 | 0x33]
    if name in LOADS:
        offset, rs1 = place(operands[1])
        return [of_number(*LOADS[name], rd, rs1, offset)]
    return [of_number(*WITH_NUMBER[name], rd, register(operands[1]), int(operands[2], 0))]


def assembled(lines: list[str], first: int) -> list[int]:
    """The words of a block whose first word lies at this address."""
    found, labels, at = [], {}, first
    for line in lines:
        label, text = re.fullmatch(r"\s*(?:(\w+):)?\s*([^#]*?)\s*(?:#.*)?", line.rstrip("\n")).groups()
        if label:
            labels[label] = at
        if text:
            name, _, rest = text.partition(" ")
            found.append((at, name, [operand.strip() for operand in rest.split(",") if operand.strip()]))
            at += 8 if name == "li" else 4
    return [word for start, name, operands in found for word in words_of(name, operands, start, labels)]
