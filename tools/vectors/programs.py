"""Writes random programs as assembly text, NNN.s in the folder given, and prints how often each name occurs.

A program is a list of groups. A group is one instruction, or a few that belong together, such as the auipc
that finds the place a jalr goes to. Branches and jumps go forward to the first instruction of a group or to
the ebreak at the end, so that every program ends.

Memory is used through two registers that hold addresses near one small area of the data page. Nothing else
writes them, and all accesses are aligned.
"""

import sys
from collections import Counter
from dataclasses import dataclass
from pathlib import Path

from pseudo_random import PseudoRandom

SEED = 0x4E4F5641
PROGRAMS = 200

DATA_PAGE = 0x00012000
PAGE_BYTES = 4096
AREA_BYTES = 16

REGISTER = ("add", "sub", "sll", "slt", "sltu", "xor", "srl", "sra", "or", "and")
IMMEDIATE = ("addi", "slti", "sltiu", "xori", "ori", "andi")
SHIFT = ("slli", "srli", "srai")
UPPER = ("lui", "auipc")
LOAD = {"lb": 1, "lh": 2, "lw": 4, "lbu": 1, "lhu": 2}
STORE = {"sb": 1, "sh": 2, "sw": 4}
BRANCH = ("beq", "bne", "blt", "bge", "bltu", "bgeu")
JUMP = ("jal", "jalr")
FENCE = ("fence",)
EBREAK = ("ebreak",)

# What a group may be, each as often as it stands here.
KINDS = 6 * (REGISTER,) + 4 * (IMMEDIATE,) + 3 * (SHIFT,) + (UPPER,) + 4 * (tuple(LOAD),) + 4 * (tuple(STORE),)
KINDS += 4 * (BRANCH,) + 2 * (JUMP,) + (FENCE,)
NAMES = REGISTER + IMMEDIATE + SHIFT + UPPER + tuple(LOAD) + tuple(STORE) + BRANCH + JUMP + FENCE + EBREAK

SEEDS = (1, 2, 0x1F, 0x20, 0x7F, 0x80, 0xFF, 0x7FFF, 0x8000, 0xFFFF, 0x55555555, 0xAAAAAAAA)
SEEDS += (0x7FFFFFFF, 0x80000000, 0x80000001, 0xFFFFFFFE, 0xFFFFFFFF)
EDGE_IMMEDIATES = (0, 1, -1, 2, -2, 127, 128, 255, 256, 1365, -1366, 2047, -2048)


@dataclass(frozen=True)
class Instruction:
    """An instruction's name and its line of assembly text."""

    name: str
    text: str


def instruction(name, *operands):
    """The instruction of the name with the operands as they are written."""
    return Instruction(name, f"{name} {', '.join(operands)}")


def load_constant(register, value):
    """The one or two instructions that put a 32-bit value into a register."""
    low = (value & 0xFFF ^ 0x800) - 0x800
    high = value - low >> 12 & 0xFFFFF
    if high == 0:
        return [instruction("addi", register, "x0", str(low))]
    upper = instruction("lui", register, hex(high))
    return [upper] if low == 0 else [upper, instruction("addi", register, register, str(low))]


class Program:
    """One program while it is made."""

    def __init__(self, numbers):
        self.numbers = numbers
        registers = [f"x{number}" for number in range(1, 32)]
        for place in range(12):
            other = numbers.between(place, 30)
            registers[place], registers[other] = registers[other], registers[place]
        self.scratch = registers[2:numbers.between(7, 12)]
        self.area = DATA_PAGE + 4 * numbers.below(1 + (PAGE_BYTES - AREA_BYTES) // 4)
        self.pointers = {
            register: self.area + numbers.between(AREA_BYTES - 2048, 2048) for register in registers[:2]
        }

    def source(self):
        """A register to read: one of the program's own, seldom a pointer or x0."""
        if self.numbers.chance(12):
            return self.numbers.pick(["x0", *self.pointers])
        return self.numbers.pick(self.scratch)

    def target(self):
        """A register to write: one of the program's own, seldom x0."""
        return "x0" if self.numbers.chance(16) else self.numbers.pick(self.scratch)

    def immediate(self):
        """An immediate of twelve bits, one in three at an edge."""
        if self.numbers.chance(3):
            return self.numbers.pick(EDGE_IMMEDIATES)
        return self.numbers.between(-2048, 2047)

    def place_in_area(self, width):
        """An aligned place of the width in the area, as an offset from a pointer."""
        pointer = self.numbers.pick(list(self.pointers))
        address = self.area + width * self.numbers.below(AREA_BYTES // width)
        return f"{address - self.pointers[pointer]}({pointer})"

    def prologue(self):
        """Sets the pointers, puts values into registers and stores three of them."""
        lines = []
        for pointer, address in self.pointers.items():
            lines += load_constant(pointer, address)
        for register in self.scratch[:5]:
            value = self.numbers.pick(SEEDS) if self.numbers.chance(2) else self.numbers.word()
            lines += load_constant(register, value)
        for register in self.scratch[:3]:
            lines.append(instruction("sw", register, self.place_in_area(4)))
        return lines

    def plain(self, name):
        """An instruction that goes on to the next one."""
        numbers = self.numbers
        if name in REGISTER:
            return instruction(name, self.target(), self.source(), self.source())
        if name in IMMEDIATE:
            return instruction(name, self.target(), self.source(), str(self.immediate()))
        if name in SHIFT:
            return instruction(name, self.target(), self.source(), str(numbers.below(32)))
        if name in UPPER:
            return instruction(name, self.target(), hex(numbers.below(1 << 20)))
        if name in LOAD:
            return instruction(name, self.target(), self.place_in_area(LOAD[name]))
        if name in STORE:
            return instruction(name, self.source(), self.place_in_area(STORE[name]))
        return self.fence()

    def fence(self):
        """A fence, half of them with its ignored fields (fm, rs1 and rd) as they come."""
        if self.numbers.chance(2):
            return Instruction("fence", "fence")
        registers = f"x{self.numbers.below(32)}, x{self.numbers.below(32)}"
        return Instruction("fence", f".insn i 0x0f, 0, {registers}, {self.numbers.between(-2048, 2047)}")

    def branch(self, name, offset):
        """A branch by the offset, one in four of a register with itself."""
        first = self.source()
        second = first if self.numbers.chance(4) else self.source()
        return [instruction(name, first, second, f". + {offset}")]

    def indirect_jump(self, offset):
        """A jalr to a place, given by its distance in bytes from the first instruction of these.

        Half of the jumps have bit 0 of the sum set, which a jalr clears.
        """
        base = self.numbers.pick(self.scratch)
        link = base if self.numbers.chance(3) else self.target()
        moved = self.numbers.between(offset - 2046, 2047)
        return [
            instruction("auipc", base, "0"),
            instruction("addi", base, base, str(moved)),
            instruction("jalr", link, f"{offset - moved + self.numbers.below(2)}({base})"),
        ]

    def group(self, name, offset):
        """The group of a name, whose jump or branch, if it is one, goes by the offset."""
        if name in BRANCH:
            return self.branch(name, offset)
        if name == "jal":
            return [instruction(name, self.target(), f". + {offset}")]
        if name == "jalr":
            return self.indirect_jump(offset)
        return [self.plain(name)]

    def lines(self):
        """The whole program, 20 to 80 instructions and the ebreak."""
        lines = self.prologue()
        length = self.numbers.between(len(lines) + 8, 80)
        names = []
        starts = [len(lines)]
        while starts[-1] < length - 2:
            names.append(self.numbers.pick(self.numbers.pick(KINDS)))
            starts.append(starts[-1] + (3 if names[-1] == "jalr" else 1))
        for place, name in enumerate(names):
            goal = min(place + self.numbers.between(1, 5), len(names))
            lines += self.group(name, 4 * (starts[goal] - starts[place]))
        return [*lines, Instruction("ebreak", "ebreak")]


def main():
    folder = Path(sys.argv[1])
    numbers = PseudoRandom(SEED)
    counts = Counter()
    for number in range(PROGRAMS):
        lines = Program(numbers).lines()
        counts.update(line.name for line in lines)
        header = ['.section .program, "ax"', ".option norelax", ".globl program", "program:"]
        text = [*header, *(line.text for line in lines), ""]
        (folder / f"{number:03}.s").write_text("\n".join(text), encoding="ascii")
    for name in sorted(NAMES):
        print(f"{counts[name]:6} {name}")
    missing = sorted(set(NAMES) - set(counts))
    if missing:
        raise SystemExit(f"no program has {', '.join(missing)}")


main()
