"""Prints assembler texts, with an empty line between each and the next.

Each is read alike by this project's assembler and by GNU's, but for the targets that are numbers: those are offsets here.
`li` is left out, since GNU's takes one word where one is enough.
"""

from itertools import cycle

REGISTER = ["add", "sub", "sll", "slt", "sltu", "xor", "srl", "sra", "or", "and"]
IMMEDIATE = ["addi", "slti", "sltiu", "xori", "ori", "andi"]
SHIFTS = ["slli", "srli", "srai"]
LOADS = ["lb", "lh", "lw", "lbu", "lhu", "jalr"]
STORES = ["sb", "sh", "sw"]
BRANCHES = ["beq", "bne", "blt", "bge", "bltu", "bgeu"]
UPPER = ["lui", "auipc"]
BARE = ["fence", "ecall", "ebreak", "nop", "ret"]

NAMES = (
    "zero ra sp gp tp t0 t1 t2 s0 s1 a0 a1 a2 a3 a4 a5 a6 a7 s2 s3 s4 s5 s6 s7 s8 s9 s10 s11 t3 t4 t5 t6".split()
)

TWELVE_BITS = ["-2048", "-1", "0", "0x7fF", "2047"]
AMOUNTS = ["0", "1", "0x1F", "31"]
TWENTY_BITS = ["0", "1", "0x7FFFF", "0x80000", "1048575"]
BRANCH_OFFSETS = ["-4096", "-2", "0", "0x800", "4094"]
JUMP_OFFSETS = ["-1048576", "-2048", "-2", "0", "0x800", "4096", "1048574"]
NUMBERS = ["0", "7", "0x80000000", "4294967295"]

# Programs of several lines: labels before and after, on lines of their own and before instructions, comments, tabs and blanks.
PROGRAMS = [
    "l: j l",
    "j end\nnop\nend:",
    "loop:\n    nop\n    bne x8, x0, loop",
    "\taddi\tx10 ,\tx0\t,65 # sixty-five\n# nothing here\n  ebreak",
    "nop#nop\nret # back",
    "a:\nb_1: .word 1\nj a\nj b_1",
    "j x5\nx5: .word 7\nbeq x5, x5, x5",
    "nop: nop\njal ra, nop",
    "_start:\n_9: nop\nj _start\nj _9",
    "first: beq a0, a1, last\nbne a0, a1, first\nblt a0, a1, last\nbge a0, a1, first\nbltu a0, a1, last\nbgeu a0, a1, first\nlast: ret",
    "jal zero, b\na: jal t0, c\nb: jal t6, a\nc: j b",
    "beq x1, x2, far\n" + "nop\n" * 1022 + "far: ret",
    "far: ret\n" + "nop\n" * 1023 + "bgeu x1, x2, far",
    "LOOP: nop\nloop: nop\nj LOOP\nj loop",
    "main:\n  lui x5, 0x12345\n  addi x5, x5, 0x678\n  sw x5, 16(sp)\n  lw a0, 16(sp)\n  ecall\n  j main",
    "sum:\n  mv t0, zero\nnext:\n  beq a1, zero, done\n  lw t1, 0(a0)\n  add t0, t0, t1\n  addi a0, a0, 4\n  addi a1, a1, -1\n  j next\ndone:\n  mv a0, t0\n  ret",
    "table: .word 1\n.word 0xffffffff\nstart: auipc t0, 0\nlw t1, -8(t0)\nj start\nj table",
]


def single_lines():
    """Texts of one instruction: each name with each edge of its immediate, and all registers in turn."""
    register = cycle([f"x{number}" for number in (0, 1, 31, 16, 15)] + NAMES + ["fp"])

    def registers(count):
        return ", ".join(next(register) for _ in range(count))

    for name in REGISTER:
        for _ in range(4):
            yield f"{name} {registers(3)}"
    for names, numbers in ((IMMEDIATE, TWELVE_BITS), (SHIFTS, AMOUNTS)):
        for name in names:
            for number in numbers:
                yield f"{name} {registers(2)}, {number}"
    for name in LOADS + STORES:
        for number in TWELVE_BITS:
            yield f"{name} {registers(1)}, {number}({registers(1)})"
    for name in BRANCHES:
        for offset in BRANCH_OFFSETS:
            yield f"{name} {registers(2)}, {offset}"
    for name in UPPER:
        for number in TWENTY_BITS:
            yield f"{name} {registers(1)}, {number}"
    for offset in JUMP_OFFSETS:
        yield f"jal {registers(1)}, {offset}"
        yield f"j {offset}"
    yield from BARE
    for name in NAMES:
        yield f"mv {name}, {registers(1)}"
    for number in NUMBERS:
        yield f".word {number}"


def main():
    print("\n\n".join([*single_lines(), *PROGRAMS]), end="")


main()
