"""Prints the words that the disassembler is asked about, one a line, each once.

The table below only steers the choice of words. What a word means is never said here:
it is the disassembler that reads each of them.
"""

from dataclasses import dataclass
from itertools import cycle, product

from pseudo_random import PseudoRandom

SEED = 0x52563332

RD = 0x00000F80
RS1 = 0x000F8000
RS2 = 0x01F00000


@dataclass(frozen=True)
class Format:
    """The bits of a word that hold operands: one mask for each register, one for the immediate."""

    registers: tuple
    immediate: int


REGISTER = Format((RD, RS1, RS2), 0)
IMMEDIATE = Format((RD, RS1), 0xFFF00000)
SHIFT = Format((RD, RS1), 0x01F00000)
STORE = Format((RS1, RS2), 0xFE000F80)
BRANCH = STORE
UPPER = Format((RD,), 0xFFFFF000)
JUMP = UPPER
FENCE = Format((), 0x0FF00000)
SYSTEM = Format((), 0)

# For each instruction its format and its word with all operands zero.
INSTRUCTIONS = {
    "lui": (UPPER, 0x00000037),
    "auipc": (UPPER, 0x00000017),
    "jal": (JUMP, 0x0000006F),
    "jalr": (IMMEDIATE, 0x00000067),
    "beq": (BRANCH, 0x00000063),
    "bne": (BRANCH, 0x00001063),
    "blt": (BRANCH, 0x00004063),
    "bge": (BRANCH, 0x00005063),
    "bltu": (BRANCH, 0x00006063),
    "bgeu": (BRANCH, 0x00007063),
    "lb": (IMMEDIATE, 0x00000003),
    "lh": (IMMEDIATE, 0x00001003),
    "lw": (IMMEDIATE, 0x00002003),
    "lbu": (IMMEDIATE, 0x00004003),
    "lhu": (IMMEDIATE, 0x00005003),
    "sb": (STORE, 0x00000023),
    "sh": (STORE, 0x00001023),
    "sw": (STORE, 0x00002023),
    "addi": (IMMEDIATE, 0x00000013),
    "slti": (IMMEDIATE, 0x00002013),
    "sltiu": (IMMEDIATE, 0x00003013),
    "xori": (IMMEDIATE, 0x00004013),
    "ori": (IMMEDIATE, 0x00006013),
    "andi": (IMMEDIATE, 0x00007013),
    "slli": (SHIFT, 0x00001013),
    "srli": (SHIFT, 0x00005013),
    "srai": (SHIFT, 0x40005013),
    "add": (REGISTER, 0x00000033),
    "sub": (REGISTER, 0x40000033),
    "sll": (REGISTER, 0x00001033),
    "slt": (REGISTER, 0x00002033),
    "sltu": (REGISTER, 0x00003033),
    "xor": (REGISTER, 0x00004033),
    "srl": (REGISTER, 0x00005033),
    "sra": (REGISTER, 0x40005033),
    "or": (REGISTER, 0x00006033),
    "and": (REGISTER, 0x00007033),
    "fence": (FENCE, 0x0000000F),
    "ecall": (SYSTEM, 0x00000073),
    "ebreak": (SYSTEM, 0x00100073),
}

EDGE_REGISTERS = (0, 1, 15, 31)
REGISTER_TRIPLES = ((0, 1, 31), (31, 0, 15), (1, 15, 2), (16, 31, 0), (15, 16, 1), (2, 30, 16), (30, 8, 5))


def scatter(mask, value):
    """The low bits of `value`, laid from the lowest to the highest into the bits of `mask`."""
    word = 0
    for place in range(32):
        if mask >> place & 1:
            word |= (value & 1) << place
            value >>= 1
    return word


def edge_patterns(mask):
    """No bit, every bit, alternating bits, each bit alone and every bit but one."""
    width = mask.bit_count()
    full = (1 << width) - 1
    values = [0, full, 0x55555555 & full, 0xAAAAAAAA & full]
    values += [1 << place for place in range(width)]
    values += [full ^ 1 << place for place in range(width)]
    return [scatter(mask, value) for value in dict.fromkeys(values)]


def register_bits(format, numbers):
    """The registers of `numbers` in the register fields of the format, in order."""
    return sum(scatter(mask, number) for mask, number in zip(format.registers, numbers))


def at_edges(format, match):
    """One instruction at edge immediates, at edge registers and at every register of each field."""
    patterns = edge_patterns(format.immediate)
    triples = cycle(REGISTER_TRIPLES)
    for pattern in patterns:
        yield match | pattern | register_bits(format, next(triples))
        yield match | pattern | register_bits(format, next(triples))
    immediates = cycle(patterns)
    for numbers in product(EDGE_REGISTERS, repeat=len(format.registers)):
        yield match | next(immediates) | register_bits(format, numbers)
    for place, number in product(range(len(format.registers)), range(32)):
        numbers = [7, 13, 22]
        numbers[place] = number
        yield match | next(immediates) | register_bits(format, numbers)


def shift_amounts():
    """The three shifts by each amount from 0 to 31."""
    triples = cycle(REGISTER_TRIPLES)
    for name, amount in product(("slli", "srli", "srai"), range(32)):
        format, match = INSTRUCTIONS[name]
        yield match | scatter(format.immediate, amount) | register_bits(format, next(triples))


def one_bit_away():
    """Each instruction with all operands zero, with each of its 32 bits flipped in turn."""
    for (_, match), place in product(INSTRUCTIONS.values(), range(32)):
        yield match ^ 1 << place


def wrong_functions():
    """Every funct3 and funct7 where an opcode tells instructions apart by both, and the same on 64 bits.

    The M extension, the bit manipulation extensions and wrong high parts of shift amounts lie here.
    """
    triples = cycle(REGISTER_TRIPLES)
    for opcode, functs in ((0x33, range(8)), (0x13, (1, 5))):
        for funct3, funct7 in product(functs, range(128)):
            yield opcode | funct3 << 12 | funct7 << 25 | register_bits(REGISTER, next(triples))
    for opcode, funct3, funct7 in product((0x1B, 0x3B), range(8), (0x00, 0x01, 0x20)):
        yield opcode | funct3 << 12 | funct7 << 25 | register_bits(REGISTER, next(triples))


def every_opcode(numbers):
    """Every opcode of four bytes or more with every funct3, and the low bits of compressed words."""
    for opcode, funct3, _ in product(range(0x03, 0x80, 4), range(8), range(2)):
        yield numbers.word() & 0xFFFF8F80 | funct3 << 12 | opcode
    for low, _ in product([low for low in range(0x80) if low & 3 != 3], range(2)):
        yield numbers.word() & 0xFFFFFF80 | low


def atomic():
    """The A extension: words and double words of every funct5."""
    for funct3, funct5 in product((2, 3), range(32)):
        yield 0x2F | funct3 << 12 | funct5 << 27 | register_bits(REGISTER, (10, 11, 12))
        yield 0x2F | funct3 << 12 | funct5 << 27 | register_bits(REGISTER, (10, 11, 0))


def system():
    """Neighbours of ecall and ebreak, privileged instructions, control and status registers."""
    for base, mask, number in product((0x00000073, 0x00100073), (RD, RS1), range(1, 32)):
        yield base | scatter(mask, number)
    privileged = (0x002, 0x102, 0x104, 0x105, 0x120, 0x202, 0x302, 0x305, 0x7B2, 0x7FF, 0x800, 0xFFF)
    for immediate in privileged:
        yield 0x73 | immediate << 20
        yield 0x73 | immediate << 20 | register_bits(REGISTER, (0, 5))
    for status, funct3 in product((0x000, 0x001, 0x002, 0x300, 0x341, 0xC00, 0xC01, 0xC02, 0xC80, 0xFFF), range(1, 8)):
        yield 0x73 | status << 20 | funct3 << 12
        yield 0x73 | status << 20 | funct3 << 12 | register_bits(REGISTER, (10, 11))


def instruction_fences():
    """fence.i, also with the fields that it ignores, and the other functs of its opcode."""
    for funct3, rest in product(range(1, 8), (0, RD, RS1, 0x0FF00000, 0xFFF00000)):
        yield 0x0F | funct3 << 12 | rest


def well_known():
    """Words that stand for something in other tools: all zeros and ones, fence.tso, pause, unimp, ret, nop."""
    yield from (0x00000000, 0xFFFFFFFF, 0x8330000F, 0x0100000F, 0x0FF0000F, 0x0330000F)
    yield from (0xC0001073, 0x00000013, 0x00008067, 0x0000006F, 0x00010001, 0x90029002, 0x80828082)


def drawn(numbers):
    """Words without any plan: of all bits, of four bytes, and of the opcodes of the table."""
    opcodes = sorted({match & 0x7F for _, match in INSTRUCTIONS.values()})
    for _ in range(300):
        yield numbers.word()
        yield numbers.word() | 3
        yield numbers.word() & 0xFFFFFF80 | numbers.pick(opcodes)


def fence_with_reserved_fields(word):
    """A fence whose fm, rs1 or rd is reserved.

    The manual says that a processor ignores these fields; the disassembler reads no such word at all.
    So it is no judge of them: the runs have such fences instead.
    """
    is_fence = word & 0x707F == 0x0F
    return is_fence and word & ~FENCE.immediate != 0x0F and word != 0x8330000F


def all_words():
    """Every word of the table, in order and with repetitions."""
    numbers = PseudoRandom(SEED)
    yield from well_known()
    for format, match in INSTRUCTIONS.values():
        yield from at_edges(format, match)
    yield from shift_amounts()
    yield from one_bit_away()
    yield from wrong_functions()
    yield from every_opcode(numbers)
    yield from atomic()
    yield from system()
    yield from instruction_fences()
    yield from drawn(numbers)


for chosen in dict.fromkeys(all_words()):
    if not fence_with_reserved_fields(chosen):
        print(f"{chosen:08x}")
