"""Prints the disassembler's reading of each word in the normal form.

    readings.py WORDS LISTING

WORDS has one word a line. LISTING is what objdump says of them, word number n at ORIGIN + n * STRIDE.
A line of the answer is `WORD NAME OPERANDS`, or `WORD illegal`. A summary goes to standard error.

The meaning of a word is taken from the listing alone: from the length that the disassembler gives it,
from the NAME and from the operands. No bit of a word is looked at here.
"""

import re
import sys
from collections import Counter

ORIGIN = 0x00400000
STRIDE = 32

UPPER = {"lui", "auipc"}
JUMPS = {"jal", "beq", "bne", "blt", "bge", "bltu", "bgeu"}
SHIFTS = {"slli", "srli", "srai"}
MEMORY = {"jalr", "lb", "lh", "lw", "lbu", "lhu", "sb", "sh", "sw"}
IMMEDIATE = {"addi", "slti", "sltiu", "xori", "ori", "andi"}
REGISTER = {"add", "sub", "sll", "slt", "sltu", "xor", "srl", "sra", "or", "and"}
BARE = {"fence", "ecall", "ebreak"}
BASE = UPPER | JUMPS | SHIFTS | MEMORY | IMMEDIATE | REGISTER | BARE

# Names that the disassembler gives although it was told that there is nothing but RV32I.
# fence.tso is a fence of RV32I with a mode of its own; a simple processor does it as a fence.
RENAMED = {"fence.tso": "fence"}
# The others are of the privileged manual, of its drafts and of the debug manual; unimp is a write to the
# read-only register `cycle`, so of Zicsr. RV32I has none of them.
FOREIGN = {"unimp", "uret", "sret", "hret", "mret", "dret", "wfi", "sfence.vm", "sfence.vma"}

LINE = re.compile(r" *([0-9a-f]+):\t([0-9a-f ]+)\t(\S+)(?:\t(.*))?")


def parse_listing(path):
    """What the listing has at each address: the bytes in hexadecimal, the name and the operands."""
    with open(path, encoding="ascii") as listing:
        matches = (LINE.fullmatch(line.rstrip()) for line in listing)
        return {int(found[1], 16): (found[2].strip(), found[3], found[4] or "") for found in matches if found}


def immediate_form(name, operand, address):
    """An operand that is no register, in the normal form."""
    if name in UPPER:
        return f"0x{int(operand, 16):x}"
    if name in JUMPS:
        return str(int(operand, 16) - address)
    if name in SHIFTS:
        return str(int(operand, 16))
    if name in MEMORY:
        offset, register = re.fullmatch(r"(-?\d+)\((x\d+)\)", operand).groups()
        return f"{int(offset)}({register})"
    return str(int(operand))


def operand_forms(name, operands, address):
    """The operands in the normal form, without the disassembler's notes on addresses."""
    parts = re.sub(r" *(<.*>|#.*)", "", operands).split(",")
    if name not in REGISTER:
        parts[-1] = immediate_form(name, parts[-1], address)
    return parts


def reading(word, entry, address):
    """The normal form of one entry of the listing, and for the summary the kind of the reading."""
    raw, name, operands = entry
    if raw != word:
        return "illegal", "illegal: not a word of four bytes"
    if name.startswith("."):
        return "illegal", "illegal: no instruction"
    if name in FOREIGN:
        return "illegal", f"illegal: {name}"
    name = RENAMED.get(name, name)
    if name not in BASE:
        raise SystemExit(f"{word}: the disassembler gives an unknown name, {name}")
    if name in BARE:
        return name, name
    parts = operand_forms(name, operands, address)
    if name in SHIFTS and int(parts[-1]) > 31:
        # The disassembler reads six bits of amount even for 32-bit registers.
        return "illegal", "illegal: amount above 31"
    return f"{name} {', '.join(parts)}", name


def main():
    words_path, listing_path = sys.argv[1:]
    listing = parse_listing(listing_path)
    kinds = Counter()
    with open(words_path, encoding="ascii") as words:
        for number, word in enumerate(words.read().split()):
            address = ORIGIN + number * STRIDE
            text, kind = reading(word, listing[address], address)
            kinds[kind] += 1
            print(word, text)
    for kind, count in sorted(kinds.items()):
        print(f"{count:6} {kind}", file=sys.stderr)
    missing = sorted(BASE - set(kinds))
    if missing:
        raise SystemExit(f"no word was read as {', '.join(missing)}")


main()
