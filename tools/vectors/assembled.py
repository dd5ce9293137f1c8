"""Prints the words of assembler texts as GNU's assembler and linker make them.

    assembled.py TEXTS

TEXTS has an empty line between each text and the next. The answer has for each text its words, one a line in eight
hexadecimal digits, and then an empty line. A summary goes to standard error.
"""

import re
import struct
import subprocess
import sys
import tempfile
from pathlib import Path

# Where a text is put: the target of every jump is an address.
ORIGIN = "0x00400000"

# A number as a target is an offset from the instruction here, and an address to GNU's assembler.
OFFSET = re.compile(r"^(\s*(?:j|jal|beq|bne|blt|bge|bltu|bgeu)\s(?:.*,)?\s*)(-?)(0x[0-9A-Fa-f]+|[0-9]+)\s*$", re.MULTILINE)


def run(tool, *arguments):
    """Runs one of GNU's tools."""
    subprocess.run([f"riscv64-unknown-elf-{tool}", *arguments], check=True)


def words_of(text, folder):
    """The words of a text."""
    source, parts, program, binary = (folder / name for name in ("text.s", "text.o", "text", "text.bin"))
    spelt = OFFSET.sub(lambda found: f"{found[1]}. {found[2] or '+'} {found[3]}", text)
    source.write_text(f"{spelt}\n", encoding="ascii")
    run("as", "-march=rv32i2p1", "-mabi=ilp32", "-mno-relax", "-o", parts, source)
    run("ld", "-m", "elf32lriscv", "--no-relax", "-Ttext", ORIGIN, "-e", ORIGIN, "-o", program, parts)
    run("objcopy", "-O", "binary", "-j", ".text", program, binary)
    return [word for (word,) in struct.iter_unpack("<I", binary.read_bytes())]


def main():
    texts = Path(sys.argv[1]).read_text(encoding="ascii").split("\n\n")
    with tempfile.TemporaryDirectory() as folder:
        for text in texts:
            for word in words_of(text, Path(folder)):
                print(f"{word:08x}")
            print()
    print(f"{len(texts)} texts", file=sys.stderr)


main()
