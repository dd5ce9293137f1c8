"""Writes the data files of the runs.

    collect.py FOLDER PROGRAMS REGISTERS

FOLDER has for each program NNN.words, its bytes, and NNN.registers, pc and x1 to x31 at its end.
PROGRAMS gets a line of words for each program, REGISTERS a line of the registers that aren't 0.
"""

import struct
import sys
from pathlib import Path

CODE = 0x00010000
EBREAK = 0x00100073


def words_of(path):
    """The little-endian words of a file."""
    return [word for (word,) in struct.iter_unpack("<I", path.read_bytes())]


def registers_line(program, saved):
    """The registers that aren't 0 at the end of the program, which must be its last word."""
    pc, *registers = saved
    last = CODE + 4 * (len(program) - 1)
    if len(registers) != 31 or pc != last or program[-1] != EBREAK:
        raise SystemExit(f"a run ended at {pc:08x} and not at the ebreak at {last:08x}")
    fields = [f"x{number}={value:08x}" for number, value in enumerate(registers, start=1) if value != 0]
    return " ".join(fields) or "-"


def main():
    folder, programs_path, registers_path = map(Path, sys.argv[1:])
    program_lines = []
    register_lines = []
    for path in sorted(folder.glob("*.words")):
        program = words_of(path)
        program_lines.append(" ".join(f"{word:08x}" for word in program))
        register_lines.append(registers_line(program, words_of(path.with_suffix(".registers"))))
    programs_path.write_text("".join(f"{line}\n" for line in program_lines), encoding="ascii")
    registers_path.write_text("".join(f"{line}\n" for line in register_lines), encoding="ascii")


main()
