"""flat.py CODE FILE: writes position-independent code without data of its own as an executable in the flat format, bFLT 4, of Linux."""

import struct
import sys
from pathlib import Path

MAGIC, VERSION, STACK_BYTES, IN_RAM = b"bFLT", 4, 4096, 1
HEADER_BYTES = 64


def flat(code: bytes) -> bytes:
    """The executable: its header, with the entry, the ends of code, data and bss, the stack, relocations (none) and flags; and the code."""
    end = HEADER_BYTES + len(code)
    return struct.pack(">4s9I24x", MAGIC, VERSION, HEADER_BYTES, end, end, end, STACK_BYTES, end, 0, IN_RAM) + code


if __name__ == "__main__":
    Path(sys.argv[2]).write_bytes(flat(Path(sys.argv[1]).read_bytes()))
