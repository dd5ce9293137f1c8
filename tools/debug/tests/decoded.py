"""What an instruction loads or stores, read from its word: by this the program's own answer is tried."""

from __future__ import annotations

LOAD, STORE = 0x03, 0x23


def signed(number: int, bits: int) -> int:
    """A number of so many bits with its sign."""
    return number - (1 << bits) if number >> (bits - 1) else number


def decoded(word: int, registers: tuple[int, ...]) -> tuple[int, int, int | None] | None:
    """The address, how many bytes, and the number that is stored, by the registers before it; none where it neither loads nor stores."""
    size = word >> 12 & 7
    base = registers[word >> 15 & 31]
    if word & 0x7F == LOAD and size in (0, 1, 2, 4, 5):
        return (base + signed(word >> 20, 12)) % 2**32, 1 << (size & 3), None
    if word & 0x7F == STORE and size in (0, 1, 2):
        address = (base + signed((word >> 25) << 5 | word >> 7 & 31, 12)) % 2**32
        return address, 1 << size, registers[word >> 20 & 31] % (1 << (8 << size))
    return None
