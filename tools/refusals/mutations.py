"""Random texts, and changes of texts: of bytes, tokens and lines."""

from __future__ import annotations

from collections.abc import Callable, Sequence
from random import Random

# Numbers at the limits of what a text may say, and such as are none.
NUMBERS = tuple(
    str(number).encode()
    for number in (
        *(0, 1, 2, 7, 8, 9, 13, 14, 15, 16, 17, 31, 32, 255, 256, 2047, 2048, 4095, 4096, 4097, 65535, 65536, 1048575, 1048576),
        *(33, 10_000_000, 10_000_001, 16777215, 16777216, 67108863, 67108864, 2**31 - 1, 2**31, 2**32 - 1, 2**32, 2**63, 2**64 - 1, 2**64, 10**30),
        *(-1, -2048, -2049, -(2**20), -(2**31), -(2**31) - 1, -(2**63)),
    )
) + (b"0x0", b"0x7ff", b"0x1000", b"0XFFF", b"0xffffffff", b"0x100000000", b"0x", b"0xg", b"00", b"007", b"+1", b"1.5", b"1e3", b"-", b"ffffffff")

# The words of scenarios, of the assembler and of orders.
WORDS = (
    *(b"cpus", b"ram", b"consoles", b"root", b"source", b"entry", b"image", b"hex", b"asm", b"elf", b"end", b"#", b":", b",", b"(", b")", b"next:", b"next"),
    *(b"addi", b"lui", b"auipc", b"jal", b"jalr", b"beq", b"lw", b"lb", b"sw", b"sb", b"slli", b"srai", b"add", b"sub", b"ecall", b"ebreak", b"fence"),
    *(b"nop", b"li", b"la", b"mv", b"j", b"ret", b"call", b".word", b"x0", b"x5", b"x10", b"x17", b"x31", b"x32", b"sp", b"ra", b"0(x5)", b"-4(sp)"),
    *(b"00100073", b"0000006f", b"7f454c46", b"\x80", b"\t", b"\r", b"\x00", b"\xc3\xa9"),
)

# What stands between tokens.
GAPS = (b" ", b" ", b" ", b"\n", b"\n", b", ", b"  ", b"\t", b"", b"\r\n")

# No text becomes longer than this.
LONGEST = 1 << 16

Change = Callable[[Random, bytes, Sequence[bytes]], bytes]


def token(rng: Random) -> bytes:
    """A token: a number, or a word."""
    return rng.choice(NUMBERS if rng.random() < 0.5 else WORDS)


def random_text(rng: Random) -> bytes:
    """A text of random tokens, or of random bytes."""
    if rng.random() < 0.3:
        return rng.randbytes(rng.randrange(200))
    return b"".join(token(rng) + rng.choice(GAPS) for _ in range(rng.randrange(120)))


def place(rng: Random, text: bytes) -> int:
    """A place in a text, or its end."""
    return rng.randrange(len(text) + 1)


def change_byte(rng: Random, text: bytes, _others: Sequence[bytes]) -> bytes:
    """Another byte at one place, or one of its bits turned."""
    if not text:
        return text
    at = rng.randrange(len(text))
    byte = text[at] ^ 1 << rng.randrange(8) if rng.random() < 0.5 else rng.randrange(256)
    return text[:at] + bytes([byte]) + text[at + 1 :]


def add_bytes(rng: Random, text: bytes, _others: Sequence[bytes]) -> bytes:
    """Some more bytes."""
    at = place(rng, text)
    return text[:at] + rng.randbytes(rng.randrange(1, 5)) + text[at:]


def drop_bytes(rng: Random, text: bytes, _others: Sequence[bytes]) -> bytes:
    """Some bytes fewer."""
    at = place(rng, text)
    return text[:at] + text[at + rng.randrange(1, 20) :]


def cut(rng: Random, text: bytes, _others: Sequence[bytes]) -> bytes:
    """The text up to one place, or from there on."""
    at = place(rng, text)
    return text[:at] if rng.random() < 0.8 else text[at:]


def repeat(rng: Random, text: bytes, _others: Sequence[bytes]) -> bytes:
    """A part of the text again and again."""
    start = place(rng, text)
    part = text[start : start + rng.choice((1, 3, 20, 200))]
    return text[:start] + part * rng.choice((1, 2, 10, 100)) + text[start:]


def splice(rng: Random, text: bytes, others: Sequence[bytes]) -> bytes:
    """The beginning of the text, and the end of another."""
    other = rng.choice(others)
    return text[: place(rng, text)] + other[place(rng, other) :]


def change_token(rng: Random, text: bytes, _others: Sequence[bytes]) -> bytes:
    """Another token in the place of one, one more, or one fewer."""
    lines = text.split(b"\n")
    row = rng.randrange(len(lines))
    tokens = lines[row].split(b" ")
    at = rng.randrange(len(tokens))
    tokens[at : at + rng.randrange(2)] = [token(rng) for _ in range(rng.randrange(2))] or [b""]
    lines[row] = b" ".join(tokens)
    return b"\n".join(lines)


def change_number(rng: Random, text: bytes, _others: Sequence[bytes]) -> bytes:
    """A number at a limit in the place of one."""
    tokens = text.split(b" ")
    numbers = [at for at, one in enumerate(tokens) if one[:1].isdigit()]
    if not numbers:
        return text
    at = rng.choice(numbers)
    tokens[at] = rng.choice(NUMBERS) + (b"\n" + tokens[at].split(b"\n", 1)[1] if b"\n" in tokens[at] else b"")
    return b" ".join(tokens)


def change_lines(rng: Random, text: bytes, others: Sequence[bytes]) -> bytes:
    """A line fewer, twice, elsewhere, in the place of another, or of another text."""
    lines = text.split(b"\n")
    at, to = rng.randrange(len(lines)), rng.randrange(len(lines))
    match rng.randrange(5):
        case 0:
            del lines[at]
        case 1:
            lines.insert(at, lines[at])
        case 2:
            lines.insert(to, lines.pop(at))
        case 3:
            lines[at], lines[to] = lines[to], lines[at]
        case _:
            lines.insert(at, rng.choice(rng.choice(others).split(b"\n")))
    return b"\n".join(lines)


CHANGES: tuple[Change, ...] = (
    *(change_byte, add_bytes, drop_bytes, cut, repeat, splice),
    *(change_token, change_token, change_number, change_number, change_lines, change_lines),
)


def changed(rng: Random, text: bytes, others: Sequence[bytes]) -> bytes:
    """The text after one change or a few."""
    for _ in range(rng.choice((1, 1, 1, 2, 3, 8))):
        text = rng.choice(CHANGES)(rng, text, others)[:LONGEST]
    return text
