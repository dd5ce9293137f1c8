"""Whether an executable is that of a scenario: what it has to execute lies in memory where the scenario puts it."""

from __future__ import annotations

import struct
from collections.abc import Iterator
from pathlib import Path

from program import EXECUTE, LOADED, NO_BYTES, Executable, NoSymbol, read_executable
from questions import number_of

LOAD = 1


def blocks(lines: Iterator[list[str]]) -> Iterator[tuple[int, bytes]]:
    """What the images of words and of executables put into memory: where, and which bytes."""
    for words in lines:
        if words[:1] != ["image"] or len(words) != 3:
            continue
        tokens = [token for inside in iter(lambda: next(lines, ["end"]), ["end"]) for token in inside]
        place, kind = number_of(words[1]), words[2]
        if kind == "hex":
            yield place, b"".join(int(token, 16).to_bytes(4, "little") for token in tokens)
        elif kind == "elf":
            yield from segments(bytes.fromhex("".join(tokens)), place)


def segments(elf: bytes, place: int) -> Iterator[tuple[int, bytes]]:
    """The segments of an executable that lies at a place."""
    begin, (size, count) = struct.unpack_from("<I", elf, 28)[0], struct.unpack_from("<2H", elf, 42)
    for i in range(count):
        kind, offset, address, _, length = struct.unpack_from("<5I", elf, begin + i * size)
        if kind == LOAD:
            yield place + address, elf[offset : offset + length]


def code_of(executable: Executable) -> Iterator[tuple[int, bytes]]:
    """What an executable has to execute: where, and which bytes."""
    for _, kind, flags, address, place, size, *_ in executable.sections:
        if flags & LOADED and flags & EXECUTE and kind != NO_BYTES:
            yield address, executable.elf[place : place + size]


def check(path: Path, scenario: Path) -> None:
    """Raises NoSymbol where an executable isn't that of a scenario. Of a guest's the memory lies elsewhere than its addresses say."""
    lines = (line.split("#")[0].split() for line in scenario.read_text(errors="replace").splitlines())
    try:
        there = list(blocks(lines))
    except (ValueError, OverflowError, struct.error):
        return  # the program says what is wrong
    for address, code in code_of(read_executable(path)):
        if not any(code == block[address - place : address - place + len(code)] for place, block in there if place <= address):
            why = "`tools/c/build.sh --debug` writes both at once; a guest's lies elsewhere than its addresses say"
            raise NoSymbol(f"{path} isn't what {scenario} has at 0x{address:x}: {why}")
