"""Variables of an executable by their names: where they lie in memory, and how large they are; and what its constants say."""

from __future__ import annotations

import re
import struct
from dataclasses import dataclass
from pathlib import Path

MAGIC = b"\x7fELF\x01\x01"
SYMBOLS, OBJECT = 2, 1
# Of a section: that it has no bytes in the file; that it can be written, lies in memory, is executed.
NO_BYTES, WRITE, LOADED, EXECUTE = 8, 1, 2, 4
PAGE, WORD = 4096, 4
# A word of memory by name: a variable, and how many bytes behind its beginning.
PLACE = re.compile(r"([A-Za-z_]\w*)(?:\+(0x[0-9a-fA-F]+|\d+))?")


class NoSymbol(Exception):
    """A variable isn't there, or a file is no executable; the text says which."""


@dataclass(frozen=True, slots=True)
class Symbol:
    """A variable: its address, and its size in bytes."""

    address: int
    size: int
    section: int


@dataclass(frozen=True, slots=True)
class Executable:
    """An executable of 32 bits: its file, its bytes, and the headers of its sections."""

    path: Path
    elf: bytes
    sections: list[tuple[int, ...]]


def read_executable(path: Path) -> Executable:
    """The executable of a file. Raises NoSymbol where it is none."""
    try:
        elf = path.read_bytes()
    except OSError as error:
        raise NoSymbol(f"{path}: {error.strerror}") from error
    if not elf.startswith(MAGIC):
        raise NoSymbol(f"{path} is no executable of 32 bits")
    try:
        place, (size, count) = struct.unpack_from("<I", elf, 32)[0], struct.unpack_from("<2H", elf, 46)
        return Executable(path, elf, [struct.unpack_from("<10I", elf, place + i * size) for i in range(count)])
    except struct.error as error:
        raise NoSymbol(f"{path} is cut short") from error


def read_symbols(path: Path) -> dict[str, list[Symbol]]:
    """The variables of an executable, by their names; a name that is local to a source may be there several times."""
    return symbols_of(read_executable(path))


def symbols_of(executable: Executable) -> dict[str, list[Symbol]]:
    """The same of what was read."""
    elf, found = executable.elf, dict[str, list[Symbol]]()
    try:
        for _, kind, _, _, place, size, link, _, _, each in executable.sections:
            if kind != SYMBOLS:
                continue
            for at in range(place, place + size, each):
                name, address, length, info, _, section = struct.unpack_from("<3I2BH", elf, at)
                begin = executable.sections[link][4] + name
                text = elf[begin : elf.index(b"\0", begin)].decode("ascii", "replace")
                if info & 15 == OBJECT:
                    found.setdefault(text, []).append(Symbol(address, length, section))
    except (struct.error, ValueError, IndexError) as error:
        raise NoSymbol(f"{executable.path} is cut short") from error
    return found


def variables(path: Path) -> dict[str, Symbol]:
    """The variables that a question may name: those that can be written, have a word at least, and a name of their own. Stacks, which have guards,
    are left out."""
    executable = read_executable(path)
    symbols = symbols_of(executable)
    writable = {number for number, section in enumerate(executable.sections) if section[2] & WRITE}
    alone = {name: found[0] for name, found in symbols.items() if len(found) == 1 and PLACE.fullmatch(name) and f"{name}_guards" not in symbols}
    return {name: one for name, one in alone.items() if one.section in writable and one.size >= WORD}


def text_at(executable: Executable, address: int) -> str | None:
    """The text at an address, up to its zero; none where its bytes are none of the file."""
    for _, kind, flags, begin, place, size, *_ in executable.sections:
        if flags & LOADED and kind != NO_BYTES and begin <= address < begin + size:
            rest = executable.elf[place + address - begin : place + size]
            return rest.partition(b"\0")[0].decode("ascii", "replace")
    return None


def frame_of(words: str, path: Path) -> tuple[int, int]:
    """The frame and the offset of the word of memory that is named, where each page of memory is the frame of its number."""
    place = PLACE.fullmatch(words)
    if place is None:
        raise NoSymbol(f"{words!r} is neither a number nor VARIABLE or VARIABLE+BYTES")
    named, behind = read_symbols(path).get(place[1], []), int(place[2] or "0", 0)
    if len(named) != 1:
        raise NoSymbol(f"{path} has {'several variables' if named else 'no variable'} {place[1]}; --words lists those that have names")
    symbol = named[0]
    if behind + WORD > symbol.size:
        raise NoSymbol(f"{words}: a word is 4 bytes, and {place[1]} has {symbol.size}{f', of which {behind} lie before' if behind else ''}")
    frame, offset = divmod(symbol.address + behind, PAGE)
    if offset > PAGE - WORD:
        raise NoSymbol(f"{words} lies in two pages")
    return frame, offset
