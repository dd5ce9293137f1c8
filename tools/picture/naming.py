"""Names for the objects of a run: of a file, or of the constants of a program in C that is compiled with `--debug`.

A line of the file is `OBJECT NAME`, with an object's number as reports have it, or `PD:SELECTOR NAME`, with a selector as programs have it; what
follows `#` is a remark. In C a selector is a constant of an `enum`: what a domain holds at that selector has its name.
"""

from __future__ import annotations

import argparse
import re
import subprocess
from collections.abc import Iterable, Mapping
from dataclasses import dataclass, field
from pathlib import Path

from report import CapRange, Fault, Space

READELF = "riscv64-unknown-elf-readelf"
LINE = re.compile(r"(?:(\d+):)?(\d+) ([!-~]{1,40})")
OBJECT = re.compile(r"\b(EC|SM|SC|PT|PD) (\d+)\b(?! \()")
NAME = re.compile(r"DW_AT_name\s*:\s*(?:\([^)]*\)\s*)*:?\s*(\w+)")
CONSTANT = re.compile(r"DW_AT_const_value\s*:\s*(?:\(\w+\)\s*)?(\d+)")
# What begins so is of the header, and no program's own.
OURS = "NOVA_"
# At the selectors below this one a domain finds what boot gave it.
FIRST_SELECTOR = 3
# How much of a name stands at the head of a lane.
HEAD = 10


class Unread(Exception):
    """A file can't be read, or is none that is wanted; the text says which and why."""


@dataclass(frozen=True, slots=True)
class Names:
    """Names of objects, by their numbers."""

    by_number: Mapping[int, str] = field(default_factory=dict)

    def of(self, number: int, kind: str = "EC") -> str:
        """An object as a text: its kind and its number, with its name where it has one."""
        name = self.by_number.get(number)
        return f"{kind} {number} ({name})" if name else f"{kind} {number}"

    def text(self, text: str) -> str:
        """A text with the names behind the objects in it."""
        return OBJECT.sub(lambda found: self.of(int(found[2]), found[1]), text) if self.by_number else text

    def head(self, number: int, otherwise: str) -> str:
        """What stands under an object's number at the head of its lane."""
        return self.by_number.get(number, otherwise)[:HEAD]

    def line(self, line: str) -> str:
        """A line of a report with the name of its object, and the text of a console, as a remark."""
        words = line.split()
        if words[:1] == ["console"] and words[2:] not in ([], ["-"]):
            return f"{line}  # {as_text(words[2])}"
        at = {"ec": 1, "sm": 1, "sc": 1, "at": 3}.get(words[0], 0) if words else 0
        name = self.by_number.get(int(words[at])) if at and len(words) > at and words[at].isdigit() else None
        return f"{line}  # {name}" if name else line


def as_text(digits: str) -> str:
    """The bytes of a console as a text in quotes; other bytes than printable ASCII as in C."""
    known = {"\n": "\\n", "\t": "\\t", '"': '\\"', "\\": "\\\\"}
    shown = bytes.fromhex(digits).decode("latin-1")
    return '"' + "".join(known.get(char) or (char if " " <= char <= "~" else f"\\x{ord(char):02x}") for char in shown) + '"'


def selectors(ranges: Iterable[CapRange]) -> dict[tuple[int, int], int]:
    """The object that each domain holds at each selector, by the lines `cap` of a report."""
    return {(held.domain, held.base): held.target for held in ranges if held.space is Space.OBJECTS and held.order == 0}


def selectors_in(lines: Iterable[str]) -> dict[tuple[int, int], int]:
    """The same by the lines alone."""
    rows = (line.split() for line in lines)
    return {(int(row[3]), int(row[5])): int(row[8]) for row in rows if row[4] == "obj" and row[6] == "0"}


def read_names(text: str, held: Mapping[tuple[int, int], int]) -> dict[int, str]:
    """The names of a file. Raises Fault at the first line that is not of the form."""
    found: dict[int, str] = {}
    for number, line in enumerate(text.splitlines(), 1):
        words = " ".join(line.split("#")[0].split())
        if not words:
            continue
        of = LINE.fullmatch(words)
        if of is None:
            raise Fault(number, "`OBJECT NAME` or `PD:SELECTOR NAME` is wanted")
        named = int(of[2]) if of[1] is None else held.get((int(of[1]), int(of[2])))
        if named is not None:
            found[named] = of[3]
    return found


def check_executable(path: Path) -> None:
    """Raises Unread where a file is no executable of 32 bits."""
    try:
        with path.open("rb") as file:
            head = file.read(5)
    except OSError as error:
        raise Unread(f"{path}: {error.strerror}") from error
    if head != b"\x7fELF\x01":
        is_wide = head == b"\x7fELF\x02"
        raise Unread(f"{path} is an executable of 64 bits, where one of 32 is wanted" if is_wide else f"{path} is no executable")


def found_in(pattern: re.Pattern[str], line: str) -> str:
    """What a pattern finds in a line; an empty text for nothing."""
    found = pattern.search(line)
    return found[1] if found else ""


def enumerations(executable: Path) -> list[dict[str, int]]:
    """The enumerations of a program that was compiled for a debugger, each with its constants. None where no reader of executables is installed."""
    check_executable(executable)
    words = [READELF, "--debug-dump=info", "--wide", str(executable)]
    try:
        told = subprocess.run(words, capture_output=True, text=True, errors="replace", check=False).stdout
    except FileNotFoundError:
        return []
    found: list[dict[str, int]] = []
    name, is_constant = "", False
    for line in told.splitlines():
        if "DW_TAG_" in line:
            is_constant = "DW_TAG_enumerator" in line
            if "DW_TAG_enumeration_type" in line:
                found.append({})
        elif is_constant and "DW_AT_name" in line:
            name = found_in(NAME, line)
        elif is_constant and found and (value := found_in(CONSTANT, line)):
            found[-1][name] = int(value)
    return [one for one in found if one and not any(name.startswith(OURS) for name in one)]


def constants(executable: Path, held: Mapping[tuple[int, int], int], domains: Iterable[int]) -> dict[int, str]:
    """Names by the constants of a program, for what its domains hold. Enumerations come first whose constants are selectors most often; one whose
    constants mostly are none names nothing."""
    there = set(domains)
    own = {selector: number for (domain, selector), number in held.items() if domain in there and selector >= FIRST_SELECTOR}
    counted = [(sum(value in own for value in one.values()), one) for one in enumerations(executable)]
    found: dict[int, str] = {}
    for _, one in sorted(((count, one) for count, one in counted if 2 * count >= len(one)), key=lambda pair: -pair[0]):
        for name, value in one.items():
            if value in own:
                found.setdefault(own[value], name)
    return found


def add_words(words: argparse.ArgumentParser) -> None:
    """The words that say where names come from."""
    words.add_argument("--names", type=Path, metavar="FILE", help="names of objects: lines OBJECT NAME, or PD:SELECTOR NAME")


def names_of(file: Path | None, executables: Iterable[Path], held: Mapping[tuple[int, int], int]) -> Names:
    """The names of a file, and else those of executables, for what domains hold at their selectors. Raises Unread."""
    found: dict[int, str] = {}
    for executable in executables:
        found |= constants(executable, held, {domain for domain, _ in held})
    return Names(found | (named_in(file, held) if file is not None else {}))


def named_in(file: Path, held: Mapping[tuple[int, int], int]) -> dict[int, str]:
    """The names of a file. Raises Unread."""
    try:
        return read_names(file.read_text(errors="replace"), held)
    except OSError as error:
        raise Unread(f"{file}: {error.strerror}") from error
    except Fault as fault:
        raise Unread(f"{file}: {fault}") from fault
