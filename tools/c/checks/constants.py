"""The numbers of include/nova.h, as two readers find them, and those of the code and of the machine."""

from __future__ import annotations

import re
import subprocess
from pathlib import Path
from typing import TYPE_CHECKING

import machine

if TYPE_CHECKING:
    from outcome import Outcome
    from programs import Tools

NUMBER = r"(0x[0-9a-fA-F]+|\d+)[uU]?"


def in_text(text: str) -> dict[str, int]:
    """The numbers that a text without comments gives to names, by enumerators and by definitions."""
    enumerators = re.findall(rf"^\s*(NOVA_\w+) = {NUMBER},", text, re.MULTILINE)
    definitions = re.findall(rf"^\s*#define (NOVA_\w+) {NUMBER}\s*$", text, re.MULTILINE)
    return {name: int(number, 0) for name, number in enumerators + definitions}


def plainly_read(header: Path) -> dict[str, int]:
    """The numbers of a header, read without a compiler."""
    return in_text(re.sub(r"/\*.*?\*/", "", header.read_text(), flags=re.DOTALL))


def preprocessed(header: Path, compiler: str) -> dict[str, int]:
    """The numbers of a header, as the compiler's preprocessor has it."""
    words = [compiler, "-E", "-dD", "-P", "-march=rv32i", "-mabi=ilp32", "-ffreestanding", str(header)]
    return in_text(subprocess.run(words, capture_output=True, text=True, check=True).stdout)


def kept(lines: str) -> dict[str, int]:
    """The numbers of the code, of lines with a name and a number each."""
    return {name: int(number) for name, number in (line.split() for line in lines.splitlines())}


def differences(here: dict[str, int], there: dict[str, int]) -> str:
    """What differs, or nothing."""
    wrong = [f"{name} is {here.get(name)} in the header and {there.get(name)} in the code" for name in sorted(here.keys() | there.keys())
             if here.get(name) != there.get(name)]
    return "; ".join(wrong)


def look(outcome: Outcome, tools: Tools) -> None:
    """Compares the header's numbers, each way of reading them, with those of the code and of the machine."""
    if not outcome.wants("nova.h"):
        return
    header = tools.c / "include" / "nova.h"
    read = plainly_read(header)
    code = kept((tools.top / "crates" / "nova_constants" / "stdout").read_text())
    code |= machine.shown(tools, read.get("NOVA_WORDS_ADDRESS", 0))
    outcome.count("nova.h, plainly read", differences(read, code))
    if tools.has_compiler:
        outcome.count("nova.h, by the preprocessor", differences(preprocessed(header, tools.compiler), code))
