"""Where an address lies in a program: its function and source line, by binutils for RISC-V."""

from __future__ import annotations

import subprocess
from collections.abc import Iterable
from dataclasses import dataclass
from pathlib import Path

ADDR2LINE = "riscv64-unknown-elf-addr2line"


@dataclass(frozen=True, slots=True)
class Place:
    """A function, and the file and line. Of a function that the compiler put into others the outermost is told, and which one it was."""

    function: str
    line: str
    inner: str | None = None

    def __str__(self) -> str:
        line = "" if self.line.startswith("??") else f" ({self.line})"
        return f"in {self.function}{line}{f', by {self.inner}' if self.inner else ''}"


def places_of(executable: Path, addresses: Iterable[int]) -> dict[int, Place]:
    """The place of each address that lies in a function of an executable. None where no reader of executables is installed."""
    words = [ADDR2LINE, "-a", "-f", "-i", "-s", "-e", str(executable), *map(hex, sorted(set(addresses)))]
    try:
        told = subprocess.run(words, capture_output=True, text=True, errors="replace", check=False).stdout.splitlines()
    except FileNotFoundError:
        return {}
    found: dict[int, list[str]] = {}
    for line in told:
        if line.startswith("0x"):
            found[int(line, 16)] = chain = []
        else:
            chain.append(line)
    return {address: place_of(chain) for address, chain in found.items() if chain and not chain[-2].startswith("??")}


def place_of(chain: list[str]) -> Place:
    """The place of functions and lines, the innermost first."""
    functions, lines = chain[::2], [line.split(" (disc")[0] for line in chain[1::2]]
    return Place(functions[-1], lines[-1], functions[0] if len(functions) > 1 else None)
