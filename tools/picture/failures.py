"""Assertions of a program in C: the word that a failure marks, and which of them failed."""

from __future__ import annotations

import re
from collections.abc import Iterator
from pathlib import Path

from variables import NoSymbol, frame_of, read_executable, read_symbols, text_at

# What nova_assert.h does at a failure: this word has this value, and x10 the address of the text.
MARK, FAILED = "nova_failed", 1
CONTEXT = re.compile(r"^ec (\d+) .* x10=([0-9a-f]{8})\b", re.MULTILINE)
TEXT = re.compile(r"[^:\n]+:\d+: .+")


def mark_of(executable: Path) -> tuple[int, int]:
    """The frame and the offset of the word that a failure marks. Raises NoSymbol where no assertion can fail."""
    if MARK not in read_symbols(executable):
        raise NoSymbol(f"{executable} has no nova_assert that may fail")
    return frame_of(MARK, executable)


def failures(report: str, executable: Path) -> Iterator[tuple[int, str]]:
    """The execution contexts of a report that stand at a failure, each with its text."""
    read = read_executable(executable)
    for number, address in CONTEXT.findall(report):
        text = text_at(read, int(address, 16))
        if text is not None and TEXT.fullmatch(text):
            yield int(number), text
