"""What docs/ARCHITECTURE.md says of files.

A file is a name in backticks that ends in .rt or .antt, with folders before it or alone; the names in brackets behind it are words of that
file.
"""

from __future__ import annotations

import re
from pathlib import Path

QUOTED = re.compile(r"`([^`]+)`")
FILE = re.compile(r"`([\w./]+\.(?:rt|antt))`(?: \(([^()]*)\))?")
WORD = re.compile(r"^\w+$")


def named(text: str) -> list[tuple[str, list[str]]]:
    """Each file that a page names, with the words in brackets behind it."""
    return [(file, [name for name in QUOTED.findall(words) if WORD.match(name)]) for file, words in FILE.findall(text)]


def known(top: Path) -> dict[str, list[Path]]:
    """The sources, definitions and proofs of the crates, by file name."""
    files: dict[str, list[Path]] = {}
    for folder in ("src", "specs", "proofs"):
        for suffix in ("rt", "antt"):
            for file in top.glob(f"crates/*/{folder}/**/*.{suffix}"):
                files.setdefault(file.name, []).append(file)
    return files


def gone(text: str, top: Path) -> list[str]:
    """The files that a page names and no crate has, and words that none of the files of that name has, a line each."""
    files, faults = known(top), []
    for name, words in named(text):
        meant = [file for file in files.get(name.rpartition("/")[2], []) if file.as_posix().endswith(f"/{name}")]
        texts = [file.read_text("utf-8") for file in meant]
        faults += [] if meant else [f"no file: {name}"]
        faults += [f"not in {name}: {word}" for word in words if meant and not any(re.search(rf"\b{word}\b", text) for text in texts)]
    return faults
