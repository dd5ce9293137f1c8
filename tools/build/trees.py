"""Trees of links to the sources, in which crates are proved side by side.

A proof holds its crate and all below it, so each worker has a tree of its own, and libraries are linked from one tree to the others; `rt`
never writes into a file that is there.
"""

from __future__ import annotations

import os
import shutil
import tempfile
from pathlib import Path

from built import TOP


def link(source: str | Path, target: str | Path) -> None:
    """Gives a file a second name, or copies it where the file system has no such names."""
    try:
        os.link(source, target)
    except OSError:
        shutil.copyfile(source, target)


def copy_of_sources(folder: str | Path) -> Path:
    """Makes a tree with links to the repository's sources, in a new folder of this one."""
    tree = Path(tempfile.mkdtemp(dir=folder))
    for file in ("HANDLES", "crates.txt"):
        link(TOP / file, tree / file)
    shutil.copytree(TOP / "crates", tree / "crates", ignore=shutil.ignore_patterns("out", "must-fail"), copy_function=link)
    return tree


def hand_on(crate: str, source: Path, target: Path) -> None:
    """Links what one tree has kept of a crate into another one."""
    for part in ("rlib", "incremental"):
        kept, to = source / "crates" / crate / "out" / part, target / "crates" / crate / "out" / part
        if kept.is_dir():
            shutil.rmtree(to, ignore_errors=True)
            shutil.copytree(kept, to, copy_function=link)
