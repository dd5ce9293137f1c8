"""The Rattle kit whose `rt` is on the path: where it lies, what it is, and what it knows of the repository's crates."""

from __future__ import annotations

import importlib.util
import os
import shutil
import sys
from pathlib import Path
from types import ModuleType
from typing import Any

TOP = Path(__file__).resolve().parents[2]
NONE = "rt, the command of the Rattle kit, is not on the path (its folder is the kit's bin/)"


class NoKit(Exception):
    """There is no kit, or it is of another form than is known here; the text says which."""


def folder() -> Path:
    """The kit's folder. Raises NoKit where no `rt` is on the path."""
    found = shutil.which("rt")
    if found is None:
        raise NoKit(NONE)
    return Path(found).resolve().parent.parent


def identity() -> str | None:
    """The kit's line of its own, or none where there is no kit."""
    try:
        return (folder() / "KIT-ID").read_text().strip()
    except (NoKit, OSError):
        return None


def library() -> ModuleType:
    """The module by which `rt` itself reads crates. It is asked for what `rt` tells nobody: which files a compiler gets, and what is built."""
    if "rtlib" in sys.modules:
        return sys.modules["rtlib"]
    file = folder() / "bin" / "rtlib.py"
    spec = importlib.util.spec_from_file_location("rtlib", file)
    if spec is None or spec.loader is None:
        raise NoKit(f"{file} is no module of Python")
    made = importlib.util.module_from_spec(spec)
    sys.modules["rtlib"], written = made, sys.dont_write_bytecode
    sys.dont_write_bytecode = True
    try:
        spec.loader.exec_module(made)
    except (OSError, SyntaxError) as error:
        del sys.modules["rtlib"]
        raise NoKit(f"{file}: {error}") from error
    finally:
        sys.dont_write_bytecode = written
    return made


def crates() -> dict[str, Any]:
    """The repository's crates by their names, as `rt` reads them."""
    here = os.getcwd()
    os.chdir(TOP)
    try:
        return {crate.name: crate for crate in library().crates_below(str(TOP))}
    except (AttributeError, SystemExit) as error:
        raise NoKit(f"{folder()}: its rt reads no crates: {error}") from error
    finally:
        os.chdir(here)


def proved(names: list[str]) -> set[str]:
    """Those of some crates whose libraries are there, built by this kit of the sources that are here, as `rt` itself decides it."""
    made, sums = library().Crate, {}
    plain = made.stamp

    def stamp(crate: Any) -> str:
        if crate.folder not in sums:
            sums[crate.folder] = plain(crate)
        return sums[crate.folder]

    known = crates()
    made.stamp = stamp
    try:
        return {name for name in names if known[name].is_built()}
    finally:
        made.stamp = plain
