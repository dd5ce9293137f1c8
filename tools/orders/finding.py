"""Which programs are asked: those that are named, or those of the repository, where they are built. Nothing is built here."""

from __future__ import annotations

import subprocess
import sys
from pathlib import Path

from program import DONE, Trouble

sys.path.append(str(Path(__file__).resolve().parents[1] / "build"))

from built import Missing, ended, find, there  # noqa: E402

__all__ = ["ended", "find_program", "find_staying"]


def find_staying(named: Path | None, program: Path | None) -> Path | None:
    """The program that stays: the one that is named, or that of the repository or its draft, where one is there and no other program is wanted."""
    if named is not None or program is not None:
        return named
    return there("nova_debug")


def find_program(named: Path | None, scenario: Path) -> Path:
    """The program to start: the one that is named, or that of the repository.

    What it says of a fault of the scenario stands on standard error. Raises Trouble where the scenario cannot be run, or the repository's
    program isn't built of the sources that are here.
    """
    try:
        asked = named or find("nova")
    except Missing as why:
        raise Trouble(f"{why}; --program FILE takes it") from why
    try:
        checked = subprocess.run([str(asked), "check", str(scenario)], stdout=subprocess.DEVNULL, check=False)
    except OSError as error:
        raise Trouble(f"{asked}: {error.strerror}") from error
    if checked.returncode != DONE:
        raise Trouble(f"{scenario} was not run")
    return asked
