"""Runs what pages show, in a folder that has the repository's examples and tools."""

from __future__ import annotations

import shutil
import subprocess
from dataclasses import dataclass
from pathlib import Path

SECONDS = 120


@dataclass(frozen=True)
class Ending:
    """How a command ended."""

    status: int
    out: str
    err: str


class Machine:
    """The program that is tried, and a folder to try it in. Others are there too, by the names of their commands, where they are built."""

    def __init__(self, program: Path, top: Path, folder: Path, others: dict[str, Path] | None = None) -> None:
        self.folder = folder
        self.top = top
        for name in ("docs", "examples", "tools"):
            (folder / name).symlink_to(top / name)
        self._call("nova", program)
        for name, file in (others or {}).items():
            if file.is_file():
                self._call(name, file)

    def _call(self, name: str, program: Path) -> None:
        """Has a program be called by a name in the folder."""
        (self.folder / name).write_text(f'#!/bin/sh\nexec "{program.resolve()}" "$@"\n')
        (self.folder / name).chmod(0o755)

    def has(self, name: str) -> bool:
        """Whether a command is there."""
        return shutil.which(name) is not None or (self.folder / name).is_file()

    def _run(self, words: list[str]) -> Ending:
        ended = subprocess.run(words, cwd=self.folder, capture_output=True, encoding="utf-8", timeout=SECONDS, check=False)
        return Ending(ended.returncode, ended.stdout, ended.stderr)

    def nova(self, command: str, scenario: str, order: str | None = None, options: tuple[str, ...] = ()) -> Ending:
        """Runs `check` or `solo` over these texts."""
        (self.folder / "tried.nova").write_text(scenario)
        words = ["./nova", command, *options, "tried.nova"]
        if order is not None:
            (self.folder / "tried.order").write_text(order)
            words.append("tried.order")
        return self._run(words)

    def shell(self, lines: str) -> Ending:
        """Runs the lines of a shell, up to the first that fails."""
        return self._run(["bash", "-e", "-o", "pipefail", "-c", lines])
