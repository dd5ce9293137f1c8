"""The tutorial: its programs are written and its commands run, in their order, and its extracts stand in the examples."""

from __future__ import annotations

import re
import shutil
import subprocess
from pathlib import Path
from typing import TYPE_CHECKING

if TYPE_CHECKING:
    from outcome import Outcome
    from programs import Tools

PAGE = "docs/TUTORIAL-C.md"

# What the commands need besides the compiler.
NEEDED = ["bash", "bzip2", "xxd"]

BLOCK = re.compile(r"(?P<before>[^\n]*)\n(?:\n)?```(?P<kind>c|sh|text)\n(?P<content>.*?)^```$", re.DOTALL | re.MULTILINE)


class Reader:
    """Follows the tutorial in a folder of its own."""

    def __init__(self, tools: Tools) -> None:
        """The folder has what the top of the repository has."""
        self.folder = tools.scratch / "tutorial"
        self.folder.mkdir()
        for name in ["tools", "examples"]:
            (self.folder / name).symlink_to(tools.top / name)
        (self.folder / "nova").symlink_to(tools.nova)
        self.sources = [path.read_text() for path in sorted((tools.c / "examples").glob("*.[ch]"))]
        self.written = ""

    def program(self, before: str, content: str) -> str:
        """An extract of an example, or a program whose name stands last in the line before."""
        if any(content in source for source in self.sources):
            return ""
        names = re.findall(r"`(\w+\.c)`", before)
        if not names:
            return "it is in none of the examples"
        (self.folder / names[-1]).write_text(content)
        return ""

    def commands(self, content: str) -> str:
        """Runs commands."""
        done = subprocess.run(["bash", "-ec", content], capture_output=True, text=True, check=False, cwd=self.folder, timeout=300)
        self.written = done.stdout
        return f"status {done.returncode}, {done.stderr.strip()}" if done.returncode or done.stderr else ""

    def follow(self, block: re.Match[str]) -> str:
        """Follows a block, and answers what is wrong."""
        if block["kind"] == "c":
            return self.program(block["before"], block["content"])
        if block["kind"] == "sh":
            return self.commands(block["content"])
        return "" if block["content"] == self.written else f"the commands write {self.written!r}"


def look(outcome: Outcome, tools: Tools) -> None:
    """Follows the tutorial."""
    if not outcome.wants(Path(PAGE).name):
        return
    missing = [name for name in NEEDED if not shutil.which(name)]
    if missing:
        outcome.skip(f"{PAGE}: {' and '.join(missing)} isn't installed")
        return
    text = (tools.top / PAGE).read_text()
    reader = Reader(tools)
    for block in BLOCK.finditer(text):
        line = text.count("\n", 0, block.start("content"))
        outcome.count(f"{PAGE}, line {line}", reader.follow(block))
