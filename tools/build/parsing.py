"""The words of a tool: what is wrong with them is told in one line, and not behind all that there are."""

from __future__ import annotations

import argparse
from pathlib import Path
from typing import NoReturn

WRONG = 2


class Parser(argparse.ArgumentParser):
    """Reads words, also those of a command."""

    def error(self, message: str) -> NoReturn:
        """Ends the tool with status 2 and a line on standard error."""
        self.exit(WRONG, f"{self.prog}: {message}; --help lists the words\n")


def program_file(text: str) -> Path:
    """A program that is named. Where it is a file it stands from the root on: by its name alone it would be sought among the commands."""
    named = Path(text)
    return named.absolute() if named.exists() else named
