"""What is shared with tools/build: why a file can't be read, in the words of the script `nova`, and how words are refused."""

from __future__ import annotations

import sys
from pathlib import Path

from program import Trouble

sys.path.append(str(Path(__file__).resolve().parents[1] / "build"))

from hints import unread  # noqa: E402
from parsing import Parser, program_file  # noqa: E402

__all__ = ["Parser", "check_readable", "program_file"]


def check_readable(file: Path) -> None:
    """Raises Trouble for a file that can't be read. A pipe is left alone."""
    if why := unread(str(file)):
        raise Trouble(why)
