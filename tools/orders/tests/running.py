"""What the tests run the tool by."""

from __future__ import annotations

import subprocess
import sys
import tempfile
from collections.abc import Iterator
from contextlib import contextmanager
from pathlib import Path

HERE = Path(__file__).resolve().parent
TOOL = HERE.parent
EXAMPLES = TOOL.parents[1] / "examples"
PICTURE = TOOL.parent / "picture"
sys.path.insert(0, str(TOOL))

from finding import find_program  # noqa: E402
from program import Program  # noqa: E402
from shared import Settings, read_settings  # noqa: E402

# The words of `--program`, for each start of the tool.
MEANS: list[str] = []


def orders(*words: str) -> subprocess.CompletedProcess[str]:
    """A run of the tool."""
    return subprocess.run([sys.executable, str(TOOL), words[0], *MEANS, *words[1:]], capture_output=True, text=True, check=False)


class Told:
    """What `explore` wrote: the orders of each outcome by its lines without remarks, and how many orders it is said to be of."""

    def __init__(self, answer: subprocess.CompletedProcess[str], folder: Path) -> None:
        self.answer = answer
        self.outcomes: dict[tuple[str, ...], str] = {}
        self.counts: list[int] = []
        parts = answer.stdout.split("\noutcome ")
        for number, part in enumerate(parts[1:], 1):
            head, *lines = part.splitlines()
            self.counts.append(int(head.split(": ")[1].split(" ")[0].replace(",", "")))
            found = tuple(line.split("  # ")[0].strip() for line in lines if not line.startswith("  parts from"))
            self.outcomes[found] = (folder / f"{number}.order").read_text()


def explored(*words: str) -> Told:
    """A run of `explore`."""
    with tempfile.TemporaryDirectory() as folder:
        return Told(orders("explore", *words, "--output", folder), Path(folder))


@contextmanager
def opened(scenario: Path) -> Iterator[tuple[Program, Settings]]:
    """The program with a scenario, and the settings of that."""
    with tempfile.TemporaryDirectory() as folder:
        path = find_program(Path(MEANS[1]) if MEANS else None, scenario)
        yield Program(path, scenario, Path(folder), 2), read_settings(scenario.read_text())
