"""Random programs as guests of vmm: none hangs its monitor or harms it, and a second guest beside it runs to its own end.

python3 tools/c/vmm/fuzz [--program FILE] [--seed WORD] [--count N] [--only NUMBER]

Each program runs on a processor of its own beside `hart`, which runs on a second one under a monitor of its own. Every other one has a
monitor without patches. The neighbour must end as it does beside itself; the guest must hold what it was given at its startup and nothing
else; its monitor must answer each exit soon, and may end only by saying that its guest ended the machine. The last line has the counts; a
program that goes wrong is named by its seed and number, and its scenario is kept in the folder for temporary files.
"""

from __future__ import annotations

import argparse
import re
import shutil
import subprocess
import sys
import tempfile
from dataclasses import dataclass
from pathlib import Path

from judge import Known, Report, fault
from programs import program

sys.path.append(str(Path(__file__).resolve().parents[3] / "build"))

from ending import ended  # noqa: E402

HERE = Path(__file__).resolve().parent
C = HERE.parents[1]
TOP = C.parents[1]
LIMIT, ORDER = 500_000, 6

# The memory of the first of two guests, in the scenario.
IMAGE = re.compile(rf"^image 0x{4096 << ORDER:08x} hex\n.*?^end\n", re.DOTALL | re.MULTILINE)


def parser() -> argparse.ArgumentParser:
    """The words that the program takes."""
    words = argparse.ArgumentParser(prog="fuzz", description="Runs random programs as guests of vmm.")
    words.add_argument("--program", type=Path, default=TOP / "nova", metavar="FILE", help="the program (nova at the top of the repository)")
    words.add_argument("--seed", default="vmm", metavar="WORD", help="what the programs are made of (vmm)")
    words.add_argument("--count", type=int, default=1000, metavar="N", help="how many programs (1000)")
    words.add_argument("--only", type=int, metavar="NUMBER", help="this program alone")
    return words


@dataclass
class Side:
    """A scenario with `hart` on both processors, with patches or without, and what is known of its run."""

    nova: Path
    folder: Path
    patches: bool

    def __post_init__(self) -> None:
        """Builds it, and runs it."""
        words = [] if self.patches else ["--no-patches"]
        scenario = self.folder / "both.nova"
        self.build(scenario, words)
        self.text = scenario.read_text(encoding="ascii")
        known = self.run(self.text)
        if not known.text.startswith("run quiet"):
            raise SystemExit(f"fuzz: two harts don't end within {LIMIT} turns")
        self.known = Known(known)

    def build(self, scenario: Path, words: list[str]) -> None:
        """Builds the scenario of two, with the guests' memory as words."""
        elf, image = self.folder / "hart.elf", self.folder / "hart.bin"
        subprocess.run([C / "hart/build.sh", elf, "-DBRIEF"], check=True)
        subprocess.run(["riscv64-unknown-elf-objcopy", "-O", "binary", elf, image], check=True)
        subprocess.run([HERE.parent / "guest.sh", "--two", *words, image, scenario, str(ORDER)], check=True)

    def run(self, text: str) -> Report:
        """The report of a scenario."""
        scenario = self.folder / "fuzz.nova"
        scenario.write_text(text, encoding="ascii")
        done = subprocess.run([self.nova, "solo", scenario, "--limit", str(LIMIT)], capture_output=True, text=True, check=False)
        return Report(done.stdout)

    def with_guest(self, words: list[int]) -> str:
        """The scenario in which the first guest is this program."""
        image = "".join(f"{word:08x}\n" for word in words)
        return IMAGE.sub(f"image 0x{4096 << ORDER:08x} hex\n{image}end\n", self.text, count=1)


def wrong(side: Side, seed: str) -> str:
    """What is wrong with the run of a random program."""
    report = side.run(side.with_guest(program(seed)))
    return fault(side.known, report) if report.contexts else "there is no report"


def main(words: argparse.Namespace) -> int:
    """Runs the programs."""
    failed = 0
    numbers = range(words.count) if words.only is None else [words.only]
    with tempfile.TemporaryDirectory() as folder:
        sides = [Side(words.program.resolve(), Path(folder), patches) for patches in (True, False)]
        for number in numbers:
            if what := wrong(sides[number % 2], f"{words.seed} {number}"):
                failed += 1
                kept = Path(tempfile.gettempdir()) / f"fuzz-{words.seed}-{number}.nova"
                shutil.copy(Path(folder) / "fuzz.nova", kept)
                print(f"wrong: seed {words.seed}, program {number}: {what}; {kept}", flush=True)
    print(f"fuzz: {len(numbers) - failed} passed, {failed} failed")
    return 1 if failed else 0


if __name__ == "__main__":
    sys.exit(ended("fuzz", lambda: main(parser().parse_args())))
