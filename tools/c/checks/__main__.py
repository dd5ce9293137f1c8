"""The programs in C: what builds them, and whether they run as they should.

python3 tools/c/checks [--program FILE] [--only WORD] [--others]

The numbers of include/nova.h are compared with those of the code, which crates/nova_constants prints, and those that runs show. Where the
compiler is installed, each program of tests/ is built as the root and as a guest and compared with the host's, each scenario of the lists
is built anew and compared with what is kept, what can't be built is refused, and docs/TUTORIAL-C.md is followed; hart and random programs
are guests of the monitor of vmm, and so is Linux, where NOVA_LINUX_CACHE names the folder that tools/c/linux.sh built it in. With --others
what others wrote is fetched by the network and built, too. The last line has the counts; the status is 1 where something failed.
"""

from __future__ import annotations

import argparse
import sys
import tempfile
from pathlib import Path

import calls
import constants
import linux
import others
import programs
import refusals
import scenarios
import tutorial
import vmm
from outcome import Outcome

TOP = Path(__file__).resolve().parents[3]
sys.path.append(str(TOP / "tools" / "build"))

from built import ended, find  # noqa: E402


def parser() -> argparse.ArgumentParser:
    """The words that the program takes."""
    words = argparse.ArgumentParser(prog="checks", description="Looks at the programs in C.")
    words.add_argument("--program", metavar="FILE", help="the program (nova of the repository)")
    words.add_argument("--others", action="store_true", help="fetch and build what others wrote, too")
    words.add_argument("--only", default="", metavar="WORD", help="only what has this word in its name")
    return words


def main(words: argparse.Namespace) -> int:
    """Looks at everything."""
    outcome = Outcome(words.only)
    program = Path(words.program) if words.program else find("nova")
    with tempfile.TemporaryDirectory() as folder:
        tools = programs.Tools(TOP, program.resolve(), Path(folder))
        constants.look(outcome, tools)
        calls.look(outcome, tools)
        if tools.has_compiler:
            refusals.look(outcome, tools)
            programs.look(outcome, tools)
            tutorial.look(outcome, tools)
            vmm.look(outcome, tools)
            linux.look(outcome, tools)
        else:
            outcome.skip("what is to be built: gcc-riscv64-unknown-elf or picolibc-riscv64-unknown-elf isn't installed")
        scenarios.look(outcome, tools)
        if words.others:
            others.look(outcome, tools)
    return outcome.tell()


if __name__ == "__main__":
    sys.exit(ended("checks", lambda: main(parser().parse_args())))
