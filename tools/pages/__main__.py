"""Tries what the pages show, and follows their links.

python3 tools/pages [--program FILE] [--explorer FILE] [--policy FILE] [--links] [FOLDER]

Fails where a scenario of a page has another report or fault than the page says, a command writes something else, a quoted part of a file isn't
in it, or a link leads nowhere.
"""

from __future__ import annotations

import argparse
import sys
import tempfile
from pathlib import Path

from links import faults_of, pages_of
from machine import Machine
from samples import Tried, try_page

TOP = Path(__file__).resolve().parents[2]
sys.path.append(str(TOP / "tools" / "build"))

from ending import ended  # noqa: E402


def parser() -> argparse.ArgumentParser:
    """The words that the program takes."""
    words = argparse.ArgumentParser(prog="pages", description="Tries what the pages show, and follows their links.")
    words.add_argument("--program", type=Path, metavar="FILE", help="the program that runs scenarios (that of the repository)")
    words.add_argument("--explorer", type=Path, metavar="FILE", help="the program that pages call as nova-explore (that of the repository)")
    words.add_argument("--policy", type=Path, metavar="FILE", help="the program that pages call as nova-policy (that of the repository)")
    words.add_argument("--links", action="store_true", help="follow links alone")
    words.add_argument("top", nargs="?", type=Path, default=TOP, metavar="FOLDER", help="the repository (this one)")
    return words


def tried_of(top: Path, program: Path, others: dict[str, Path]) -> Tried:
    """What the pages of `docs` show, tried."""
    tried = Tried()
    with tempfile.TemporaryDirectory() as scratch:
        machine = Machine(program, top, Path(scratch), others)
        for page in pages_of(top):
            if page.path.parent.name == "docs":
                try_page(page, machine, tried)
    return tried


def main(words: argparse.Namespace) -> int:
    """Writes the faults and a line of counts; the status is 1 where there is a fault."""
    top = words.top.resolve()
    links, faults = faults_of(top)
    program = words.program or top / "crates/nova/out/nova"
    if not words.links and not program.is_file():
        print(f"pages: {program} isn't there: `python3 tools/build` builds it, --program FILE names another, --links follows links alone", file=sys.stderr)
        return 1
    others = {
        "nova-explore": words.explorer or top / "crates/nova_explore/out/nova_explore",
        "nova-policy": words.policy or top / "crates/nova_policy/out/nova_policy",
    }
    tried = Tried() if words.links else tried_of(top, program, others)
    for fault in faults + tried.faults:
        print(fault.replace(f"{top}/", ""), file=sys.stderr)
    print(f"{links} links, {tried.count} samples, {tried.left} not tried; {len(faults) + len(tried.faults)} faults")
    return 1 if faults or tried.faults else 0


if __name__ == "__main__":
    sys.exit(ended("pages", lambda: main(parser().parse_args())))
