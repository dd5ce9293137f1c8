"""Goes through a run in both directions.

gdb-multiarch PROGRAM.elf -ex 'target remote | python3 tools/debug SCENARIO [ORDER]'
python3 tools/debug trace SCENARIO [ORDER] [--from N] [--to N] [--ec E] [--semaphores] [--stores ADDRESS]
python3 tools/debug symbols SCENARIO FILE

The first two take [--limit N] [--elf FILE] [--names FILE] [--program FILE]; the first [--keep BYTES] [--one] [--log FILE].
"""

from __future__ import annotations

import argparse
import signal
import sys
from pathlib import Path

sys.path += [str(Path(__file__).resolve().parents[1] / name) for name in ("build", "picture")]

from backend import BYTES, MOST, BackEnd, Refused  # noqa: E402
from built import Missing, ended, find  # noqa: E402
from listing import Listing, list_turns  # noqa: E402
from naming import Names, Unread, add_words, names_of, selectors_in  # noqa: E402
from packets import Closed, Line  # noqa: E402
from parsing import Parser, program_file  # noqa: E402
from symbols import write_symbols  # noqa: E402
from target import Target  # noqa: E402


def number(text: str) -> int:
    """Reads a number from 1 on."""
    if int(text) < 1:
        raise argparse.ArgumentTypeError(f"{text} is not 1 or more")
    return int(text)


def address(text: str) -> int:
    """Reads an address: decimal, or hexadecimal behind 0x."""
    return int(text, 0)


def parser(trace: bool) -> argparse.ArgumentParser:
    """The words of a command."""
    words = Parser(prog="debug trace" if trace else "debug", description="Goes through a run in both directions.")
    words.add_argument("scenario", type=Path, metavar="SCENARIO")
    words.add_argument("order", type=Path, nargs="?", metavar="ORDER", help="the order of turns of the run (round robin)")
    words.add_argument("--limit", type=number, default=MOST, metavar="N", help=f"the most turns of the run ({MOST})")
    words.add_argument("--program", type=program_file, metavar="FILE", help="another program in place of the repository's")
    add_words(words)
    told = "an executable whose functions and lines are told" if trace else "an executable whose constants name selectors; gdb has its own"
    words.add_argument("--elf", type=Path, metavar="FILE", help=told)
    if trace:
        words.add_argument("--from", dest="first", type=int, default=0, metavar="N", help="the turn to begin with (0)")
        words.add_argument("--to", dest="last", type=int, metavar="N", help="the turn to end before (that of the run's end)")
        words.add_argument("--ec", type=int, metavar="E", help="the turns of one execution context alone")
        words.add_argument("--semaphores", action="store_true", help="the turns alone that change semaphores, with which")
        words.add_argument("--stores", type=address, metavar="ADDRESS", help="the turns alone that store there, as the program has the address")
    else:
        kept = f"what states on the way may take, 0 for none ({BYTES})"
        words.add_argument("--keep", type=int, default=BYTES, metavar="BYTES", help=kept)
        words.add_argument("--one", action="store_true", help="all execution contexts are threads of one inferior")
        words.add_argument("--log", type=Path, metavar="FILE", help="write what gdb asks, and the answers")
    return words


def opened(asked: argparse.Namespace) -> BackEnd:
    """The program that is asked, with the run. Raises Refused where there is none, or it doesn't take the scenario or the order."""
    try:
        return BackEnd(asked.program or find("nova_debug"), asked.scenario, asked.order, asked.limit)
    except Missing as why:
        raise Refused(f"{why}; --program FILE takes it") from why


def naming(asked: argparse.Namespace, back: BackEnd) -> Names:
    """The names of objects, by what domains hold at the end of the run."""
    if asked.names is None and asked.elf is None:
        return Names()
    here = back.turn
    back.go(back.end)
    held = selectors_in(back.delegations())
    back.go(here)
    try:
        return names_of(asked.names, [asked.elf] if asked.elf else [], held)
    except Unread as why:
        raise Refused(str(why)) from why


def trace(words: list[str]) -> int:
    """Lists turns."""
    taken = parser(True)
    asked = taken.parse_args(words)
    if asked.first < 0 or (asked.last is not None and asked.last <= asked.first):
        taken.error(f"--from {asked.first} --to {asked.last}: no turn lies between them" if asked.first >= 0 else f"--from {asked.first}: is no turn")
    back = opened(asked)
    if asked.first >= back.end:
        raise Refused(f"--from {asked.first}: the run has {back.end} turns")
    listing = Listing(asked.first, asked.last, asked.ec, asked.elf, asked.semaphores, asked.stores, naming(asked, back))
    list_turns(back, listing, sys.stdout)
    back.close()
    return 0


def serve(words: list[str]) -> int:
    """Answers gdb. An interrupt from the keyboard is gdb's alone."""
    asked = parser(False).parse_args(words)
    signal.signal(signal.SIGINT, signal.SIG_IGN)
    back = opened(asked)
    back.keep(asked.keep)
    log = asked.log.open("w") if asked.log else None
    try:
        Target(Line(0, 1), back, asked.one, naming(asked, back)).serve(log)
    except Closed:
        back.close()
    return 0


def symbols(words: list[str]) -> int:
    """Writes an executable with the labels and lines of a scenario's images of assembler."""
    asked = Parser(prog="debug symbols", description="Makes an executable of a scenario's images of assembler.")
    asked.add_argument("scenario", type=Path, metavar="SCENARIO")
    asked.add_argument("output", type=Path, metavar="FILE")
    given = asked.parse_args(words)
    write_symbols(given.scenario, given.output)
    return 0


def main(words: list[str]) -> int:
    """One command, and its status."""
    commands = {"trace": trace, "symbols": symbols}
    try:
        return commands[words[0]](words[1:]) if words and words[0] in commands else serve(words)
    except Refused as why:
        print(f"debug: {why}", file=sys.stderr)
        return 1


if __name__ == "__main__":
    sys.exit(ended("debug", lambda: main(sys.argv[1:])))
