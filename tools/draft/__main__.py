"""Runs a program unproved: a draft, for whoever can't wait for its proofs.

  ./nova draft WORD..             nova
  ./nova draft NAME WORD..        another program of the repository: debug is nova_debug
  ./nova draft --path [NAME]      makes it, and writes where it is, for the option --program of the tools

It is compiled without its proofs, once for each state of the sources, which takes one to two minutes, and kept in out/draft. It reads and writes
files where it is called, as the proved program does, and its turns take some two or three times as long. Nothing of such a run is proved: before
and after it a line on standard error says so. Checks are compiled in, so it ends by a signal at an overflow or an index out of bounds.
"""

from __future__ import annotations

import os
import signal
import subprocess
import sys
import time
from pathlib import Path

from making import TOP, Children, NoKit, NotMade, make  # makes tools/build known
from hints import hints

from built import draft_of, ended

# How a run is ended by a check of its own.
CHECKS = (signal.SIGILL, signal.SIGTRAP, signal.SIGABRT, signal.SIGSEGV)


def say(text: str) -> None:
    """A line on standard error."""
    print(f"nova: {text}", file=sys.stderr, flush=True)


def program_of(words: list[str]) -> tuple[str, list[str]]:
    """The program that is meant, by the crate's name or the part behind nova_, and the words for it."""
    for name in (f"nova_{words[0]}", words[0]) if words else ():
        if name.isidentifier() and (TOP / "crates" / name / "src" / "main.rt").is_file():
            return name, words[1:]
    return "nova", words


def made(name: str) -> Path:
    """The draft of a program. Says what takes long."""
    place = draft_of(name)
    if place.exists():
        os.utime(place.parent)
        return place
    say(f"DRAFT: {name} is compiled without its proofs, which takes one to two minutes, once for these sources")
    began, children = time.monotonic(), Children()
    signal.signal(signal.SIGTERM, signal.default_int_handler)
    try:
        make(name, place, children)
    finally:
        children.stop()
    say(f"DRAFT: {name} was compiled in {time.monotonic() - began:.0f} s")
    return place


def amiss(name: str, words: list[str]) -> list[str]:
    """What is to be said of words before the program's own line: as of those of the proved program."""
    if os.environ.get("NOVA_HINTS") == "no" or name != "nova":
        return []
    return hints(words)


def run(place: Path, words: list[str]) -> int:
    """Runs a draft, with the caller's input and output. An interrupt from the keyboard is the draft's."""
    say("DRAFT: nothing of this run is proved")
    for line in amiss(place.name, words):
        say(line.encode(errors="replace").decode())
    signal.signal(signal.SIGINT, signal.SIG_IGN)
    restored = lambda: signal.signal(signal.SIGINT, signal.SIG_DFL)  # noqa: E731
    status = subprocess.run([str(place), *words], preexec_fn=restored, check=False).returncode
    if -status in CHECKS:
        say(f"DRAFT: a check that is compiled in ended it ({signal.Signals(-status).name})")
    say("that was a DRAFT: nothing of it is proved. ./nova without draft proves the program and builds it")
    return status if status >= 0 else 128 - status


def main(words: list[str]) -> int:
    """Runs a draft, or says where it is. The status is its own, or 1 where it could not be made."""
    if words[:1] in (["--help"], ["-h"]):
        print(__doc__.strip())
        return 0
    asks = words[:1] == ["--path"]
    name, rest = program_of(words[1:] if asks else words)
    if asks and rest:
        say(f"draft --path: no program is named so: {' '.join(rest)}")
        return 2
    if name == "nova_debug" and not asks and len(rest) not in (2, 3):
        say("draft debug wants SCENARIO LIMIT [ORDER]; what goes through a run is `python3 tools/debug`, which takes a draft that was made")
        return 2
    try:
        place = made(name)
    except (NotMade, NoKit, OSError) as why:
        say(f"DRAFT: {name} could not be made: {why}")
        return 1
    except KeyboardInterrupt:
        say("DRAFT: interrupted")
        return 130
    if asks:
        print(place)
        return 0
    return run(place, rest)


if __name__ == "__main__":
    sys.exit(ended("draft", lambda: main(sys.argv[1:])))
