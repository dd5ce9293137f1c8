"""How a tool ends: where a file or a program isn't there, after an interrupt, and where nobody reads what it writes."""

from __future__ import annotations

import os
import select
import shlex
import subprocess
import sys
from collections.abc import Callable
from pathlib import Path

FAILED, INTERRUPTED, UNREAD = 1, 130, 141


class Missing(Exception):
    """A program isn't there, or is of other sources; the text says how it is built, and how long that takes."""


def is_unread() -> bool:
    """Whether standard output is a pipe, or the like, whose reader is gone."""
    poll = select.poll()
    poll.register(sys.stdout.fileno(), 0)
    return any(events & select.POLLERR for _, events in poll.poll(0))


def say(name: str, what: str) -> int:
    """A line on standard error, and the status that goes with it."""
    print(f"{name}: {what}", file=sys.stderr)
    return FAILED


def leave_output() -> None:
    """What is still to be written goes nowhere, so that the interpreter doesn't fail in writing it."""
    os.dup2(os.open(os.devnull, os.O_WRONLY), sys.stdout.fileno())


def finished(work: Callable[[], int]) -> int:
    """The status that a tool's work comes to, with all written that it wrote. Where there is no standard output, that goes nowhere."""
    sys.stdout = sys.stdout or Path(os.devnull).open("w")
    try:
        return work()
    finally:
        try:
            sys.stdout.flush()
        except OSError:
            leave_output()
            raise


def ended(name: str, work: Callable[[], int]) -> int:
    """The status that a tool's work comes to.

    Where a file or a program isn't there, a file is no text, or a command failed that the tool needs, it says so by its name, with status 1; so it says
    that it was interrupted, with status 130. Where nobody reads on, the status is 141, and nothing is said.
    """
    try:
        return finished(work)
    except Missing as why:
        return say(name, str(why))
    except subprocess.CalledProcessError as error:
        return say(name, f"{error.cmd if isinstance(error.cmd, str) else shlex.join(map(str, error.cmd))}: status {error.returncode}")
    except UnicodeDecodeError as error:
        return say(name, f"a file is no text: {error.reason} at byte {error.start}")
    except KeyboardInterrupt:
        say(name, "interrupted")
        return INTERRUPTED
    except BrokenPipeError as error:
        if is_unread():
            return UNREAD
        return say(name, f"a program that was asked ended before it answered: {error.strerror}")
    except OSError as error:
        return say(name, f"{f'{error.filename}: ' if error.filename else ''}{error.strerror}")
