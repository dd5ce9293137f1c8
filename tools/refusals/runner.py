"""Runs a program over and over, with files in one folder for what it writes."""

from __future__ import annotations

import os
import signal
from dataclasses import dataclass
from pathlib import Path


@dataclass(frozen=True, slots=True)
class Ending:
    """How a command ended: its status, below 0 for a signal and None where it was stopped; and what it wrote."""

    status: int | None
    out: bytes
    line: bytes


class Runner:
    """Runs a program on words, each time for so many seconds at most."""

    def __init__(self, program: str, folder: Path, seconds: float) -> None:
        self.program, self.seconds = program, seconds
        self.out, self.err = folder / "out", folder / "err"
        to = os.O_WRONLY | os.O_CREAT | os.O_TRUNC
        self.files = [
            (os.POSIX_SPAWN_OPEN, 0, "/dev/null", os.O_RDONLY, 0),
            (os.POSIX_SPAWN_OPEN, 1, str(self.out), to, 0o600),
            (os.POSIX_SPAWN_OPEN, 2, str(self.err), to, 0o600),
        ]

    def ending(self, words: list[str], environment: dict[str, str] | None = None) -> Ending:
        """How the program ends on these words. Where it takes too long it is stopped."""
        child = os.posix_spawn(self.program, [self.program, *words], environment or {}, file_actions=self.files)
        stopped = False

        def stop(_signal: int, _frame: object) -> None:
            nonlocal stopped
            stopped = True
            os.kill(child, signal.SIGKILL)

        signal.signal(signal.SIGALRM, stop)
        signal.setitimer(signal.ITIMER_REAL, self.seconds)
        _, status = os.waitpid(child, 0)
        signal.setitimer(signal.ITIMER_REAL, 0)
        return Ending(None if stopped else os.waitstatus_to_exitcode(status), self.out.read_bytes(), self.err.read_bytes())
