"""Commands that are begun, each with a process group of its own, so that all of them end when the builder does."""

from __future__ import annotations

import contextlib
import os
import signal
import subprocess
import threading
from pathlib import Path

# How long a command has to end by itself.
PATIENCE = 3.0
# The niceness of a command that others are to go before.
NICE = 10


class Ended(Exception):
    """No command is begun any more, since the builder was told to end."""


class Children:
    """The commands that are under way."""

    def __init__(self) -> None:
        self._lock = threading.Lock()
        self._running: set[subprocess.Popen[str]] = set()
        self._stopped = False

    def run(self, words: list[str], folder: Path, behind: bool = False) -> tuple[int, str]:
        """Runs a command in a folder, behind those that aren't. The answer is its status and what it wrote. Raises Ended where all is to end."""
        with self._lock:
            if self._stopped:
                raise Ended
            how = {"stdin": subprocess.DEVNULL, "stdout": subprocess.PIPE, "stderr": subprocess.STDOUT, "text": True}
            child = subprocess.Popen(words, cwd=folder, errors="replace", start_new_session=True, **how)
            self._running.add(child)
        if behind:
            self._put_behind(child)
        said, _ = child.communicate()
        with self._lock:
            self._running.discard(child)
        if self._stopped:
            raise Ended
        return child.returncode, said

    def stop(self) -> None:
        """Ends the commands that are under way, with all that they began. No further one begins."""
        with self._lock:
            self._stopped = True
            running = list(self._running)
        for child in running:
            self._tell(child, signal.SIGTERM)
        for child in running:
            try:
                child.wait(PATIENCE)
            except subprocess.TimeoutExpired:
                pass
            self._tell(child, signal.SIGKILL)

    @staticmethod
    def _put_behind(child: subprocess.Popen[str]) -> None:
        """Gives a command that was just begun, and what it begins, less of the processors. Linux weighs sessions, where it groups by them, and else processes."""
        with contextlib.suppress(OSError):
            os.setpriority(os.PRIO_PROCESS, child.pid, NICE)
            Path(f"/proc/{child.pid}/autogroup").write_text(str(NICE))

    @staticmethod
    def _tell(child: subprocess.Popen[str], number: signal.Signals) -> None:
        try:
            os.killpg(child.pid, number)
        except (ProcessLookupError, PermissionError):
            pass
