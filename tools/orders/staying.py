"""Programs that stay, each asked for one order after another: without a start and a file for each."""

from __future__ import annotations

import subprocess
import threading
from contextlib import suppress
from pathlib import Path
from queue import LifoQueue

from turns import Blocks


class Staying:
    """Several of them, of one scenario. One is started when all others are asked something."""

    def __init__(self, path: Path, scenario: Path, at_a_time: int) -> None:
        # The run that they make for themselves isn't wanted: it is as short as may be.
        self._command = [str(path), str(scenario), "1"]
        self._free: LifoQueue[subprocess.Popen[bytes] | None] = LifoQueue()
        for _ in range(at_a_time):
            self._free.put(None)
        self._lock = threading.Lock()
        self._children: list[subprocess.Popen[bytes]] = []
        self._stopped = False

    def ask(self, blocks: Blocks) -> tuple[str, str] | None:
        """The report of a run over an order, and what was said last: `ok`, or `idle` with the block. None where all is to end."""
        child = self._free.get()
        try:
            child = child or self._start()
            if child is None or child.stdin is None or child.stdout is None:
                return None
            child.stdin.write(("order " + " ".join(f"{cpu} {count}" for cpu, count in blocks) + "\n").encode())
            child.stdin.flush()
            lines = []
            while line := child.stdout.readline():
                if line.startswith((b"ok", b"idle", b"no", b"memory")):
                    return b"".join(lines).decode(), line.decode().strip()
                lines.append(line)
            return None
        except (OSError, ValueError):
            # It was ended meanwhile.
            return None
        finally:
            self._free.put(child)

    def _start(self) -> subprocess.Popen[bytes] | None:
        """Starts one, which hears nothing of an interrupt from the keyboard."""
        with self._lock:
            if self._stopped:
                return None
            pipe = subprocess.PIPE
            # Where all is ended at once it finds nobody who reads, of which nobody wants to hear.
            child = subprocess.Popen(self._command, stdin=pipe, stdout=pipe, stderr=subprocess.DEVNULL, process_group=0)
            self._children.append(child)
            return child

    def stop(self) -> None:
        """Ends them."""
        with self._lock:
            self._stopped = True
            for child in self._children:
                child.kill()
                child.wait()
                for pipe in (child.stdin, child.stdout):
                    # What was to be asked is not heard any more.
                    with suppress(OSError):
                        if pipe is not None:
                            pipe.close()
            self._children.clear()
