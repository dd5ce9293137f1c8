"""What others wrote: the scripts of examples/ that fetch it, build it, run it and compare it with the host."""

from __future__ import annotations

import os
import subprocess
from typing import TYPE_CHECKING

if TYPE_CHECKING:
    from outcome import Outcome
    from programs import Tools

SCRIPTS = ["lua", "bzip2"]


def look(outcome: Outcome, tools: Tools) -> None:
    """Calls each script. What it can't have, it says."""
    for name in SCRIPTS:
        if not outcome.wants(f"{name}.sh"):
            continue
        words = [str(tools.c / "examples" / f"{name}.sh"), str(tools.scratch / "sources")]
        done = subprocess.run(words, capture_output=True, text=True, check=False, env={**os.environ, "NOVA": str(tools.nova)}, timeout=600)
        skipped = [line for line in done.stdout.splitlines() if "skipped" in line]
        if skipped:
            outcome.skip(skipped[0].replace(": skipped, since", ":", 1))
        else:
            outcome.count(f"{name}.sh", (done.stderr.strip() or f"status {done.returncode}") if done.returncode else "")
