"""Where the tool and the examples are. The tool's modules are made known."""

from __future__ import annotations

import sys
from pathlib import Path

TOOL = Path(__file__).resolve().parents[1]
EXAMPLES = TOOL.parents[1] / "examples"
sys.path.insert(0, str(TOOL))

from program import Refused, Replayer, asked, ended, find, there  # noqa: E402

__all__ = ["EXAMPLES", "TOOL", "Refused", "Replayer", "asked", "ended", "find", "there"]
