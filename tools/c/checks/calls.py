"""Whether the program that is to call each function of the header does so: what none calls is looked at by nothing."""

from __future__ import annotations

import re
from typing import TYPE_CHECKING

if TYPE_CHECKING:
    from outcome import Outcome
    from programs import Tools

# A function, or a macro that is called as such.
FUNCTION = re.compile(r"^(?:(?:NOVA_USED )?static inline [\w *]+?\b|#define )(nova_\w+)\(", re.MULTILINE)


def functions(text: str) -> list[str]:
    """The functions that a header defines."""
    return FUNCTION.findall(text)


def look(outcome: Outcome, tools: Tools) -> None:
    """Compares the functions of nova.h, and of what it includes, with those that calls.c calls."""
    if not outcome.wants("calls.c"):
        return
    program = (tools.c / "examples" / "calls.c").read_text()
    headers = sorted((tools.c / "include").glob("nova*.h"))
    missing = [name for header in headers for name in functions(header.read_text()) if f"{name}(" not in program]
    outcome.count("calls.c", f"it doesn't call {', '.join(missing)}" if missing else "")
