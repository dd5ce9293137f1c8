"""What is shared with tools/picture: the readers of reports, of orders and of a scenario's settings."""

from __future__ import annotations

import sys
from pathlib import Path

sys.path.append(str(Path(__file__).resolve().parent.parent / "picture"))

from naming import Names, Unread, names_of, selectors  # noqa: E402
from order import read_order  # noqa: E402
from report import FORMS, Event, Fault, Kind, Report, read_report  # noqa: E402
from scenario import Moments, Settings, read_settings  # noqa: E402
from words import CREATE_SC, SM_CTRL, counted  # noqa: E402

# The number of the root, which is on processor 0.
ROOT = 1

__all__ = [
    *("CREATE_SC", "FORMS", "ROOT", "SM_CTRL", "Event", "Fault", "Kind", "Moments", "Names", "Report", "Settings", "Unread"),
    *("counted", "names_of", "read_order", "read_report", "read_settings", "selectors"),
]
