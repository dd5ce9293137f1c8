"""Runs on a worker when the tool comes there, as a package in an archive: its files are found from then on, and the program lies beside the
archive. What an older one brought is forgotten."""

import importlib
import os
import pkgutil
import sys
from pathlib import Path

PREFIX = "nova_orders_"
FOLDER = os.path.dirname(__file__)


def is_older(module: object) -> bool:
    """Whether a module is of a tool that came before."""
    file = getattr(module, "__file__", None) or ""
    return f"{os.sep}{PREFIX}" in file and os.path.dirname(file) != FOLDER and not file.endswith("__init__.py")


def unpack() -> None:
    """Makes the tool and the program ready."""
    for name in [name for name, module in list(sys.modules.items()) if is_older(module)]:
        del sys.modules[name]
    sys.path[:] = [FOLDER, *(place for place in sys.path if f"{os.sep}{PREFIX}" not in place or place.endswith(".zip"))]
    program = Path(FOLDER).parent.with_suffix(".program")
    if not program.exists():
        fresh = program.with_suffix(f".{os.getpid()}")
        fresh.write_bytes(pkgutil.get_data(__name__, "program") or b"")
        fresh.chmod(0o700)
        fresh.replace(program)
    importlib.import_module("remote").UNPACKED[__name__] = program


unpack()
