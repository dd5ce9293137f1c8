"""Sends work to an executor of `concurrent.futures`, whose workers may be on other machines."""

from __future__ import annotations

import hashlib
import importlib
import signal
import tempfile
import zipfile
from collections.abc import Iterable, Iterator
from concurrent.futures import Executor, Future, ProcessPoolExecutor
from functools import partial
from pathlib import Path
from typing import Any, Generic, TypeVar

from longest import Scout
from pool import Pool, pieces_of
from program import Program, Trouble
from remote import Job, Piece, draw, harvest
from sample import Stops
from search import Family, Harvest, Tried

Verdict = TypeVar("Verdict")
Found = TypeVar("Found")

HERE = Path(__file__).resolve().parent
# What the tool consists of on a worker, beside the program: the files of this folder that `remote` needs, and what tools/picture shares.
OWN = "longest", "pool", "program", "remote", "sample", "search", "shared", "staying", "turns", "outcome"
SHARED = "naming", "order", "report", "scenario", "words"
ARRIVAL = "arrival.py"
DASK = "dask:"
# How many random orders a piece of work has at most.
DRAWS = 100
# How long a scheduler is waited for, and the tool by a process that is to end, in seconds.
PATIENCE = 10


def heed_the_tool() -> None:
    """What a process begins with. It hears nothing of an interrupt from the keyboard. A request to end, which mostly goes to the tool as well, it follows
    only after a while, in which the tool ends it otherwise."""
    signal.signal(signal.SIGINT, signal.SIG_IGN)
    signal.signal(signal.SIGTERM, lambda *_: signal.alarm(PATIENCE))


def processes(number: int) -> Executor:
    """Processes of this machine."""
    return ProcessPoolExecutor(number, initializer=heed_the_tool)


class Dask(Executor):
    """The workers of a scheduler of dask. They are sent the tool and the program."""

    def __init__(self, address: str, program: Path) -> None:
        try:
            distributed = importlib.import_module("distributed")
        except ImportError as error:
            raise Trouble("--executor dask: python3-distributed is not installed") from error
        try:
            self._client = distributed.Client(address, timeout=PATIENCE, set_as_default=False)
        except (OSError, ValueError) as error:
            raise Trouble(f"--executor dask: no scheduler answers at {address}") from error
        self.workers = sum(self._client.ncores().values())
        if not self.workers:
            self._client.close()
            raise Trouble(f"--executor dask: the scheduler at {address} has no workers")
        with tempfile.TemporaryDirectory() as folder:
            parcel = pack(program, Path(folder))
            upload = distributed.diagnostics.plugin.UploadFile(str(parcel))
            self._client.register_worker_plugin(upload, name=parcel.stem)
        self.program = parcel.stem
        self._executor = self._client.get_executor(pure=False)

    def submit(self, work: Any, /, *words: Any, **named: Any) -> Future[Any]:
        """Has a worker do a piece of work."""
        return self._executor.submit(work, *words, **named)

    def shutdown(self, wait: bool = True, *, cancel_futures: bool = False) -> None:
        """Takes back what hasn't begun, and lets the scheduler go."""
        self._executor.shutdown(wait=False)
        self._client.close()


def pack(program: Path, folder: Path) -> Path:
    """Packs the tool and the program in a folder. The name says what is in it."""
    files = {name: HERE / f"{name}.py" for name in OWN} | {name: HERE.parent / "picture" / f"{name}.py" for name in SHARED}
    texts = {f"{name}.py": file.read_bytes() for name, file in files.items()}
    texts |= {"__init__.py": (HERE / ARRIVAL).read_bytes(), "program": program.read_bytes()}
    name = "nova_orders_" + hashlib.sha256(b"".join(texts.values())).hexdigest()[:16]
    parcel = folder / f"{name}.zip"
    with zipfile.ZipFile(parcel, "w", zipfile.ZIP_DEFLATED) as packed:
        for file, text in texts.items():
            packed.writestr(f"{name}/{file}", text)
    return parcel


class Sending(Generic[Verdict]):
    """Work that is sent, and what comes back of it, in the order in which threads of this process would have found it."""

    def __init__(self, pool: Pool, job: Job[Verdict], scout: Scout, program: Program) -> None:
        self._pool = pool
        self._job = job
        self._scout = scout
        self._program = program

    def draws(self, numbers: range, stops: Stops) -> Iterator[Tried[Verdict]]:
        """Orders at random, by their numbers."""
        pieces = pieces_of(numbers, self._pool.workers, DRAWS)
        return self._found(self._pool.map(partial(draw, self._job, self._scout.stops(), stops), pieces))

    def harvests(self, families: Iterable[Family]) -> Iterator[Harvest[Verdict]]:
        """What comes of families of a search for all orders."""
        return self._found(self._pool.map(partial(harvest, self._job, self._scout.stops()), families))

    def _found(self, pieces: Iterator[Piece[Found]]) -> Iterator[Found]:
        for piece in pieces:
            self._scout.learn(piece.stops)
            self._program.starts += piece.runs
            yield from piece.found
