"""Does several pieces of work at a time, and hands out what came of them in their order."""

from __future__ import annotations

from collections import deque
from collections.abc import Callable, Iterable, Iterator
from concurrent.futures import BrokenExecutor, Executor, Future, ThreadPoolExecutor
from typing import Any, TypeVar

from program import Trouble

Item = TypeVar("Item")
Found = TypeVar("Found")

# How many pieces of work wait for each worker.
AHEAD = 4


def pieces_of(numbers: range, workers: int, most: int) -> Iterator[range]:
    """Numbers in pieces of at most so many, and of fewer where some workers would have none."""
    size = max(1, min(most, len(numbers) // (workers * AHEAD)))
    return (numbers[at : at + size] for at in range(0, len(numbers), size))


class Pool:
    """Workers that do pieces of work: threads, or those of another executor, to which work is sent. Where each order is a start of the program, a
    thread does little but wait for that, so threads are enough for several processors of one machine."""

    def __init__(self, workers: int, executor: Executor | None = None) -> None:
        self.workers = workers
        self._executor = executor or ThreadPoolExecutor(workers)
        self._waiting: deque[Future[Any]] = deque()

    def map(self, work: Callable[[Item], Found], items: Iterable[Item]) -> Iterator[Found]:
        """What comes of the work for each item, in the order of the items. Items are taken as they are needed. Raises Trouble where a worker was
        ended."""
        waiting = self._waiting = deque()
        try:
            for item in items:
                waiting.append(self._executor.submit(work, item))
                if len(waiting) >= self.workers * AHEAD:
                    yield waiting.popleft().result()
            while waiting:
                yield waiting.popleft().result()
        except BrokenExecutor as error:
            raise Trouble("a process that runs orders was ended") from error

    def close(self) -> None:
        """Waits for the work that has begun; no other begins."""
        for future in self._waiting:
            future.cancel()
        self._executor.shutdown(wait=True)
