"""Orders by their outcomes."""

from __future__ import annotations

from collections.abc import Hashable
from dataclasses import dataclass
from typing import Generic, TypeVar

from turns import Blocks, plainness, text_of

Kept = TypeVar("Kept", bound=Hashable)


@dataclass(slots=True)
class Group(Generic[Kept]):
    """Orders of one outcome: how many there are, and the simplest."""

    outcome: Kept
    orders: int
    simplest: Blocks


class Tally(Generic[Kept]):
    """Counts orders, each once however often it comes."""

    def __init__(self) -> None:
        self._groups: dict[Kept, Group[Kept]] = {}
        self._known: set[str] = set()

    @property
    def orders(self) -> int:
        """How many orders there are."""
        return len(self._known)

    @property
    def outcomes(self) -> int:
        """How many outcomes there are."""
        return len(self._groups)

    def add(self, blocks: Blocks, outcome: Kept) -> None:
        """One more order. A report is a function of scenario and order, so one that is known has the same outcome again."""
        text = text_of(blocks)
        if text in self._known:
            return
        self._known.add(text)
        group = self._groups.setdefault(outcome, Group(outcome, 0, blocks))
        group.orders += 1
        group.simplest = min(group.simplest, blocks, key=plainness)

    def groups(self) -> list[Group[Kept]]:
        """The outcomes, the most frequent first, and of those that are as frequent the one with the simpler order first."""
        return sorted(self._groups.values(), key=lambda group: (-group.orders, plainness(group.simplest)))
