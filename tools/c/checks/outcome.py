"""What passed, failed and was skipped."""

from __future__ import annotations


class Outcome:
    """Counts, with a line for each that failed or was skipped."""

    def __init__(self, only: str) -> None:
        """Counts begin with 0; what hasn't the word in its name isn't looked at."""
        self.only = only
        self.passed = 0
        self.failed = 0

    def wants(self, name: str) -> bool:
        """Whether this is to be looked at."""
        return self.only in name

    def count(self, name: str, wrong: str) -> None:
        """Counts one, which is right where nothing is said to be wrong."""
        if wrong:
            self.failed += 1
            print(f"wrong: {name}: {wrong}", flush=True)
        else:
            self.passed += 1

    def skip(self, what: str) -> None:
        """Says what isn't looked at, and why."""
        print(f"skipped: {what}", flush=True)

    def tell(self) -> int:
        """Writes the counts. The status is 1 where something failed."""
        print(f"c: {self.passed} passed, {self.failed} failed")
        return 1 if self.failed else 0
