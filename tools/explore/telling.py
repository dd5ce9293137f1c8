"""What is told of an answer: sentences, and a table of outcomes."""

from __future__ import annotations

from collections.abc import Callable, Iterator, Sequence
from dataclasses import dataclass
from pathlib import Path

from answers import Answer, Outcome
from program import Names, as_text

KINDS = {"ec": "EC", "sm": "SM"}
# How many turns before the end of an order its trace begins.
LAST = 60


def turns_in(order: str) -> int:
    """How many turns an order has."""
    return sum(int(line.split()[1]) for line in order.splitlines())


def counted(count: int, one: str, many: str) -> str:
    """A count with its noun."""
    return f"{count:,} {one if count == 1 else many}"


def size_of(order: str) -> str:
    """How large an order is."""
    return f"{counted(turns_in(order), 'turn', 'turns')} in {counted(len(order.splitlines()), 'line', 'lines')}"


def head_of(line: str, names: Names) -> tuple[str, str]:
    """A line of an outcome as what it speaks of, and what it says of that."""
    word, number, *rest = line.split(" ")
    if word == "console":
        return f"console {number}", as_text("" if rest[0] == "-" else rest[0])
    if word == "ec":
        said = " ".join([rest[0], *(names.of(int(waited), "SM" if rest[0] == "blocked" else "EC") for waited in rest[1:])])
    else:
        said = rest[0] + ("" if rest[1] == "0" else f", {rest[1]} waiting")
    return names.of(int(number), KINDS[word]), said


def table(rows: Sequence[Sequence[str]]) -> Iterator[str]:
    """Rows as text, with columns of one width."""
    widths = [max(map(len, column)) for column in zip(*rows, strict=True)]
    for row in rows:
        yield "  " + "  ".join(cell.ljust(width) for cell, width in zip(row, widths, strict=True)).rstrip()


def outcome_table(outcomes: Sequence[Outcome], files: Sequence[Path], names: Names) -> Iterator[str]:
    """A row for each outcome, with what differs among them; then what is the same in all."""
    told = [dict(head_of(line, names) for line in outcome.lines) for outcome in outcomes]
    heads = list(dict.fromkeys(head for one in told for head in one))
    differing = [head for head in heads if len({one.get(head) for one in told}) > 1]
    rows = [["outcome", *differing, "turns", "order"]]
    for number, (outcome, one, file) in enumerate(zip(outcomes, told, files, strict=True), 1):
        rows.append([str(number), *(one.get(head, "-") for head in differing), f"{turns_in(outcome.order):,}", str(file)])
    yield from table(rows)
    same = [f"{head} {told[0][head]}" for head in heads if head not in differing] if told else []
    if same:
        yield f"  in {'each' if len(told) > 1 else 'it'}: {', '.join(same)}"


def never_text(answer: Answer, clause: str) -> str:
    """That no order leads to what a clause says, as far as is known."""
    kind, _, limit = answer.extent.partition(" ")
    if kind == "all":
        return f"{clause} in no order, however long"
    if kind == "within":
        return f"{clause} in no order of at most {counted(int(limit), 'turn', 'turns')}; nothing is known of longer ones"
    return f"nothing is known of whether {clause}: there are more states than --states allows"


def ended_text(answer: Answer, count: int) -> str:
    """How many outcomes there are, and of which orders, in words."""
    kind, _, limit = answer.extent.partition(" ")
    outcomes = counted(count, "outcome", "outcomes")
    if kind == "cut":
        return f"{outcomes}, and perhaps more: there are more states than --states allows"
    if count == 0:
        return never_text(answer, "the run ends")
    if kind == "all":
        return f"{outcomes}; each order that ends a run, however long, ends it {'so' if count == 1 else 'in one of them'}"
    return f"{outcomes} of orders of at most {counted(int(limit), 'turn', 'turns')}; nothing is known of longer ones"


@dataclass(frozen=True, slots=True)
class Telling:
    """What is told of an answer: by the scenario, the clause of the question, the files of the orders, the executables that were given, and how commands name
    `nova` and the folder of the tools."""

    answer: Answer
    scenario: Path
    clause: str
    files: Sequence[Path]
    executables: Sequence[Path] = ()
    nova: str = "./nova"
    tools: str = "tools"

    def lines(self, named: Callable[[], Names], beside: Sequence[str] = ()) -> Iterator[str]:
        """The lines: a sentence, with what is to be said beside it, and commands that go on, or the table of outcomes."""
        answer = self.answer
        if answer.is_alone:
            yield f"{self.scenario} has one processor, and so one order of turns"
        if answer.order is not None:
            said = f"{self.clause} after {size_of(answer.order)}: {self.files[0]}"
        elif answer.outcomes is None:
            said = never_text(answer, self.clause)
        else:
            said = ended_text(answer, len(answer.outcomes))
        yield f"{self.scenario}: {said} ({counted(answer.states, 'state', 'states')})"
        yield from (f"  {line}" for line in beside)
        if answer.order is not None:
            yield from self.commands(answer.order)
        elif answer.outcomes:
            yield from outcome_table(answer.outcomes, self.files, named())

    def commands(self, order: str) -> Iterator[str]:
        """What tells more of an order: the report in sentences, and where there is an executable, its last turns by lines of the source."""
        words = "".join(f" --elf {file}" for file in self.executables)
        yield f"  {self.nova} solo {self.scenario} {self.files[0]} | python3 {self.tools}/explain /dev/stdin{words}"
        if self.executables:
            yield f"  python3 {self.tools}/debug trace {self.scenario} {self.files[0]}{words} --from {max(1, turns_in(order) - LAST)}"
