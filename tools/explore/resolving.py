"""What the words of a question name: variables and execution contexts, by executables and a file of names."""

from __future__ import annotations

from collections.abc import Callable, Iterator, Sequence
from dataclasses import dataclass
from pathlib import Path

from images import check
from program import FAILED, PAGE, WORD, Fault, Names, Refused, Report, frame_of, mark_of, names_of, read_report, selectors, variables
from questions import FORMS, OWN, Question, number_of, states_in
from telling import table

# Behind the greatest number of a question; and what the options may be.
WORD_END = 2**32
LIMITS = {"turns": 10_000_000, "states": 100_000_000}


def parts_of(report: str) -> Report:
    """The parts of a report. Raises Refused where a program wrote another text."""
    try:
        return read_report(report)
    except Fault as why:
        raise Refused(f"what nova writes is no report: {why}") from why


@dataclass(frozen=True, slots=True)
class Naming:
    """Where names come from: a file of them, and executables of the scenario."""

    scenario: Path
    file: Path | None
    executables: Sequence[Path]

    def names(self, report: str) -> Names:
        """The names of objects, by what domains hold in a report."""
        if not (self.file or self.executables):
            return Names()
        return names_of(self.file, self.executables, selectors(parts_of(report).ranges))

    def context(self, word: str, report: str) -> str:
        """The number of an execution context, which a word is or names. Raises Refused where none has the name."""
        if word[:1].isdigit():
            return word
        named = [number for number, name in self.names(report).by_number.items() if name == word and number in states_in(report)]
        if len(named) != 1:
            raise Refused(f"{word} is no number, and names no execution context that is there after a run by rounds")
        return str(named[0])

    def executable(self, what: str) -> Path:
        """The one executable, for what wants it. Raises Refused, or NoSymbol where it isn't that of the scenario."""
        if len(self.executables) != 1:
            raise Refused(f"{what} wants one executable: --elf FILE, as `tools/c/build.sh --debug` keeps it")
        check(self.executables[0], self.scenario)
        return self.executables[0]

    def place(self, word: str) -> tuple[str, str]:
        """The frame and the offset of a variable. Raises Refused or NoSymbol."""
        frame, offset = frame_of(word, self.executable("a variable"))
        return str(frame), str(offset)

    def bytes(self, word: str) -> list[str]:
        """The frame of a variable, and its first and last byte there. Raises Refused or NoSymbol."""
        executable = self.executable("a variable")
        symbol = variables(executable).get(word)
        if symbol is None:
            raise Refused(f"{word} is no variable of {executable}")
        frame, first = divmod(symbol.address, PAGE)
        last = first + max(symbol.size, 1) - 1
        if last >= PAGE:
            raise Refused(f"{word} lies in more than one frame")
        return [str(frame), str(first), str(last)]


def number(text: str, least: int, most: int, what: str) -> str:
    """A number as the program takes it. Raises Refused where it is none, or out of its range."""
    try:
        value = number_of(text)
    except ValueError:
        raise Refused(f"{what}: {text!r} is no number") from None
    if not least <= value <= most:
        raise Refused(f"{what}: {value:,} is not from {least:,} to {most:,}")
    return text


def value_of(text: str) -> str:
    """The value of a word, below 2^32 where it is given as a negative number."""
    return str(-number_of(number(text[1:], 0, WORD_END // 2, "VALUE")) % WORD_END) if text.startswith("-") else text


def question_of(words: Sequence[str], naming: Naming, rounds: Callable[[], str]) -> Question:
    """The question of words, with numbers in place of names. Raises Refused or NoSymbol."""
    name, *given = words
    forms = FORMS | OWN
    if name not in forms:
        raise Refused(f"{name!r} is no question: one of {', '.join(forms)} is wanted")
    if name == "word" and len(given) == 2:
        given = [*naming.place(given[0]), given[1]]
    if name == "stores" and len(given) == 1:
        given = naming.bytes(given[0])
    if len(given) not in forms[name]:
        wanted = " or ".join(map(str, forms[name]))
        raise Refused(f"{name} wants {wanted} words behind it, and has {len(given)}")
    if name == "asserts":
        return Question(("word", *map(str, mark_of(naming.executable("asserts"))), str(FAILED)))
    if name == "dies" and len(given) == 2 and given[0] != "but":
        raise Refused(f"dies wants one execution context, or `but` and one, and has {' '.join(given)}")
    if (name in ("dies", "stuck") and given) or (name == "hangs" and len(given) == 2):
        given = [*given[:-1], naming.context(given[-1], rounds())]
    if name == "hangs":
        number(given[0], 1, LIMITS["turns"], "TURNS")
    if name == "stores":
        ranges = ("FRAME", WORD_END - 1), ("FIRST", PAGE - 1), ("LAST", PAGE - 1)
        given = [number(text, 0, most, what) for text, (what, most) in zip(given, ranges, strict=True)]
        if number_of(given[1]) > number_of(given[2]):
            raise Refused("FIRST stands behind LAST")
    if name == "at":
        given = [number(text, 0, WORD_END - 1, what) for text, what in zip(given, ("PD", "ADDRESS") * 2, strict=False)]
    if name == "word":
        most = (WORD_END - 1, PAGE - WORD, WORD_END - 1)
        given = [number(value_of(text), 0, *rest) for text, *rest in zip(given, most, ("FRAME", "OFFSET", "VALUE"), strict=True)]
    elif name in ("text", "console"):
        number(given[0], 0, WORD_END - 1, f"the console of {name}")
    return Question((name, *given))


def listed(naming: Naming, report: str) -> Iterator[str]:
    """What questions may name: the variables of each executable, and the execution contexts of a run by rounds."""
    for executable in naming.executables:
        check(executable, naming.scenario)
        rows = [["variable", "bytes", "frame", "offset"]]
        for name, symbol in sorted(variables(executable).items(), key=lambda pair: pair[1].address):
            frame, offset = divmod(symbol.address, PAGE)
            rows.append([name, str(symbol.size), str(frame), f"{offset:#x}"])
        yield f"{executable}: word VARIABLE VALUE, or VARIABLE+BYTES; stores VARIABLE"
        yield from table(rows)
    contexts, names = parts_of(report).contexts, naming.names(report).by_number
    yield "execution contexts, after a run by rounds: dies EC, stuck EC, hangs TURNS EC"
    yield from table([["EC", "is", "name"], *([str(one.number), one.state, names.get(one.number, "-")] for one in contexts)])
