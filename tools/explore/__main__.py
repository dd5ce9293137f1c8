"""Asks `nova_explore` about all orders of turns of a scenario, with names of a program in C, and tells its answer in sentences.

python3 tools/explore SCENARIO [--turns N] [--states N] [--elf FILE].. [--names FILE] [--output FOLDER] QUESTION [WORD ..]
python3 tools/explore SCENARIO [--elf FILE].. [--names FILE] --words

QUESTION is one of the program's: ends, blocked, dies [[but] EC], stuck EC, hangs TURNS [EC], at PD ADDRESS [PD ADDRESS], text N TEXT, console N HEX, word FRAME OFFSET VALUE,
stores FRAME FIRST LAST; or `word VARIABLE VALUE`, with a variable of the executable that `--elf` names, or VARIABLE+BYTES; or `stores VARIABLE`; or `asserts`: whether a `nova_assert` of that executable fails.
EC may be a name too, of `--elf` or `--names`. `--words`, in place of a question, lists what has names.

Orders that are told are written to a folder, NAME.orders for NAME.nova, after `nova solo` has replayed them. The status is the program's: 0 for
all, 1 where an order is found, 7 for cut, 9 for within; or 3 where there is no answer.
"""

from __future__ import annotations

import os
import sys
import tempfile
from argparse import Namespace
from collections.abc import Callable, Iterator, Sequence
from functools import cache
from pathlib import Path

from answers import Answer
from answers import Unread as NoAnswer
from program import DRAFTS, TOP, Missing, NoSymbol, Parser, Refused, Replayer, Unread, add_words, asked, ended, failures, find, program_file, there, unread
from questions import Question, number_of, states_in
from resolving import LIMITS, Naming, listed, number, question_of
from telling import Telling
from wording import clause_of

NO_ANSWER = 3


def parser() -> Parser:
    """The words of the tool."""
    words = Parser(prog="explore", description="Asks about all orders of turns of a scenario.")
    words.add_argument("scenario", type=Path, metavar="SCENARIO")
    words.add_argument("question", nargs="*", metavar="QUESTION", help="ends, blocked, dies, stuck, hangs, at, text, console, word, stores, asserts, and what belongs to it")
    words.add_argument("--words", action="store_true", help="list what questions may name, and ask nothing")
    words.add_argument("--turns", metavar="N", help="the most turns of an order (1000000)")
    words.add_argument("--states", metavar="N", help="the most states that are expanded (20000)")
    words.add_argument("--elf", type=Path, action="append", default=[], metavar="FILE", help="an executable whose variables and selectors have names")
    add_words(words)
    words.add_argument("--output", type=Path, metavar="FOLDER", help="where orders are written to (NAME.orders)")
    words.add_argument("--program", type=program_file, metavar="FILE", help="another program in place of the repository's nova_explore")
    words.add_argument("--nova", type=program_file, metavar="FILE", help="another program in place of the repository's nova")
    return words


def written(answer: Answer, folder: Path) -> list[Path]:
    """The files that the orders of an answer were written to, in place of those of an earlier answer. One without orders leaves these."""
    if not answer.orders:
        return []
    named = ["found"] if answer.order is not None else [str(number) for number in range(1, len(answer.orders) + 1)]
    folder.mkdir(parents=True, exist_ok=True)
    for old in folder.glob("*.order"):
        if old.stem == "found" or old.stem.isdigit():
            old.unlink()
    files = [folder / f"{name}.order" for name in named]
    for file, order in zip(files, answer.orders, strict=True):
        file.write_text(order)
    return files


def remarks(question: Question, answer: Answer, rounds: Callable[[], str]) -> Iterator[str]:
    """What is to be said of an answer that is no order: that an execution context isn't there at all, and what to do where it isn't of all orders."""
    word, *given = question.words
    if answer.absent is not None:
        yield f"EC {answer.absent} is never there"
    elif answer.extent == "cut" and ((word in ("dies", "stuck") and given) or (word == "hangs" and len(given) == 2)) and number_of(given[-1]) not in states_in(rounds()):
        yield f"EC {given[-1]} isn't there after a run by rounds"
    if answer.extent == "cut":
        yield "--states N allows more, of some 60 bytes each, and 60 KB while they wait to be expanded; with loops that try less often there are fewer"
    elif answer.extent.startswith("within"):
        yield "--turns N allows more; where a loop spins, or a source or a deadline is left, no N comes to all"


def programs(given: Namespace) -> tuple[Path, Path]:
    """The explorer, and what replays orders. Raises Missing, with a line for each that isn't there."""
    found, missing = [], []
    for name, path in (("nova_explore", given.program), ("nova", given.nova)):
        try:
            found.append(path or find(name))
        except Missing as why:
            missing.append(str(why))
    if missing:
        raise Missing("\nexplore: ".join(missing))
    return found[0], found[1]


def words_of(nova: Path) -> tuple[str, str]:
    """How a command begins that runs `nova`, which may be a draft, and the folder of the tools, both as seen from the folder of the caller."""
    top = Path() if Path("tools").resolve() == TOP / "tools" else Path(os.path.relpath(TOP))
    script = "./nova" if top == Path() else str(top / "nova")
    return script + " draft" * nova.is_relative_to(DRAFTS), str(top / "tools")


def failed(naming: Naming, report: str) -> Iterator[str]:
    """The assertions that failed, by the report of an order that is found."""
    for executable in naming.executables:
        for context, text in failures(report, executable):
            yield f"{naming.names(report).of(context)}: {text}"


def explore(given: Namespace) -> int:
    """Asks, replays, writes and tells."""
    scenario, naming = given.scenario, Naming(given.scenario, given.names, given.elf)
    limits = {f"--{name}": (value, most) for name, most in LIMITS.items() if (value := getattr(given, name)) is not None}
    options = [word for name, (value, most) in limits.items() for word in (name, number(value, 1, most, name))]
    explorer, nova = programs(given)
    with tempfile.TemporaryDirectory() as folder:
        replayer = Replayer(nova, None if given.nova else there("nova_debug"), Path(folder))
        rounds = cache(lambda: replayer.rounds(scenario))
        if given.words:
            print("\n".join(listed(naming, rounds())))
            return 0
        question = question_of(given.question, naming, rounds)
        _, answer = asked(explorer, scenario, [*options, *question.words])
        if faults := replayer.faults(scenario, question, answer):
            raise Refused(f"what is told is not what comes of it: {faults[0]}")
        files = written(answer, given.output or Path(f"{scenario.stem}.orders"))
        report = cache(lambda: replayer.report(scenario, answer.orders[0]))
        telling = Telling(answer, scenario, clause_of(given.question), files, given.elf, *words_of(nova))
        beside = remarks(question, answer, rounds) if answer.order is None else failed(naming, report())
        for line in telling.lines(lambda: naming.names(report()), list(beside)):
            print(line)
    return answer.status


def main(words: Sequence[str]) -> int:
    """Does what the words say. The status is 3, with a line on standard error, where there is no answer."""
    if list(words[:1]) in (["--help"], ["-h"]):
        print(__doc__.strip())
        return 0
    given = parser().parse_intermixed_args(words)
    if given.words == bool(given.question):
        parser().error("a question is wanted, or --words, and not both")
    try:
        if why := unread(str(given.scenario)):
            raise Refused(why)
        return explore(given)
    except (Refused, NoSymbol, NoAnswer, Unread, Missing, ValueError) as why:
        print(f"explore: {why}", file=sys.stderr)
    except BrokenPipeError:  # nobody reads on
        raise
    except OSError as why:
        print(f"explore: {why.filename or 'a file'}: {why.strerror}", file=sys.stderr)
    return NO_ANSWER


if __name__ == "__main__":
    sys.exit(ended("explore", lambda: main(sys.argv[1:])))
