"""Says in sentences what a report says in numbers.

python3 tools/explain REPORT [--elf [PD=]FILE].. [--names FILE] [--scenario FILE [--order FILE]] [--program FILE]

Who died of what and where, who waits for what and who could wake it, what never ran, and what consoles show. With --elf functions and source
lines are told, and names of objects by the program's constants; with --names other names. With --scenario, and --order if the run had one,
nova_debug tells in which domain each execution context is, so that it is known who could wake whom, and where each began.
"""

from __future__ import annotations

import argparse
import sys
from collections.abc import Iterable
from pathlib import Path

sys.path.append(str(Path(__file__).resolve().parents[1] / "picture"))

from account import Run, account  # noqa: E402
from exact import Exact, Refused, ended, there  # noqa: E402
from failures import failures  # noqa: E402
from naming import Names, Unread, add_words, check_executable, constants, named_in, selectors  # noqa: E402
from parsing import Parser, program_file  # noqa: E402
from places import Place, places_of  # noqa: E402
from report import Context, Fault, Report, read_report  # noqa: E402
from scenario import read_settings  # noqa: E402
from variables import NoSymbol  # noqa: E402


class Trouble(Exception):
    """What was asked for cannot be done; the text says why."""


def parser() -> argparse.ArgumentParser:
    """The words that the program takes."""
    words = Parser(prog="explain", description="Says in sentences what a report says in numbers.")
    words.add_argument("report", type=Path, metavar="REPORT", help="the report of a run; - for standard input")
    elf = "the executable of the programs, for functions, lines and names; with PD= that of one domain"
    words.add_argument("--elf", action="append", default=[], metavar="[PD=]FILE", help=elf)
    add_words(words)
    words.add_argument("--scenario", type=Path, metavar="FILE", help="the scenario of the run, by which nova_debug is asked who is in which domain")
    words.add_argument("--order", type=Path, metavar="FILE", help="the order of the run")
    words.add_argument("--program", type=program_file, metavar="FILE", help="another program than nova_debug of the repository")
    return words


def text_of(path: Path) -> str:
    """The text of a file, or of standard input."""
    if str(path) == "-":
        return sys.stdin.read()
    try:
        return path.read_bytes().decode("ascii", "surrogateescape")
    except OSError as error:
        raise Trouble(f"{path}: {error.strerror}") from error


def executables(words: Iterable[str]) -> dict[int | None, Path]:
    """The executables by the domain that runs each; that of no domain is for all others."""
    found: dict[int | None, Path] = {}
    for word in words:
        domain, is_named, file = word.partition("=")
        key, path = (int(domain), Path(file)) if is_named and domain.isdigit() else (None, Path(word))
        check_executable(path)
        found[key] = path
    return found


def asked_of(words: argparse.Namespace, report: Report) -> Exact | None:
    """The program that makes the run again, if one is there."""
    if words.scenario is None:
        return None
    program = words.program or there("nova_debug")
    if program is None:
        print("explain: nova_debug isn't built: in which domain each execution context is isn't told", file=sys.stderr)
        return None
    try:
        return Exact(program, words.scenario, words.order, report)
    except Refused as why:
        raise Trouble(str(why)) from why


class Places:
    """Where addresses lie, by the executable of the domain."""

    def __init__(self, programs: dict[int | None, Path], domains: dict[int, int]) -> None:
        self._programs = programs
        self._domains = domains
        self._known: dict[tuple[Path, int], Place | None] = {}

    def program_of(self, context: int) -> Path | None:
        """The executable that an execution context runs."""
        return self._programs.get(self._domains.get(context), self._programs.get(None))

    def find(self, context: int, address: int) -> Place | None:
        """Where an address of an execution context lies."""
        program = self.program_of(context)
        if program is None:
            return None
        if (program, address) not in self._known:
            self._known[program, address] = places_of(program, [address]).get(address)
        return self._known[program, address]

    def where(self, context: Context, address: int) -> str:
        """The same as a part of a sentence. A virtual CPU has memory of its own, so that an executable must be named for its domain."""
        if context.sort == "vcpu" and self._domains.get(context.number) not in self._programs:
            return ""
        return str(self.find(context.number, address) or "")


def failed_in(text: str, places: Places, programs: Iterable[Path]) -> dict[int, str]:
    """The text of each assertion in C that failed, by the execution context whose program has it. None of a file that is cut short."""
    found: dict[int, str] = {}
    for program in programs:
        try:
            found |= {number: said for number, said in failures(text, program) if places.program_of(number) == program}
        except NoSymbol:
            continue
    return found


def names_of(words: argparse.Namespace, report: Report, places: Places, exact: Exact | None, programs: dict[int | None, Path]) -> Names:
    """Names: of the file, else of the constants of the executables, else of the functions in which execution contexts begin."""
    held = selectors(report.ranges)
    found: dict[int, str] = {}
    for domain, program in programs.items():
        all_domains = {domain for domain, _ in held}
        found |= constants(program, held, all_domains - set(programs) if domain is None else {domain})
    if exact is not None:
        for context in report.contexts:
            began = exact.began(context.number)
            place = places.find(context.number, began) if began is not None else None
            if place is not None:
                found.setdefault(context.number, place.function)
    if words.names is not None:
        found |= named_in(words.names, held)
    return Names(found)


def explain(words: argparse.Namespace) -> None:
    """Writes the account."""
    text = text_of(words.report)
    try:
        report = read_report(text)
        settings = read_settings(text_of(words.scenario)) if words.scenario else None
    except Fault as fault:
        raise Trouble(f"{words.report}: {fault}") from fault
    programs = executables(words.elf)
    exact = asked_of(words, report)
    domains = exact.domains() if exact else {}
    places = Places(programs, domains)
    names = names_of(words, report, places, exact, programs)
    left = [source.count for source in settings.sources] if settings else []
    failed = failed_in(text, places, programs.values())
    print("\n".join(account(Run(report, names, places.where, domains, left, failed), text)), end="")
    if exact:
        exact.close()


def main(arguments: list[str]) -> int:
    """Explains one report. The status is 1 where a file can't be read, or is not of its form."""
    try:
        explain(parser().parse_args(arguments))
    except (Trouble, Unread) as why:
        print(f"explain: {why}", file=sys.stderr)
        return 1
    return 0


if __name__ == "__main__":
    sys.exit(ended("explain", lambda: main(sys.argv[1:])))
