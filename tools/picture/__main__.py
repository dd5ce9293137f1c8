"""Draws pictures of a run from its report, and of the sides of a state from what nova_policy tells of them.

python3 tools/picture run REPORT [--order FILE] [--scenario FILE] [--from TURN] [--to TURN] [--all] [--fold N] [--page] [--output FILE]
python3 tools/picture delegations REPORT [--from TURN] [--to TURN] [--all] [--fold N] [--page] [--output FILE]
python3 tools/picture trace REPORT [--order FILE] [--scenario FILE] [--from TURN] [--to TURN] [--output FILE.json.gz]
python3 tools/picture sides [ANSWER] [--policy FILE] [--title TEXT] [--dot] [--page] [--output FILE]

With a scenario, run and trace ask nova_debug what the report doesn't tell, where that is built; [--program FILE] names another one. All take
[--names FILE] and [--elf FILE], for names of objects.
"""

from __future__ import annotations

import argparse
import gc
import gzip
import sys
import tempfile
from collections.abc import Callable, Iterator
from contextlib import AbstractContextManager, contextmanager, nullcontext
from itertools import islice
from pathlib import Path
from typing import IO, BinaryIO, TypeVar

from clocks import Firing, find_firings, misfit, mistimed
from drawing import page, svg
from exact import Exact, ended, there
from exact import Refused as NotAsked
from history import Wakes
from naming import Names, Unread, add_words, names_of, selectors
from order import Order, read_order
from parsing import Parser, program_file
from report import Fault, Report, read_report
from run_picture import draw_run
from scenario import read_settings
from sides import Told, named_in, read_sides
from sides_graph import dot
from sides_picture import draw_sides
from skim import LARGE, Events, find_events, shorten, turns_of
from timeline import Window
from trace_events import text_of, trace_events
from tree_picture import draw_delegations

# The greatest picture that is drawn without being asked for, in bytes. With more events than SURE none is within it.
GREATEST, SURE = 5_000_000, 20_000
# What is drawn without being cut short: turns without an event, and ranges that nothing was given from.
TURNS, RANGES = 12, 40
# How many trace events are written at a time.
AT_ONCE = 10_000
# The most lines of an answer that are drawn, and not left to Graphviz.
LINES = 2_000


Read = TypeVar("Read")


class Refused(Exception):
    """What was asked for cannot be drawn; the text says why."""


def parser() -> argparse.ArgumentParser:
    """The words that the program takes."""
    top = Parser(prog="picture", description="Draws a picture of a run from its report.")
    pictures = top.add_subparsers(dest="picture", required=True, metavar="PICTURE")
    run = pictures.add_parser("run", help="what happened in each turn, with a lane for each execution context")
    run.add_argument("--fold", type=int, default=TURNS, metavar="N", help=f"draw more than N turns without an event short ({TURNS})")
    trees = pictures.add_parser("delegations", help="which capability range was given from which")
    trees.add_argument("--fold", type=int, default=RANGES, metavar="N", help=f"cut lists of more than N ranges ({RANGES})")
    trees.set_defaults(order=None, scenario=None, program=None)
    trace = pictures.add_parser("trace", help="the run as trace events, for Perfetto and the viewers of Chrome; with gzip where the name ends so")
    run.add_argument("--order", type=Path, metavar="FILE", help="the order of turns of the run: the turns of each processor are shown")
    run.add_argument("--scenario", type=Path, metavar="FILE", help="the scenario of the run: how late its sources fire is shown")
    trace.add_argument("--order", type=Path, metavar="FILE", help="the order of turns of the run")
    trace.add_argument("--scenario", type=Path, metavar="FILE", help="the scenario of the run: who acts and who pays in each turn is written")
    for picture in (run, trace):
        program = "what is asked of the scenario's run, if the report doesn't tell it (nova_debug of the repository, if it is built)"
        picture.add_argument("--program", type=program_file, metavar="FILE", help=program)
    for picture in (run, trees, trace):
        picture.add_argument("report", type=Path, metavar="REPORT", help="the report of the run")
        picture.add_argument("--from", dest="first", type=int, metavar="TURN", help="the first turn to draw (1)")
        picture.add_argument("--to", dest="last", type=int, metavar="TURN", help="the last turn to draw (that of the run)")
        picture.add_argument("--output", type=Path, metavar="FILE", help="where to write (standard output)")
        picture.add_argument("--elf", type=Path, action="append", default=[], metavar="FILE", help="an executable whose constants name selectors")
        add_words(picture)
    sides = pictures.add_parser("sides", help="which protection domains are isolated from which, what flows and what is shared, by the answer of nova_policy")
    sides.add_argument("answer", type=Path, nargs="?", default=Path("-"), metavar="ANSWER", help="what nova_policy wrote (standard input)")
    sides.add_argument("--policy", type=Path, metavar="FILE", help="the policy that was asked for: a domain without ties is drawn in its own side, also beside a breach")
    sides.add_argument("--title", metavar="TEXT", help="what is written above it (the name of the file)")
    sides.add_argument("--dot", action="store_true", help="write a graph for Graphviz, not an SVG")
    sides.add_argument("--page", action="store_true", help="write a page of HTML that shows a line's ties, not an SVG")
    sides.add_argument("--output", type=Path, metavar="FILE", help="where to write (standard output)")
    for picture in (run, trees):
        picture.add_argument("--all", action="store_true", help="draw all turns that are asked for, also where the picture passes 5 MB")
        picture.add_argument("--page", action="store_true", help="write a page of HTML that shows a mark's line, not an SVG")
    return top


def read_text(path: Path) -> str:
    """The text of a file. Bytes that are not ASCII are kept as they are, for the readers to refuse."""
    try:
        return path.read_bytes().decode("ascii", errors="surrogateescape")
    except OSError as error:
        raise Refused(f"{path}: {error.strerror}") from error


def window_of(turns: int, words: argparse.Namespace) -> Window:
    """The turns that were asked for. All those of the run may be none."""
    first = 1 if words.first is None else words.first
    last = turns if words.last is None else min(words.last, turns)
    if (words.first is not None or words.last is not None) and not 1 <= first <= last:
        has = f"has turns 1 to {turns}" if turns else "took no turn"
        raise Refused(f"there are no turns from {first} to {last}: the run {has}")
    return Window(first, last)


def draw(words: argparse.Namespace) -> bytes:
    """The picture that the words ask for, cut where it would be too large."""
    text = read_text(words.report)
    turns, events = turns_of(text), find_events(text)
    if turns is None or events is None:
        faultless(words.report, lambda: read_report(text))
        raise AssertionError("a report whose events are not of the form is not read")
    window = window_of(turns, words)
    if not words.all and words.picture == "run" and len(events.within(window)) > SURE:
        window = events.cut(window)
    picture = draw_window(words, text, events, window)
    while len(picture) > GREATEST and window.first < window.last and not words.all:
        window = events.cut(window)
        picture = draw_window(words, text, events, window)
    return picture


def told_in(words: argparse.Namespace) -> Told:
    """The answer that is drawn. Bytes that are not ASCII are kept as they are, for the reader to refuse."""
    if words.answer == Path("-"):
        text = sys.stdin.buffer.read().decode("ascii", errors="surrogateescape")
    else:
        text = read_text(words.answer)
    return faultless(words.answer, lambda: read_sides(text))


def draw_answer(words: argparse.Namespace) -> bytes:
    """The picture of the sides of a state."""
    told = told_in(words)
    title = words.title or ("sides" if words.answer == Path("-") else words.answer.stem)
    named = named_in(read_text(words.policy)) if words.policy else {}
    if words.dot:
        return dot(title, told, named).encode("utf-8", "replace")
    if (lines := len(told.ties) + len(told.flows) + len(told.memory)) > LINES:
        raise Refused(f"there are {lines} ties and flows: --dot writes a graph, for Graphviz")
    scene = draw_sides(title, told, named)
    return (page(scene) if words.page else svg(scene)).encode("utf-8", "replace")


def read_window(words: argparse.Namespace, text: str, events: Events, window: Window) -> Report:
    """The report, or as much of it as the window is drawn from."""
    if len(text) >= LARGE:
        try:
            return read_report(shorten(text, events, window, words.picture == "delegations"))
        except Fault:
            pass  # The line has another number in the whole report.
    return faultless(words.report, lambda: read_report(text))


def draw_window(words: argparse.Namespace, text: str, events: Events, window: Window) -> bytes:
    """The picture of the window."""
    report = read_window(words, text, events, window)
    if words.picture == "delegations":
        scene = draw_delegations(words.report.stem, report, window, words.fold, naming(words, report))
    else:
        order = None
        if words.order is not None:
            order = faultless(words.order, lambda: read_order(read_text(words.order), report.turns, events.turns, events.cpus()))
        firings = firings_of(words.scenario, report, events, order) if words.scenario is not None else {}
        with asked(words, report) as ask:
            scene = draw_run(words.report.stem, report, order, window, words.fold, firings, ask, naming(words, report))
    return (page(scene) if words.page else svg(scene)).encode("utf-8", "replace")


def naming(words: argparse.Namespace, report: Report) -> Names:
    """The names that were given, and those of executables."""
    return names_of(words.names, words.elf, selectors(report.ranges))


def firings_of(scenario: Path, report: Report, events: Events, order: Order | None) -> dict[int, Firing]:
    """When the sources of the run were due, by the scenario."""
    settings = faultless(scenario, lambda: read_settings(read_text(scenario)))
    if not misfit(settings, report):
        found = find_firings(settings, report.sources, events.firings(), order)
        if not found or not mistimed(found, report.sources, events.firings()):
            return found
    raise Refused(f"{scenario}: its sources are not those of the report")


def faultless(path: Path, read: Callable[[], Read]) -> Read:
    """What `read` gives, with the file's name in a fault."""
    try:
        return read()
    except Fault as fault:
        raise Refused(f"{path}: {fault}") from fault


@contextmanager
def asked(words: argparse.Namespace, report: Report) -> Iterator[Wakes]:
    """Who is asked in which turn a waiting execution context was woken. The program is started when it is first asked."""
    exact: list[Exact | None] = []

    def ask(context: int, places: list[int]) -> int | None:
        if not exact:
            exact.append(open_exact(words, report))
        return exact[0].woken(context, places) if exact[0] else None

    try:
        yield ask
    finally:
        for one in exact:
            if one is not None:
                one.close()


def open_exact(words: argparse.Namespace, report: Report) -> Exact | None:
    """The program that makes the run of the scenario again, if there is one. Where one that isn't named makes another run, that is said."""
    program = words.program or (there("nova_debug") if words.scenario else None)
    if words.scenario is None or program is None:
        return None
    try:
        return Exact(program, words.scenario, words.order, report)
    except NotAsked as why:
        if words.program:
            raise Refused(str(why)) from why
        print(f"picture: {why}: what the report doesn't tell stays open", file=sys.stderr)
        return None


def trace(words: argparse.Namespace) -> Iterator[str]:
    """The trace events that the words ask for, as the text of a file."""
    report = faultless(words.report, lambda: read_report(read_text(words.report)))
    window = window_of(report.turns, words)
    exact = open_exact(words, report)
    slices = list(exact.slices(window.first, window.last)) if exact else []
    yield from text_of(trace_events(report, window, slices, exact.woken if exact else None, naming(words, report)))
    if exact:
        exact.close()


def write_trace(words: argparse.Namespace) -> None:
    """Writes a trace, to a file that is there only when all of it is written. A pipe or a device is written to as it is."""
    if words.output is None:
        for text in trace(words):
            sys.stdout.write(text)
    elif words.output.exists() and not words.output.is_file():
        write_pieces(words, words.output)
    else:
        with tempfile.TemporaryDirectory(dir=words.output.parent) as folder:
            fresh = Path(folder, "trace")
            write_pieces(words, fresh)
            fresh.replace(words.output)


def write_pieces(words: argparse.Namespace, place: Path) -> None:
    """Writes a trace to a place, piece by piece."""
    with place.open("wb") as raw, packed(raw, words.output.suffix == ".gz") as file:
        texts = trace(words)
        while piece := "".join(islice(texts, AT_ONCE)):
            file.write(piece.encode("ascii"))


def packed(raw: BinaryIO, compress: bool) -> AbstractContextManager[IO[bytes]]:
    """A file, or what compresses into it: the same bytes for the same trace."""
    return gzip.GzipFile("", "wb", 6, raw, 0) if compress else nullcontext(raw)


def main(arguments: list[str]) -> int:
    """Draws one picture, or writes one trace. The status is 1, and nothing is written, where a file can't be read or is not of its form."""
    words = parser().parse_args(arguments)
    try:
        if words.picture == "trace":
            write_trace(words)
            return 0
        picture = draw_answer(words) if words.picture == "sides" else draw(words)
        if words.output is None:
            sys.stdout.buffer.write(picture)
        else:
            words.output.write_bytes(picture)
    except (Refused, Unread) as error:
        print(f"picture: {error}", file=sys.stderr)
        return 1
    return 0


if __name__ == "__main__":
    # All that is made is kept to the end, so looking for what can be freed would only take time.
    gc.disable()
    sys.exit(ended("picture", lambda: main(sys.argv[1:])))
