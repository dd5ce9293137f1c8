"""A run as trace events, in JSON, for Perfetto and the viewers of Chrome.

A turn is a microsecond: turn N of the report is from N - 1 to N. There are three processes: processors and execution contexts, each with a track
of its turns by who pays and of its events, and what each execution context does. Events are instants, with the scheduling contexts that may have
paid; calls, replies, exits, help, interrupts and wake-ups are flows, and where the report leaves several, each says that it isn't sure. Who acts and who
pays in turns without an event a report doesn't tell; `nova_debug` does.
"""

from __future__ import annotations

import json
from collections.abc import Iterable, Iterator
from functools import cache

from exact import Slice
from history import Doing, History, Lead, Wakes, find_history
from naming import Names
from report import Kind, Report
from timeline import Window
from words import sentence

PROCESSORS, CONTEXTS, STATES = 1, 2, 3
_PROCESSES = ((PROCESSORS, "processors"), (CONTEXTS, "execution contexts"), (STATES, "states of execution contexts"))

# Each event is the text of a JSON object: they are many, and mostly numbers.
TraceEvent = str


@cache
def _text(name: str) -> str:
    """A name as JSON has it."""
    return json.dumps(name)


def _name(what: str, process: int, track: int, text: str) -> TraceEvent:
    return f'{{"ph":"M","name":"{what}","pid":{process},"tid":{track},"args":{{"name":{_text(text)}}}}}'


def _slice(process: int, track: int, start: int, end: int, name: str, more: str = "") -> TraceEvent:
    return f'{{"ph":"X","pid":{process},"tid":{track},"ts":{start},"dur":{end - start},"name":{_text(name)}{more}}}'


def _names(report: Report, slices: list[Slice], names: Names) -> Iterator[TraceEvent]:
    for process, text in _PROCESSES:
        yield _name("process_name", process, 0, text)
    for context in report.contexts:
        for process in (CONTEXTS, STATES):
            yield _name("thread_name", process, context.number, f"{names.of(context.number)} {context.sort}")
    for cpu in sorted({event.cpu for event in report.events} | {one.cpu for one in slices}):
        yield _name("thread_name", PROCESSORS, cpu, f"processor {cpu}")


def _states(history: History, window: Window) -> Iterator[TraceEvent]:
    for span in history.spans:
        start, end = max(span.start, window.first - 1), min(span.end, window.last)
        if start >= end:
            continue
        if span.doing is not Doing.HELPED:
            yield _slice(STATES, span.context, start, end, span.doing.value)
            continue
        # It may last past the end of another state, which slices of one track must not.
        on = f'"pid":{STATES},"tid":{span.context},"id":{span.context},"cat":"help","name":{_text(span.doing.value)}'
        yield f'{{"ph":"b","ts":{start},{on}}}'
        yield f'{{"ph":"e","ts":{end},{on}}}'


def _turns(slices: Iterable[Slice]) -> Iterator[TraceEvent]:
    """The turns of processors and of execution contexts. Between those of a slice there may be some of other processors."""
    for one in slices:
        pays = "nobody pays" if one.payer is None else f"SC {one.payer} pays"
        acts = "nobody acts" if one.actor is None else f"EC {one.actor}"
        turns = f',"args":{{"turns":{one.turns}}}'
        yield _slice(PROCESSORS, one.cpu, one.first, one.last + 1, f"{acts}, {pays}", turns)
        if one.actor is not None:
            yield _slice(CONTEXTS, one.actor, one.first, one.last + 1, pays, turns)


def _instants(report: Report, history: History, window: Window) -> Iterator[TraceEvent]:
    """The events. A source's is a slice, since a flow may lead from it."""
    for event, payers in zip(report.events, history.payers):
        if not window.has(event.place):
            continue
        told = f',"args":{{"turn":{event.place},"processor":{event.cpu},"pays":{sorted(payers)}}}'
        if event.kind is Kind.IRQ:
            yield _slice(PROCESSORS, event.cpu, event.place - 1, event.place, sentence(event), told)
            continue
        for process, track in ((CONTEXTS, event.context), (PROCESSORS, event.cpu)):
            yield f'{{"ph":"i","s":"t","ts":{event.place - 1},"pid":{process},"tid":{track},"name":{_text(sentence(event))}{told}}}'


def _flows(report: Report, history: History, window: Window) -> Iterator[TraceEvent]:
    """A flow leads from a slice to a slice: from what one does in the turn to what the other one does after it, if the window goes on so far.
    The dead have none."""
    for number, arrow in enumerate(history.arrows):
        if arrow.lead is Lead.ABORT or not window.first <= arrow.place < window.last:
            continue
        both = f'"cat":"lead","id":{number},"name":{_text(arrow.lead.value + ("" if arrow.sure else " (perhaps)"))}'
        of_source = arrow.lead is Lead.INTERRUPT
        process, track = (PROCESSORS, report.sources[arrow.source].cpu) if of_source else (STATES, arrow.source)
        yield f'{{"ph":"s","ts":{arrow.place - 1},"pid":{process},"tid":{track},{both}}}'
        yield f'{{"ph":"f","bp":"e","ts":{arrow.place},"pid":{STATES},"tid":{arrow.target},{both}}}'


def trace_events(report: Report, window: Window, slices: list[Slice], ask: Wakes | None = None, names: Names = Names()) -> Iterator[TraceEvent]:
    """All trace events of a window of a run."""
    history = find_history(report, ask)
    yield from _names(report, slices, names)
    yield from _states(history, window)
    yield from _turns(slices)
    yield from _instants(report, history, window)
    yield from _flows(report, history, window)


def text_of(events: Iterable[TraceEvent]) -> Iterator[str]:
    """The text of a file of trace events, an event a line."""
    yield '{"traceEvents":[\n'
    between = ""
    for event in events:
        yield between + event
        between = ",\n"
    yield "\n]}\n"
