"""What a report says, in sentences: who died of what and where, who waits for what and who could wake it, and what never ran."""

from __future__ import annotations

from collections.abc import Callable, Iterator, Mapping, Sequence
from dataclasses import dataclass, field

from naming import Names
from objects import Objects, find_objects, find_owners, find_processors
from report import Context, Event, Kind, Report, Space
from words import CALL, CREATE_PD, REVOKE, SM_CTRL, counted, reason

ROOT, EBREAK, STARTUP, FETCH, STORE = 1, 7, 0, 2, 4
UP = 1
# Addresses below this one are most likely those of a null pointer.
NULL = PAGE = 0x1000
# What a line `ec` has of a thread that waits at a semaphore with a deadline.
DEADLINE = " x11=00000002"
WAITING = ("blocked", "calling", "helping", "sending")
GOING = ("ready", "exiting", "granting", "replying", "revoking")
DOING = {"exiting": "has an exit to be sent", "granting": "takes items", "replying": "gives the items of its reply", "revoking": "revokes"}

# Where an address of an execution context lies; an empty text where that is not told.
Where = Callable[[Context, int], str]


@dataclass
class Run:
    """A run as far as it is known: its report, the names of its objects, where addresses lie, the domain of each execution context, where a program
    was asked for it, how often each source fires, by the scenario, and the text of each assertion in C that failed."""

    report: Report
    names: Names = field(default_factory=Names)
    where: Where = lambda context, address: ""
    domains: Mapping[int, int] = field(default_factory=dict)
    left: Sequence[int] = ()
    failed: Mapping[int, str] = field(default_factory=dict)

    def __post_init__(self) -> None:
        self.objects: Objects = find_objects(self.report)
        self.processors = find_processors(self.report)
        self.owners = find_owners(self.report, self.objects, self.processors)
        self.contexts = {context.number: context for context in self.report.contexts}
        self.lasts: dict[int, Event] = {}
        for event in self.report.events:
            if event.kind is not Kind.IRQ:
                self.lasts[event.context] = event
        self.domains = self.domains or makers(self.report, self.objects)

    def of(self, number: int) -> str:
        """An execution context as a text."""
        return "EC 1 (the root)" if number == ROOT and number not in self.names.by_number else self.names.of(number)

    def at(self, context: Context, address: int | None = None) -> str:
        """Where an execution context is, or an address of it, as a part of a sentence."""
        place = int(context.line.split()[4], 16) if address is None else address
        # A program begins above page 0, where another executable than the root's has nothing of its own.
        found = self.where(context, place) if place or context.number == ROOT else ""
        return f"at 0x{place:x}{', ' if found else ''}{found}"

    def why(self, context: Context) -> str:
        """Which assertion in C an execution context stopped at, as a part of a sentence."""
        text = self.failed.get(context.number)
        return f", since an assertion failed: {text}" if text else ""


def makers(report: Report, objects: Objects) -> dict[int, int]:
    """The domains of execution contexts that made an object: one that wasn't given stands in the domain of who made it."""
    held = {one.target: one.domain for one in report.ranges if one.space is Space.OBJECTS and one.parent is None}
    made = ((event.context, objects.made_in.get(event.place)) for event in report.events)
    return {context: held[number] for context, number in made if number is not None and number in held}


def capital(text: str) -> str:
    """A text with a capital at its beginning."""
    return text[:1].upper() + text[1:]


def all_of(parts: Sequence[str], last: str = "and") -> str:
    """Parts as one, with commas, and a word before the last."""
    return f"{', '.join(parts[:-1])} {last} {parts[-1]}" if len(parts) > 1 else "".join(parts)


def how_it_ended(run: Run) -> Iterator[str]:
    """The run as a whole."""
    report = run.report
    turns = counted(report.turns, "turn", "turns")
    if not report.quiet:
        yield f"The run was stopped after {turns}, by its limit or the end of its order. Somebody still had something to do."
        return
    waiting = [context.number for context in report.contexts if context.state in WAITING]
    if not waiting:
        yield f"The run came to rest after {turns}: nobody has anything left to do, and nobody waits."
        return
    who = all_of([run.of(number) for number in waiting])
    stay = "waits for what nobody will do" if len(waiting) == 1 else "wait for what nobody will do"
    yield f"The run came to rest after {turns}, since nobody can go on; but {who} {stay}. No deadline and no source is to come."


def how_died(run: Run, context: Context, last: Event | None) -> str:
    """When and where an execution context died, and of what."""
    if last is None or last.kind not in (Kind.DIED, Kind.ABORT):
        return f"died, {run.at(context)}"
    turn, where = f"in turn {last.place:,}", run.at(context)
    if last.kind is Kind.ABORT:
        return f"died {turn}, {where}: the handler of its exit, {run.of(last.a)}, is dead"
    if last.a == EBREAK:
        return f"ended {turn}, {where}, by `ebreak`{run.why(context)}"
    if last.a == STARTUP:
        return f"died {turn} of its startup: its domain has no portal for it, or the portal's handler could not answer"
    return f"died {turn}, {where}, of {reason(last)}{guess(context, last) if context.sort != 'vcpu' else ', which no portal takes'}"


def stack_of(context: Context) -> int:
    """The stack pointer of an execution context, x2."""
    return int(next((word[3:] for word in context.line.split() if word.startswith("x2=")), "0"), 16)


def guess(context: Context, event: Event) -> str:
    """What most likely led to a fault."""
    if event.a == FETCH and event.b == 0:
        return ": it jumped through a null pointer, or returned from an entry that is no NOVA_PORTAL or NOVA_THREAD, most likely"
    if event.a == FETCH:
        return ": it jumped to where nothing may be executed" if event.b >= NULL else ": it jumped through a null pointer, most likely"
    if event.a in (FETCH + 1, STORE):
        what = "written" if event.a == STORE else "read"
        if event.b < NULL:
            return f": a null pointer, most likely, through which nothing may be {what}"
        stack = stack_of(context)
        below = f", below its stack, most likely, since its x2 is 0x{stack:x}" if stack and abs(event.b - stack) < PAGE else ""
        return f": its domain has no page there that may be {what}{below}"
    return ""


def deaths(run: Run) -> Iterator[str]:
    """Who died, of what, and where."""
    for context in run.report.contexts:
        if context.state == "dead":
            yield capital(f"{who(run, context)} {how_died(run, context, run.lasts.get(context.number))}.")


def who(run: Run, context: Context) -> str:
    """An execution context, with what it is unless it is an ordinary thread."""
    return {"vcpu": "the virtual CPU ", "local": "the handler "}.get(context.sort, "") + run.of(context.number)


def state_of(run: Run, number: int) -> str:
    """An execution context with its state, in brackets."""
    return f"{run.of(number)} [{run.contexts[number].state}]"


def waits(run: Run) -> Iterator[str]:
    """Who waits for what, and who could wake it."""
    for context in run.report.contexts:
        if context.state not in WAITING:
            continue
        last = run.lasts.get(context.number)
        waiting = who(run, context)
        if context.state == "blocked" and last is not None and last.kind is Kind.BEGIN and last.a == SM_CTRL:
            semaphore = run.names.of(last.b, "SM")
            long = f"has waited since turn {last.place:,} at {semaphore}, {run.at(context)}{until(run, context)}"
            yield capital(f"{waiting} {long}. {wakers(run, context, last.b)}")
        elif context.state == "blocked":
            yield capital(f"{waiting} waits at a semaphore, {run.at(context)}{until(run, context)}.")
        else:
            yield capital(f"{waiting} {for_handler(run, context, last)}, {run.at(context)}.")


def until(run: Run, context: Context) -> str:
    """That a wait has a deadline."""
    return ", with a deadline" if DEADLINE in context.line and not run.report.quiet else ""


def for_handler(run: Run, context: Context, last: Event | None) -> str:
    """For which handler an execution context waits."""
    if last is None:
        return "waits for the reply of a handler"
    if context.state == "calling":
        answered = last.kind is Kind.SENT or (last.kind is Kind.BEGIN and last.a == CALL)
        handler = state_of(run, last.b) if answered else "a handler"
        return f"has waited since turn {last.place:,} for the reply of {handler} to its {'exit' if last.kind is Kind.SENT else 'call'}"
    if last.kind is Kind.HELP:
        return f"has helped {state_of(run, last.a)} since turn {last.place:,}, since it found that at work for another"
    return "helps a busy handler"


def wakers(run: Run, context: Context, semaphore: int) -> str:
    """Who could up a semaphore."""
    sources = [source.number for source in run.report.sources if source.semaphore == semaphore]
    holders = {held.domain for held in run.report.ranges if held.space is Space.OBJECTS and held.target == semaphore and held.rights & UP}
    others = [one for one in run.contexts if one != context.number and run.domains.get(one, -1) in holders | {-1}]
    able = [one for one in others if run.contexts[one].state != "dead"]
    if not able and not sources:
        dead = f": {all_of([run.of(one) for one in others])} {'is' if len(others) == 1 else 'are'} dead" if others else ""
        return f"Nobody is left who could wake it{dead if holders else ', since nobody holds the right'}."
    parts = [source_of(run, number) for number in sources] + [state_of(run, one) for one in able if one in run.domains]
    unsure = [state_of(run, one) for one in able if one not in run.domains]
    if unsure:
        domains = all_of([f"PD {domain}" for domain in sorted(holders)], "or")
        parts.append(f"{all_of(unsure, 'or')}, if it is of {domains}, which {'holds' if len(holders) == 1 else 'hold'} the right")
    deadlock = " Each of them waits, or waits to be called." if run.report.quiet and able and not sources else ""
    return f"Who could wake it: {'; '.join(parts)}.{deadlock}"


def source_of(run: Run, number: int) -> str:
    """A source as who could up a semaphore."""
    source = run.report.sources[number]
    left = run.left[number] - source.fired if run.left else None
    more = "and is done" if run.report.quiet or left == 0 else f"and has {left:,} firings left" if left else "and may fire again"
    return f"source {number} of processor {source.cpu}, which fired {counted(source.fired, 'time', 'times')} {more}"


def goings(run: Run) -> Iterator[str]:
    """Who would go on, where the run was stopped."""
    for context in run.report.contexts:
        if context.state in GOING:
            what = DOING.get(context.state, "would go on")
            yield capital(f"{who(run, context)} {what}, {run.at(context)}{run.why(context)}.")


def never(run: Run) -> Iterator[str]:
    """What never ran."""
    called = {event.b for event in run.report.events if event.kind is Kind.SENT or (event.kind is Kind.BEGIN and event.a == CALL)}
    for context in run.report.contexts:
        if context.state == "fresh":
            yield capital(f"{who(run, context)} was made{made_in(run, context.number)} and never had a turn: {why_fresh(run, context)}.")
    idle = [context.number for context in run.report.contexts if context.state == "parked" and context.number not in called]
    if idle:
        yield f"{all_of([run.of(one) for one in idle])} {'was' if len(idle) == 1 else 'were'} made to be called, and nobody ever did."
    for payer in run.report.payers:
        owner = run.contexts.get(run.owners.get(payer.number, 0))
        if payer.ticks == 0 and (owner is None or owner.state != "fresh"):
            yield f"{run.names.of(payer.number, 'SC')}, on processor {payer.cpu}, never paid for a turn."


def made_in(run: Run, number: int) -> str:
    """When an object was made."""
    born = run.objects.births.get(number)
    return f" in turn {born:,}" if born else ""


def why_fresh(run: Run, context: Context) -> str:
    """Why an execution context had no turn."""
    payers = [payer for payer in run.report.payers if run.owners.get(payer.number) == context.number]
    if payers:
        return f"its scheduling context, SC {payers[0].number} on processor {payers[0].cpu}, was never chosen"
    later = [payer for payer in run.report.payers if payer.number > context.number and payer.ticks == 0]
    return "the report doesn't tell which scheduling context is its own" if later else "no scheduling context was made for it"


def consoles(text: str) -> Iterator[str]:
    """What consoles show, as text; other bytes than printable ASCII as in C."""
    for line in text.splitlines():
        if not line.startswith("console "):
            continue
        _, number, shown = line.split()
        data = b"" if shown == "-" else bytes.fromhex(shown)
        if not data:
            yield f"Console {number} shows nothing."
            continue
        yield f"Console {number} shows:"
        for row in data.decode("latin-1").removesuffix("\n").split("\n"):
            yield "  " + "".join(char if " " <= char <= "~" else f"\\x{ord(char):02x}" for char in row)


def parked(run: Run) -> Iterator[str]:
    """Handlers that wait to be called again."""
    called = {event.b for event in run.report.events if event.kind is Kind.SENT or (event.kind is Kind.BEGIN and event.a == CALL)}
    idle = [context.number for context in run.report.contexts if context.state == "parked" and context.number in called]
    if idle:
        yield f"{all_of([run.of(one) for one in idle])} {'waits' if len(idle) == 1 else 'wait'} to be called again, as handlers do."


def busy(run: Run) -> Iterator[str]:
    """Domains and revokes that are not done."""
    for event in run.lasts.values():
        if event.kind is Kind.BEGIN and event.a in (CREATE_PD, REVOKE) and not run.report.quiet:
            yield f"{run.of(event.context)} has been at a {'create_pd' if event.a == CREATE_PD else 'revoke'} since turn {event.place:,}."


def account(run: Run, text: str) -> Iterator[str]:
    """The whole account, in paragraphs."""
    for part in (how_it_ended(run), deaths(run), waits(run), goings(run), busy(run), never(run), parked(run), consoles(text)):
        lines = list(part)
        if lines:
            yield "\n".join(lines) + "\n"


__all__ = ["Run", "account"]
