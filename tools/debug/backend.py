"""Asks the proved program `nova_debug`: a line out, lines in, of which the last tells the turn, a refusal, or that it was no command."""

from __future__ import annotations

import os
import subprocess
import weakref
from collections.abc import Iterable, Iterator, Sequence
from dataclasses import dataclass, field
from pathlib import Path

from access import Access, access_of

PAGE = 4096
ENDED = "the program has ended"
OWN_PAGE = 0xFFFFF
WORDS = 512
MOST = 10_000_000
# What states that are kept on the way may take, in bytes.
BYTES = 64 << 20
# With what the last line of an answer may begin: ok, memory, no and idle; or there is none.
LAST = ("o", "m", "n", "i", "")
# Of so many turns slices are asked for at a time.
PART = 200_000


class Refused(Exception):
    """What was asked for is not there; the text says why."""


@dataclass(frozen=True, slots=True)
class Context:
    """An execution context in a state: its registers are x0 to x31 and then the counter of instructions."""

    number: int
    kind: str
    state: str
    registers: tuple[int, ...]
    domain: int = 0
    cpu: int = 0
    caller: int | None = None
    awaited: int | None = None


@dataclass(frozen=True, slots=True)
class Event:
    """The event of a turn, before which as many turns were taken as its place says."""

    place: int
    cpu: int
    payer: int
    actor: int
    kind: str
    a: int
    b: int


@dataclass(frozen=True, slots=True)
class Slice:
    """Turns of a processor from one on, counted from 0, to another one, with no other turn of it between: how many they are, the scheduling
    context that pays and the execution context that acts, where there is one."""

    cpu: int
    first: int
    last: int
    turns: int
    payer: int | None
    actor: int | None

    def goes_on(self, other: Slice) -> bool:
        """Whether another one, which comes next on its processor, is of the same contexts."""
        return (self.payer, self.actor) == (other.payer, other.actor)

    def with_next(self, other: Slice) -> Slice:
        """Both as one."""
        return Slice(self.cpu, self.first, other.last, self.turns + other.turns, self.payer, self.actor)


@dataclass(slots=True)
class Seen:
    """What was read in the present state."""

    contexts: dict[int, Context] | None = None
    domains: dict[int, tuple[str, ...]] | None = None
    pages: dict[tuple[int, int], tuple[int, int] | None] = field(default_factory=dict)
    frames: dict[int, bytes | None] = field(default_factory=dict)
    words: dict[int, bytes | None] = field(default_factory=dict)


def number_of(text: str) -> int | None:
    """A number, or none where a dash stands for it."""
    return None if text == "-" else int(text)


def context_of(line: str) -> tuple[int, str, str, tuple[int, ...]]:
    """The number, the kind, the state and the registers of an execution context, by a line of a report."""
    _, number, kind, state, pc, *changed = line.split()
    registers = [0] * 33
    registers[32] = int(pc, 16)
    for word in changed:
        name, _, value = word.partition("=")
        registers[int(name[1:])] = int(value, 16)
    return int(number), kind, state, tuple(registers)


def unread(file: Path) -> str:
    """Why a file can't be read, or nothing where it can. A pipe is left alone."""
    if file.is_dir():
        return f"{file} is a folder"
    if os.access(file, os.R_OK):
        return ""
    return f"{file}: {'it cannot be read' if file.exists() else 'there is no such file'}"


def why_refused(said: str, program: Path, scenario: Path, order: Path | None) -> str:
    """Why a program takes no run, in words for the caller, by what it said."""
    return unread(scenario) or (unread(order) if order else "") or {
        ENDED: f"{program} ended before it answered",
        "no limit": "a run is limited to 1 to 10,000,000 turns",
        "no scenario": f"{scenario} is no scenario; `nova check` says which line is at fault, and why",
        "no order": f"{order} is no order of {scenario}; `nova solo` says which line is at fault, and why",
    }.get(said, said)


class BackEnd:
    """A run in the state after some of its turns. Raises Refused where a file can't be read, or the program doesn't take the run."""

    def __init__(self, program: Path, scenario: Path, order: Path | None, limit: int) -> None:
        command = [str(program), str(scenario), str(limit), *([str(order)] if order else [])]
        pipe = subprocess.PIPE
        self._child = subprocess.Popen(command, stdin=pipe, stdout=pipe, text=True, bufsize=-1, start_new_session=True)
        # An interrupt from the keyboard doesn't reach it, so it is ended when nobody asks it any more.
        weakref.finalize(self, self._child.kill)
        self.turn = 0
        self.keeps = True
        self._seen = Seen()
        try:
            self.end = int(self.ask("at")[0].split()[3])
        except Refused as why:
            raise Refused(why_refused(str(why), program, scenario, order)) from why
        except (IndexError, ValueError) as error:
            raise Refused(f"{program} doesn't answer as nova_debug does") from error

    def ask(self, *lines: str) -> list[str]:
        """The answer to the last line. Those before it are settings, whose answers tell nothing."""
        return self.ask_all(lines)[-1]

    def ask_all(self, lines: Sequence[str]) -> list[list[str]]:
        """The answers to some lines, which together fit into a pipe: the program isn't waited for between them. Where one is refused, that is
        raised when all have been read."""
        assert self._child.stdin and self._child.stdout
        try:
            self._child.stdin.write("".join(line + "\n" for line in lines))
            self._child.stdin.flush()
        except BrokenPipeError:
            # It has ended, and what it said before tells why.
            pass
        answers, refused = [], None
        for line in lines:
            try:
                answers.append(self._answer(line))
            except Refused as why:
                refused = refused or why
        if refused is not None:
            raise refused
        return answers

    def _answer(self, line: str) -> list[str]:
        assert self._child.stdout
        readline = self._child.stdout.readline
        answer: list[str] = []
        while True:
            said = readline()
            if said[:1] not in LAST:
                answer.append(said[:-1])
                continue
            said = said.rstrip("\n")
            word, _, rest = said.partition(" ")
            if word in ("ok", "memory") and rest:
                self._stand(int(rest))
            if word == "ok":
                return answer
            if word == "memory":
                raise Refused(f"there is no memory to do `{line}`: this is turn {rest}")
            if word == "no":
                raise Refused(f"not understood: {line}" if not rest else said)
            if word == "idle":
                raise Refused(f"a processor is idle in the block {rest} of the order; perhaps it is an order of another program")
            if not said:
                raise Refused(ENDED)
            answer.append(said)

    def _stand(self, turn: int) -> None:
        if turn != self.turn:
            self._seen = Seen()
        self.turn = turn

    def close(self) -> None:
        """Ends the program."""
        assert self._child.stdin and self._child.stdout
        self._child.stdin.close()
        self._child.wait()
        self._child.stdout.close()

    # Going

    def go(self, turn: int) -> None:
        """Goes to a turn, or to the end where the run has fewer."""
        if turn != self.turn:
            self.ask(f"go {max(turn, 0)}")

    def run(self, looked_for: Iterable[str], to: int) -> bool:
        """Goes on to the first turn that does something that is looked for, at most to a turn, and whether one does."""
        return self.ask("clear", *looked_for, f"run {to}") == ["stop"]

    def last(self, looked_for: Iterable[str], to: int) -> int | None:
        """Goes on to a turn, and gives the last before it that does something that is looked for."""
        (answer,) = self.ask("clear", *looked_for, f"last {to}")
        return None if answer == "none" else int(answer.split()[1])

    def keep(self, size: int) -> None:
        """Keeps states on the way, in at most so many bytes; 0 for none."""
        self.ask(f"keep {size}")
        self.keeps = size > 0

    # Reading

    def contexts(self) -> dict[int, Context]:
        """The execution contexts by number."""
        if self._seen.contexts is None:
            objects = self._objects()
            self._seen.contexts = {}
            for line in self.ask("contexts"):
                number, kind, state, registers = context_of(line)
                domain, cpu, caller, awaited = objects[number]
                self._seen.contexts[number] = Context(
                    number, kind, state, registers, int(domain), int(cpu), number_of(caller), number_of(awaited)
                )
        return self._seen.contexts

    def _objects(self) -> dict[int, tuple[str, ...]]:
        """Of each execution context the domain and the processor, and whom it serves and waits for."""
        if self._seen.domains is None:
            self._seen.domains = {int(w[1]): tuple(w[2:6]) for w in map(str.split, self.ask("objects"))}
        return self._seen.domains

    def page(self, domain: int, page: int) -> tuple[int, int] | None:
        """The frame that a page of a domain leads to, and the rights there."""
        if (domain, page) not in self._seen.pages:
            words = self.ask(f"page {domain} {page}")[0].split()
            self._seen.pages[domain, page] = None if words[1] == "-" else (int(words[1]), int(words[2]))
        return self._seen.pages[domain, page]

    def frame(self, frame: int) -> bytes | None:
        """The bytes of a frame of RAM."""
        if frame not in self._seen.frames:
            word = self.ask(f"frame {frame}")[0].split()[1]
            self._seen.frames[frame] = None if word == "-" else bytes.fromhex(word)
        return self._seen.frames[frame]

    def words(self, context: int) -> bytes | None:
        """The message words of a thread, the lowest byte of each first."""
        if context not in self._seen.words:
            words = self.ask(f"words {context}")[0].split()[1:]
            self._seen.words[context] = None if words == ["-"] else b"".join(int(w, 16).to_bytes(4, "little") for w in words)
        return self._seen.words[context]

    def _bytes_of_page(self, context: Context, page: int) -> bytes | None:
        if page == OWN_PAGE and context.kind != "vcpu":
            return self.words(context.number)
        led = self.page(context.domain, page)
        return None if led is None else self.frame(led[0])

    def read(self, context: Context, address: int, length: int) -> bytes:
        """The bytes that an execution context finds from an address on, up to the first that is not there."""
        found = b""
        while len(found) < length:
            page, offset = divmod((address + len(found)) % 2**32, PAGE)
            here = self._bytes_of_page(context, page)
            piece = here[offset : offset + length - len(found)] if here else b""
            if not piece:
                break
            found += piece
        return found

    def events(self, first: int, last: int) -> list[Event]:
        """The events of the turns from one on, before another."""
        found = []
        for words in map(str.split, self.ask(f"events {first} {last}")):
            place, cpu, payer, actor = map(int, words[1:5])
            found.append(Event(place, cpu, payer, actor, words[5], int(words[6]), int(words[7])))
        return found

    def slices(self, first: int, last: int) -> Iterator[Slice]:
        """Who pays and who acts in the turns from one on, before another: what goes on, in one piece. They come by processor in their order.
        Raises Refused where the program doesn't tell it."""
        held: dict[int, Slice] = {}
        for start in range(first, last, PART):
            for words in map(str.split, self.ask(f"slices {start} {min(start + PART, last)}")):
                cpu, begins, ends, turns = map(int, words[1:5])
                found = Slice(cpu, begins, ends, turns, number_of(words[5]), number_of(words[6]))
                before = held.get(cpu)
                if before is not None and before.goes_on(found):
                    found = before.with_next(found)
                elif before is not None:
                    yield before
                held[cpu] = found
        yield from held.values()

    def next(self) -> tuple[int, int, int] | None:
        """The execution context, its domain and the address of the instruction that is next; none where something else is."""
        words = self.ask("next")[0].split()[1:]
        return None if words == ["-"] else (int(words[0]), int(words[1]), int(words[2]))

    def access(self) -> Access | None:
        """What the next turn loads or stores; none where it does neither."""
        return access_of(self.ask("access")[0])

    def delegations(self) -> list[str]:
        """The delegations, as a report has them."""
        return self.ask("delegations")

    def semaphores(self) -> list[str]:
        """The semaphores, each with its number, its counter and who waits, in order."""
        told = []
        lines = [line.split() for line in self.ask("semaphores")]
        queues = self.ask_all([f"queue {words[1]}" for words in lines])
        for words, (queue,) in zip(lines, queues, strict=True):
            waiting = queue.split()[1:]
            told.append(f"sm {words[1]} {words[2]} {' '.join(waiting) or '-'}")
        return told

    def domains(self) -> dict[int, int]:
        """The domain of each execution context."""
        return {number: int(words[0]) for number, words in self._objects().items()}
