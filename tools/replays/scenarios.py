"""Random scenarios of several processors, whose outcome depends on the order of turns.

Page 0 has the root's program, page 1 the words that threads race for, pages 2 to 7 the programs of handlers, threads and monitors, and
each page from 8 on is a guest's.
"""

from __future__ import annotations

import random
from dataclasses import dataclass, field

PROCESSORS = (1, 2, 2, 4, 4, 8)

PAGE = 0x1000
RAM_ORDER = 4
CONSOLE = PAGE << RAM_ORDER
WORDS = range(PAGE, PAGE + 16, 4)
PROGRAMS = range(2 * PAGE, 8 * PAGE, 0x100)
GUEST_PAGES = range(8, 1 << RAM_ORDER)

# Selectors: the semaphores of sources, those that the root makes at the start, those that threads make and take away, and what the root makes.
FIRST_SOURCE, MOST_SOURCES = 3, 6
SEMAPHORES = range(32, 36)
CONTESTED = range(64, 68)
CONTESTED_RANGE = (64 << 12) | (2 << 7) | (1 << 2) | 3
ROOTS = range(128, 1 << 12)

# Hypercalls.
REPLY, CREATE_PD, CREATE_EC, CREATE_SC, CREATE_PT, CREATE_SM, REVOKE, RECALL, TICKS, SEMAPHORE = 1, 2, 3, 4, 5, 6, 7, 9, 10, 12


def call(number: int, *arguments: int) -> list[str]:
    """A hypercall, with its arguments in x10, x11 and so on."""
    return [f"addi x17, x0, {number}"] + [f"li x{10 + i}, {argument}" for i, argument in enumerate(arguments)] + ["ecall"]


@dataclass
class Scenario:
    """A scenario that is being written. What the root makes comes at selectors of its own, one after another."""

    chance: random.Random
    cpus: int
    sources: list[str] = field(default_factory=list)
    root: list[str] = field(default_factory=list)
    images: list[tuple[int, list[str]]] = field(default_factory=list)
    programs: list[int] = field(default_factory=lambda: list(PROGRAMS))
    pages: list[int] = field(default_factory=lambda: list(GUEST_PAGES))
    selector: int = ROOTS.start

    def selectors(self, count: int) -> int:
        """So many new selectors in a row, from a multiple of 16 on; the answer is the first."""
        first = -(-self.selector // 16) * 16
        self.selector = first + count
        return first

    def semaphore(self) -> int:
        """The selector of a semaphore that several threads use, or a source."""
        return self.chance.choice([*SEMAPHORES, *range(FIRST_SOURCE, FIRST_SOURCE + len(self.sources))])

    def program(self, lines: list[str]) -> int:
        """Places a program, and tells where it is."""
        address = self.programs.pop(0)
        self.images.append((address, lines))
        return address

    def schedule(self, context: int) -> int:
        """Gives an execution context a scheduling context, and tells its selector."""
        made = self.selectors(1)
        quantum, priority = self.chance.choice((1, 2, 5, 100)), self.chance.choice((1, 1, 1, 2))
        self.root += call(CREATE_SC, made, 0, context, quantum * 256 + priority)
        return made

    def handler(self, cpu: int, entries: dict[int, tuple[int, int]]) -> int:
        """Makes a handler of exits: for each reason where it begins and of which registers it is told. The answer is the event base."""
        handler, events = self.selectors(1), self.selectors(16)
        self.root += call(CREATE_EC, handler, 0, cpu, 0, 0)
        for reason, (entry, told) in entries.items():
            self.root += call(CREATE_PT, events + reason, 0, handler, told, entry)
        return events

    def text(self) -> str:
        """The scenario."""
        chance = self.chance
        lines = [f"cpus {self.cpus}", f"ram {RAM_ORDER}", "consoles 1", f"root 0 0 1 {chance.choice((1, 3, 50))}"]
        lines += self.sources
        for address, program in [(0, self.root), *self.images]:
            lines += [f"image {address} asm", *program, "end"]
        return "\n".join(lines) + "\n"


def begin_at(entry: int) -> list[str]:
    """The answer to a startup: the reply says where the thread or guest begins."""
    return ["lui x5, 0xfffff", "addi x6, x0, 2", "sw x6, 16(x5)", f"li x6, {entry}", "sw x6, 28(x5)", "addi x17, x0, 1", "ecall"]


def give_page(page: int) -> list[str]:
    """The answer to a guest's fetch fault: an item of the reply gives it a page."""
    lines = ["lui x5, 0xfffff", "lui x6, 16", "sw x6, 0(x5)", "sw x0, 16(x5)", f"li x6, {(page << 12) | 29}", "sw x6, 504(x5)"]
    return lines + ["addi x6, x0, 1", "sw x6, 508(x5)", "addi x17, x0, 1", "ecall"]


def show_byte() -> list[str]:
    """The answer to a guest's ecall: its x10 goes to the console, and it goes on behind the ecall."""
    lines = ["lui x5, 0xfffff", f"lui x7, {CONSOLE >> 12}", "lw x6, 72(x5)", "sb x6, 0(x7)", "lw x6, 28(x5)", "addi x6, x6, 4"]
    return lines + ["sw x6, 28(x5)", "addi x6, x0, 2", "sw x6, 16(x5)", "addi x17, x0, 1", "ecall"]


def deed(scenario: Scenario, threads: list[int], schedules: list[int]) -> list[str]:
    """A few instructions of a thread: it counts, races for a word, or calls the hypervisor about what others use too."""
    chance = scenario.chance
    word, semaphore = chance.choice(WORDS), scenario.semaphore()
    match chance.choice(("count", "race", "race", "down", "wait", "wait", "up", "up", "make", "revoke", "ticks", "show", "recall")):
        case "count":
            return ["addi x21, x21, 1"] * chance.randint(1, 6)
        case "race":
            return ["lui x5, 1", f"lw x6, {word - PAGE}(x5)", "addi x6, x6, 1", f"sw x6, {word - PAGE}(x5)"]
        case "down":
            return call(SEMAPHORE, semaphore, 1)
        case "wait":
            return [*call(SEMAPHORE, semaphore, 2, chance.choice((0, 1, 2, 5, 30, 200))), "add x23, x23, x10"]
        case "up":
            return call(SEMAPHORE, semaphore, 0)
        case "make":
            return call(CREATE_SM, chance.choice(CONTESTED), 0, chance.randint(0, 2))
        case "revoke":
            return call(REVOKE, CONTESTED_RANGE, chance.randint(0, 1))
        case "ticks" if schedules:
            return [*call(TICKS, chance.choice(schedules)), "mv x22, x11"]
        case "recall" if threads:
            return call(RECALL, chance.choice(threads))
        case _:
            return [f"lui x8, {CONSOLE >> 12}", "sb x21, 0(x8)"]


def looped(chance: random.Random, body: list[str]) -> list[str]:
    """A loop over these instructions, which ends in a raise or, now and then, goes on for ever."""
    times = chance.choice((1, 3, 20, 300))
    last = "jal x0, again" if chance.random() < 0.15 else "bne x20, x0, again"
    return [f"li x20, {times}", "again:", *body, "addi x20, x20, -1", last, "ebreak"]


def add_thread(scenario: Scenario, cpu: int, threads: list[int], schedules: list[int]) -> None:
    """A thread, with a handler of its startup and perhaps of its recalls."""
    chance = scenario.chance
    body = [line for _ in range(chance.randint(1, 4)) for line in deed(scenario, threads, schedules)]
    begin = scenario.program(begin_at(scenario.program(looped(chance, body))))
    entries = {0: (begin, 0)}
    if chance.random() < 0.5:
        entries[8] = (scenario.program(["lui x5, 0xfffff", "sw x0, 16(x5)", "addi x17, x0, 1", "ecall"]), 0)
    events, thread = scenario.handler(cpu, entries), scenario.selectors(1)
    scenario.root += call(CREATE_EC, thread, 0, 0x100 + cpu, 0, events)
    schedules.append(scenario.schedule(thread))
    threads.append(thread)


def add_guest(scenario: Scenario, cpu: int, threads: list[int], schedules: list[int]) -> None:
    """A guest in a domain and a page of its own, with its monitor."""
    chance, page = scenario.chance, scenario.pages.pop(0)
    work = ["addi x10, x10, 1", "xor x11, x11, x10", "sw x11, 128(x0)"][: chance.randint(1, 3)]
    scenario.images.append((page * PAGE, looped(chance, work + ["ecall"] * chance.randint(0, 1))))
    entries = {0: (scenario.program(begin_at(0)), 0), 2: (scenario.program(give_page(page)), 0), 6: (scenario.program(show_byte()), 6)}
    events, domain, guest = scenario.handler(cpu, entries), scenario.selectors(1), scenario.selectors(1)
    scenario.root += call(CREATE_PD, domain, 0, (events << 12) | (4 << 7) | (4 << 2) | 3)
    scenario.root += call(CREATE_EC, guest, domain, 0x200 + cpu, 0, events)
    schedules.append(scenario.schedule(guest))
    threads.append(guest)


def add_sources(scenario: Scenario) -> None:
    """Some sources, or none: of any processor, and some of them so often that they are late."""
    chance = scenario.chance
    for _ in range(chance.choice((0, 0, 1, 2, MOST_SOURCES))):
        first, period, count = chance.choice((0, 20, 300)), chance.choice((1, 2, 7, 50, 400)), chance.choice((1, 3, 10, 40))
        scenario.sources.append(f"source {chance.randrange(scenario.cpus)} {first} {period} {count}")


def random_scenario(seed: int) -> str:
    """The scenario of a seed."""
    chance = random.Random(seed)
    scenario = Scenario(chance, chance.choice(PROCESSORS))
    add_sources(scenario)
    for semaphore in SEMAPHORES:
        scenario.root += call(CREATE_SM, semaphore, 0, chance.randint(0, 2))
    threads: list[int] = []
    schedules: list[int] = []
    for cpu in range(scenario.cpus):
        for _ in range(chance.randint(1, 2)):
            add = add_guest if chance.random() < 0.3 and len(scenario.pages) > 1 else add_thread
            add(scenario, cpu, threads, schedules)
    scenario.root += looped(chance, deed(scenario, threads, schedules))
    return scenario.text()
