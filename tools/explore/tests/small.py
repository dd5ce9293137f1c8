"""Small random scenarios of two processors, and an interpreter of their programs that goes along each order of turns by itself.

The interpreter knows what an instruction is, what semaphores do and that a program ends in two turns; of the hypervisor it knows nothing else. The turns by
which the root makes the thread, and those of its startup, change nothing that the programs see: all orders of the turns behind them are gone along.
"""

from __future__ import annotations

import random
from collections.abc import Iterator
from dataclasses import dataclass, replace

# The words of memory that both programs use, and semaphores, by their selectors, which are objects 3 and 4.
WORDS = (0x400, 0x404)
SEMAPHORES = (32, 33)
# The objects that come behind: the handler of the startup, and the thread.
ROOT, HANDLER, THREAD = 1, 5, 7
# How many turns each program has at most, with the two of its end.
MOST_ROOT, MOST_THREAD = 10, 9

# An instruction: its name, and its numbers.
Instruction = tuple[str, int, int]


def text_of(instruction: Instruction) -> str:
    """An instruction as a line of assembler."""
    name, a, b = instruction
    match name:
        case "lw" | "sw":
            return f"{name} x{a}, {b:#x}(x0)"
        case "add":
            return f"addi x{a}, x{a}, {b}"
        case "set":
            return f"addi x{a}, x0, {b}"
        case "skip":
            return f"beq x{a}, x0, 8"
        case "show":
            return f"sb x{a}, 0(x{b})"
        case _:
            return name


def call(semaphore: int, operation: int) -> list[Instruction]:
    """An up, 0, or a down, 1, of a semaphore; x17 has the number of the call."""
    return [("set", 10, semaphore), ("set", 11, operation), ("ecall", 0, 0)]


def deed(chance: random.Random) -> list[Instruction]:
    """A few instructions: they race for a word, look whether one is set, show one, or use a semaphore."""
    word = chance.choice((*WORDS[:1] * 3, *WORDS[1:]))
    match chance.choice(("race", "race", "look", "store", "show", "show", "up", "down")):
        case "race":
            return [("lw", 6, word), ("add", 6, chance.randint(1, 3)), ("sw", 6, word)]
        case "look":
            return [("lw", 7, word), ("skip", 7, 0), ("sw", 6, chance.choice(WORDS))]
        case "store":
            return [("sw", 6, word)]
        case "show":
            return [("lw", 6, word), ("show", 6, 8)]
        case "up":
            return call(chance.choice(SEMAPHORES), 0)
        case _:
            return call(chance.choice(SEMAPHORES), 1)


def program(chance: random.Random, most: int) -> list[Instruction]:
    """A program of so many turns at most."""
    found: list[Instruction] = []
    while len(found) < most - 4:
        more = deed(chance)
        if len(found) + len(more) > most - 2:
            break
        found += more
    return [*found, ("ebreak", 0, 0)]


@dataclass(frozen=True, slots=True)
class Scenario:
    """Two programs, how the semaphores begin, and the quanta."""

    programs: tuple[tuple[Instruction, ...], tuple[Instruction, ...]]
    counts: tuple[int, int]
    quanta: tuple[int, int]

    @staticmethod
    def of(seed: int) -> Scenario:
        """The scenario of a seed."""
        chance = random.Random(seed)
        programs = tuple(program(chance, MOST_ROOT)), tuple(program(chance, MOST_THREAD))
        return Scenario(programs, (chance.randint(0, 2), chance.randint(0, 1)), (chance.choice((1, 3, 1000)), chance.choice((1, 4, 1000))))

    def text(self) -> str:
        """The scenario as a text. x8 and x17 are set before the programs begin, x6 is their first."""
        lines = ["cpus 2", "ram 0", "consoles 1", f"root 0 0 1 {self.quanta[0]}", "image 0 asm"]
        for selector, count in zip(SEMAPHORES, self.counts, strict=True):
            lines += ["addi x17, x0, 6", f"addi x10, x0, {selector}", f"addi x12, x0, {count}", "ecall"]
        lines += ["addi x17, x0, 3", "addi x10, x0, 34", "addi x12, x0, 1", "ecall"]
        lines += ["addi x17, x0, 5", "addi x10, x0, 48", "addi x12, x0, 34", "addi x14, x0, 0x200", "ecall"]
        lines += ["addi x17, x0, 3", "addi x10, x0, 35", "addi x12, x0, 0x101", "addi x14, x0, 48", "ecall"]
        lines += ["addi x17, x0, 4", "addi x10, x0, 36", "addi x12, x0, 35", f"li x13, {self.quanta[1] << 8 | 1}", "lui x8, 1", "addi x6, x0, 1", "ecall"]
        lines += ["addi x17, x0, 12", *map(text_of, self.programs[0]), "end"]
        lines += ["image 0x200 asm", "lui x5, 0xfffff", "addi x6, x0, 2", "sw x6, 16(x5)", "addi x6, x0, 0x240", "sw x6, 28(x5)"]
        lines += ["addi x17, x0, 1", "ecall", "end"]
        lines += ["image 0x240 asm", "addi x17, x0, 12", "lui x8, 1", "addi x6, x0, 2", *map(text_of, self.programs[1]), "end"]
        return "\n".join(lines) + "\n"


@dataclass(frozen=True, slots=True)
class Thread:
    """A thread: the next of its instructions, the registers that are used, and what it is: ready, blocked, ending or dead."""

    place: int = 0
    registers: tuple[int, ...] = (0,) * 12
    state: str = "ready"

    def at(self, place: int) -> Thread:
        """It goes on there."""
        return replace(self, place=place)

    def having(self, register: int, value: int) -> Thread:
        """A register has a value, and it goes on with the next instruction."""
        registers = list(self.registers)
        registers[register] = value % 2**32
        return replace(self, place=self.place + 1, registers=tuple(registers))


@dataclass(frozen=True, slots=True)
class Machine:
    """Two threads, words, semaphores with those that wait, and what the console shows."""

    threads: tuple[Thread, Thread]
    words: tuple[int, int]
    counts: tuple[int, int]
    queues: tuple[tuple[int, ...], tuple[int, ...]] = ((), ())
    shown: bytes = b""

    @staticmethod
    def of(scenario: Scenario) -> Machine:
        """The machine where both programs begin."""
        first, second = Thread().having(6, 1).at(0), Thread().having(6, 2).at(0)
        return Machine((first, second), (0, 0), scenario.counts)

    def with_thread(self, cpu: int, thread: Thread) -> Machine:
        """Another thread in place of that of a processor."""
        return replace(self, threads=(thread, self.threads[1]) if cpu == 0 else (self.threads[0], thread))

    def is_idle(self, cpu: int) -> bool:
        """Whether a processor has no turn."""
        return self.threads[cpu].state in ("blocked", "dead")

    def turn(self, cpu: int, instruction: Instruction) -> Machine:
        """A turn of a processor, which isn't idle, with its next instruction."""
        thread = self.threads[cpu]
        if thread.state == "ending":
            return self.with_thread(cpu, replace(thread, state="dead"))
        name, a, b = instruction
        value = thread.registers[a]
        match name:
            case "lw":
                return self.with_thread(cpu, thread.having(a, self.words[WORDS.index(b)]))
            case "sw":
                words = tuple(value if word == b else kept for word, kept in zip(WORDS, self.words, strict=True))
                return replace(self.with_thread(cpu, thread.at(thread.place + 1)), words=words)
            case "add":
                return self.with_thread(cpu, thread.having(a, value + b))
            case "set":
                return self.with_thread(cpu, thread.having(a, b))
            case "skip":
                return self.with_thread(cpu, thread.at(thread.place + (2 if value == 0 else 1)))
            case "show":
                return replace(self.with_thread(cpu, thread.at(thread.place + 1)), shown=self.shown + bytes([value % 256]))
            case "ecall":
                return self.called(cpu, SEMAPHORES.index(thread.registers[10]), thread.registers[11])
            case _:
                return self.with_thread(cpu, replace(thread, state="ending"))

    def called(self, cpu: int, semaphore: int, operation: int) -> Machine:
        """An up or a down of a semaphore by the thread of a processor."""
        thread = self.threads[cpu].at(self.threads[cpu].place + 1)
        counts, queues = list(self.counts), list(self.queues)
        made = self.with_thread(cpu, thread)
        if operation == 0 and queues[semaphore]:
            woken, *rest = queues[semaphore]
            queues[semaphore] = tuple(rest)
            made = made.with_thread(woken, replace(made.threads[woken], state="ready"))
        elif operation == 0:
            counts[semaphore] += 1
        elif counts[semaphore] > 0:
            counts[semaphore] -= 1
        else:
            queues[semaphore] = (*queues[semaphore], cpu)
            made = made.with_thread(cpu, replace(thread, state="blocked"))
        return replace(made, counts=tuple(counts), queues=tuple(queues))

    def told(self, cpu: int) -> str:
        """The state of a thread, with the semaphore at which it waits."""
        return " ".join([self.threads[cpu].state, *(str(3 + i) for i in range(2) if cpu in self.queues[i])])

    def outcome(self) -> tuple[str, ...]:
        """What the explorer tells of it, where neither processor has a turn."""
        first, second = (self.told(cpu) for cpu in range(2))
        contexts = f"ec {ROOT} {first}", f"ec {HANDLER} parked", f"ec {THREAD} {second}"
        semaphores = (f"sm {3 + i} {self.counts[i]} {len(self.queues[i])}" for i in range(2))
        return (*contexts, *semaphores, f"console 0 {self.shown.hex() or '-'}")


def ends(scenario: Scenario) -> Iterator[tuple[str, ...]]:
    """The outcome of each order, one after another. None is left out, and no two orders are taken for one."""
    beginnings = [Machine.of(scenario)]
    while beginnings:
        machine = beginnings.pop()
        able = [cpu for cpu in range(2) if not machine.is_idle(cpu)]
        if not able:
            yield machine.outcome()
        for cpu in able:
            beginnings.append(machine.turn(cpu, scenario.programs[cpu][machine.threads[cpu].place]))
