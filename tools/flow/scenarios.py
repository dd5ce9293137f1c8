"""Scenarios of two sides, each on a processor of its own, that a root makes before it dies.

Side 0 is the one that is looked at. `Free` sides do everything: they create, give, revoke. `Worker` sides are at work, and hold no right to
create; `Reviser` sides are so, and revoke what they gave; `Creator` sides (see `creators`) create, too. `Fixed` sides have one program, as the leaks need it.
"""

from __future__ import annotations

import random

VIEW = [0x100, 0x120]  # the first page of each side's memory, in the root's second view and in the side's own domain
FRAMES = [16, 32]  # its first frame; a side has 8, and a console on the page after them
CONSOLE = [0x108, 0x128]
COMMON = [0x10A, 0x12A]  # a page that both sides have where a leak says so
LENT_PAGE = 0x160  # where the root has a page that a side gave it
FAR = 9_000_000  # a moment that no run reaches: each processor has a source, so that it is never idle
SOURCES = 3
OWN, HANDLER, PORTAL, SHARED, LENT, CONTEXT, SERVER, STARTUP_AT = 1, 2, 3, 4, 6, 7, 8, 16  # selectors of a side's domain
SECOND = {"stranger": (1, 1, 0x504), "away": (0, 2, 0x502), "order": (0, 1, 0x504), "scheduled": (0, 1, 0)}  # leaks in which a side has a second thread: the side, the processor, what pays
ALL, ALL_PAGES = (20 << 7) | (31 << 2) | 3, (20 << 7) | (7 << 2) | 1
STARTUP = ["lui x5, 0xfffff", "sw x10, 28(x5)", "addi x6, x0, 2", "sw x6, 16(x5)", "sw x0, 0(x5)", "addi x17, x0, 1", "ecall"]


# a server's handlers: one answers what a word in the server's memory is, and the other counts calls there
ANSWERS = ["lui x5, 0xfffff", "lui x7, 9", "lw x6, 0(x7)", "sw x6, 16(x5)", "addi x6, x0, 1", "sw x6, 0(x5)", "addi x17, x0, 1", "ecall"]
COUNTS_CALLS = ["lui x5, 0xfffff", "lui x7, 9", "lw x6, 0(x7)", "addi x6, x6, 1", "sw x6, 0(x7)", "sw x0, 0(x5)", "addi x17, x0, 1", "ecall"]


def word(kind: str, base: int, order: int, rights: int) -> int:
    return base << 12 | order << 7 | rights << 2 | (1 if kind == "mem" else 3)


def li(register: int, value: int) -> str:
    return f"li x{register}, {value & 0xFFFFFFFF:#x}"


def call(number: int, *arguments: int) -> list[str]:
    return [li(10 + i, argument) for i, argument in enumerate(arguments)] + [li(17, number), "ecall"]


def message(items: list[tuple[int, int]], words: int = 0) -> list[str]:
    """Word 0 and items, each a range word and a second word."""
    lines = ["lui x5, 0xfffff", li(6, len(items) << 16 | words), "sw x6, 0(x5)"]
    for i, (first, second) in enumerate(items):
        lines += [li(6, first), f"sw x6, {4 * (126 - 2 * i)}(x5)", li(6, second), f"sw x6, {4 * (127 - 2 * i)}(x5)"]
    return lines


def image(address: int, lines: list[str]) -> str:
    return f"image {address:#x} asm\n" + "".join(f"        {line}\n" for line in lines) + "end\n"


class Side:
    """The programs of a side: its startup, its portal's handler, and its thread. Its first handler opens its window for objects, and gives nothing."""

    takes = ["lui x5, 0xfffff", li(6, ALL), "sw x6, 8(x5)"]
    gives = ["sw x0, 0(x5)"]

    def __init__(self, side: int, seed: object) -> None:
        self.side, self.rng, self.loops = side, random.Random(f"{side} {seed}"), 0

    def page(self) -> int:
        return VIEW[self.side]

    def told(self) -> list[str]:
        """What the last call answered goes to the console."""
        return [li(7, CONSOLE[self.side] * 4096), "sb x10, 0(x7)", "sb x11, 0(x7)", "srli x6, x11, 12", "sb x6, 0(x7)"]

    def free(self) -> int:
        return self.rng.choice([32, 33, 34, 35, 36, 37, 38, 39, 40, 48, 56, 64])

    def held(self) -> int:
        return self.rng.choice([OWN, HANDLER, PORTAL, 16, self.free(), self.free(), self.free()])

    def range(self) -> int:
        rng = self.rng
        if rng.random() < 0.5:
            return word("obj", rng.choice([OWN, HANDLER, PORTAL, 16, self.free(), self.free()]), 0, 31)
        order = rng.choice([0, 0, 1, 2])
        return word("mem", (self.page() + 4 + rng.randrange(4)) >> order << order, order, rng.choice([7, 3, 1]))

    def memory(self) -> list[str]:
        return [li(7, (self.page() + 4) * 4096 + 4 * self.rng.randrange(1024)), self.rng.choice(["sw x10, 0(x7)", "lw x11, 0(x7)"])] + self.told()

    def step(self, depth: int) -> list[str]:
        raise NotImplementedError

    def serves(self) -> list[str]:
        """What the handler does before it replies."""
        return [line for _ in range(self.rng.randrange(3)) for line in self.step(0)] + message([], self.rng.choice([0, 1, 2]))

    def program(self, length: int) -> list[str]:
        return ["top:"] + [line for _ in range(length) for line in self.step(1)] + [self.rng.choice(["j top", "j top", "j top", "ebreak"])]

    def images(self) -> str:
        frame = FRAMES[self.side] * 4096
        return (
            image(frame, self.takes + self.gives + ["addi x17, x0, 1", "ecall"])
            + image(frame + 0x100, STARTUP)
            + image(frame + 0x200, self.serves() + ["addi x17, x0, 1", "ecall"])
            + image(frame + 0x1000, self.program(24))
            + image(frame + 0x2000, self.program(6))
            + image(frame + 0x3000, self.program(6))
        )


class Free(Side):
    """A side that tries everything."""

    def creates(self, kind: int) -> list[str]:
        rng = self.rng
        if kind == 0:
            return call(6, self.free(), OWN, rng.choice([0, 0, 1, 2, 0xFFFFFFFF]))
        if kind == 1:
            return call(3, self.free(), OWN, rng.choice([0, 1, 2]) * 256 + 1 + self.side, 0, 48)
        if kind == 2:
            places = [48, 54, 55, 51, self.free()]
            return call(5, rng.choice(places), OWN, rng.choice([HANDLER, self.free()]), rng.randrange(16), self.page() * 4096 + rng.choice([0x100, 0x200]))
        if kind == 3:
            return call(4, self.free(), OWN, self.free(), rng.choice([1, 2, 3, 7]) * 256 + rng.randrange(6))
        return call(2, self.free(), OWN, rng.choice([0, self.range()]))

    def calls(self) -> list[str]:
        rng = self.rng
        items = [(self.range(), rng.choice([32, 33, 36, 40, 60]) << 12 | rng.randrange(2)) for _ in range(rng.choice([0, 0, 1, 2]))]
        window = ALL if rng.random() < 0.7 else word("mem", 0x400, 10, 7)
        return (
            ["lui x5, 0xfffff", li(6, window), "sw x6, 8(x5)", "sw x6, 4(x5)"]
            + message(items, rng.choice([0, 1, 3]))
            + call(0, rng.choice([PORTAL, PORTAL, self.free()]), rng.randrange(2))
        )

    def repeats(self) -> list[str]:
        body = [line for _ in range(2) for line in self.step(0)]
        self.loops += 1
        n = self.loops
        return [li(20, self.rng.choice([2, 3, 5])), f"again{n}:"] + body + ["addi x20, x20, -1", f"beq x20, x0, done{n}", f"j again{n}", f"done{n}:"]

    def step(self, depth: int) -> list[str]:
        rng, told = self.rng, self.told()
        kind = rng.randrange(17)
        if kind < 5:
            return self.creates(kind) + told
        if kind == 5 and rng.random() < 0.5:
            return call(7, self.range(), rng.choice([0, 0, 0, 1])) + told
        if kind in (6, 7):
            return call(8, self.range()) + told
        if kind == 8 and rng.random() < 0.3:
            return call(9, self.held()) + told
        if kind == 9:
            return call(10, self.held()) + told
        if kind == 10:
            return call(11, self.held(), self.page() * 4096 + rng.choice([0x2000, 0x3000]))
        if kind == 11:
            return call(12, self.held(), 0) + told
        if kind == 12:
            return call(12, self.held(), 2, rng.choice([0, 1, 3, 9, 20])) + told
        if kind in (13, 14):
            return self.calls() + told
        if kind == 15:
            return self.memory()
        if kind == 16 and depth:
            return self.repeats()
        return [f"addi x9, x9, {rng.randrange(9)}"]

    def serves(self) -> list[str]:
        rng = self.rng
        steps = [line for _ in range(rng.randrange(3)) for line in self.step(0)]
        return steps + message([(self.range(), rng.choice([44, 45, 46]) << 12 | 1) for _ in range(rng.randrange(2))], rng.choice([0, 1, 2]))


class Attacker(Free):
    """A side that tries everything, and more often to come to the other's processor, though it holds no right to create, and to use the semaphore that it has."""

    def step(self, depth: int) -> list[str]:
        if self.rng.random() < 0.1:
            return call(12, SHARED, self.rng.choice([0, 1, 2]), self.rng.choice([0, 1, 9, 50])) + self.told()
        if self.rng.random() < 0.15:
            thread = call(3, self.free(), OWN, 0x100 + self.rng.choice([1, 2]), 0, 48)
            return thread + call(4, self.free(), OWN, self.free(), 0x1FF) + self.told()
        return super().step(depth)


class Worker(Side):
    """A side at work: it gives to itself, but creates and revokes nothing."""

    def items(self, count: int) -> list[tuple[int, int]]:
        return [(self.range(), self.rng.randrange(32, 1000) << 12 | self.rng.choice([0, 1, 1])) for _ in range(count)]

    def serves(self) -> list[str]:
        return message(self.items(self.rng.randrange(2)), self.rng.choice([0, 1, 2]))

    def step(self, depth: int) -> list[str]:
        rng, told = self.rng, self.told()
        kind = rng.randrange(9)
        if kind == 0:
            return call(8, self.range()) + told
        if kind == 1:
            return call(9, self.held()) + told
        if kind == 2:
            return call(10, rng.choice([self.held(), CONTEXT])) + told
        if kind == 3:
            return call(11, self.held(), self.page() * 4096 + rng.choice([0x2000, 0x3000]))
        if kind == 4:
            return call(12, SHARED, 0) + told
        if kind == 5:
            return call(12, SHARED, rng.choice([1, 2]), rng.choice([0, 1, 3, 9, 20, 50])) + told
        if kind == 6:
            window = ALL if rng.random() < 0.7 else ALL_PAGES
            opens = ["lui x5, 0xfffff", li(6, window), "sw x6, 8(x5)", "sw x6, 4(x5)"]
            return opens + message(self.items(rng.choice([0, 1, 2, 3])), rng.choice([0, 1, 3])) + call(0, rng.choice([PORTAL, PORTAL, self.free()]), rng.randrange(2)) + told
        if kind == 7:
            return self.memory()
        return [f"addi x9, x9, {rng.randrange(9)}"]


class Reviser(Worker):
    """A side at work that gives to itself again and again, and revokes what it gave."""

    def place(self, objects: bool) -> int:
        """A selector or page that it has at first, or comes to have."""
        if objects:
            return self.rng.choice([HANDLER, PORTAL, SHARED, CONTEXT, *range(32, 44)])
        return self.rng.choice([self.page() + n for n in range(4, 8)] + [*range(0x200, 0x20C)])

    def item(self, objects: bool) -> tuple[int, int]:
        rng = self.rng
        gives = rng.choice([0, 1, 1, 1, 1])  # rather than translates
        if objects:
            return word("obj", self.place(True), 0, 31), rng.randrange(32, 44) << 12 | gives
        order = rng.choice([0, 0, 0, 1, 2])
        return word("mem", self.place(False) >> order << order, order, 7), rng.randrange(0x200, 0x20C) << 12 | gives

    def revoke(self) -> list[str]:
        """Of what it had at first it takes away what it gave; else maybe the range itself, too."""
        rng, order = self.rng, self.rng.choice([0, 1, 2, 3])
        kind = rng.randrange(4)
        if kind == 0:
            return call(7, word("obj", rng.choice([HANDLER, SHARED, CONTEXT, PORTAL]), 0, 31), 0)
        if kind == 1:
            return call(7, word("obj", rng.randrange(32, 44) >> order << order, order, 31), rng.choice([0, 1]))
        if kind == 2:
            return call(7, word("mem", (self.page() + rng.randrange(4, 8)) >> order << order, order, 7), 0)
        return call(7, word("mem", rng.randrange(0x200, 0x20C) >> order << order, order, 7), rng.choice([0, 1]))

    def step(self, depth: int) -> list[str]:
        rng = self.rng
        kind = rng.random()
        if kind < 0.2:
            return self.revoke() + self.told()
        if kind < 0.85:
            opens = ["lui x5, 0xfffff", li(6, ALL if rng.random() < 0.4 else ALL_PAGES), "sw x6, 8(x5)", "sw x6, 4(x5)"]
            return opens + message([self.item(True) for _ in range(rng.choice([0, 1, 2]))], 0) + call(0, PORTAL, 0) + self.told()
        return super().step(depth)

    def serves(self) -> list[str]:
        rng = self.rng
        before = self.revoke() if rng.random() < 0.3 else []
        return before + message([self.item(rng.random() < 0.4) for _ in range(rng.randrange(1, 5))], rng.choice([0, 1, 2]))


class Fixed(Side):
    """A side whose threads do these lines again and again, after others once."""

    def __init__(self, side: int, lines: list[str], once: list[str] | None = None) -> None:
        super().__init__(side, 0)
        self.lines, self.once = lines, once or []

    def step(self, depth: int) -> list[str]:
        return []

    def serves(self) -> list[str]:
        return message([])

    def program(self, length: int) -> list[str]:
        return self.once + ["top:"] + self.lines + ["j top"]


class SetUp:
    """What the root makes. `walled`: no right to create is left with the sides, which hold the semaphore of their processor's source and their scheduling context; but with side 0 where it `creates`.

    `rings`: whose the semaphore of the source on side 0's processor is: its own, the other side's, or the root's. `shared`: by what side 1 has a second thread on side 0's processor.
    """

    def __init__(self, walled: bool = False, leak: str = "", sources: tuple[str, ...] = (), rings: str = "own", creates: bool = False, cpus: int = SOURCES, shared: int = 0) -> None:
        self.walled, self.leak, self.rings = walled, leak, "root" if leak == "woken" else rings
        self.creates, self.cpus = creates, cpus
        self.second = (1, 1, shared) if shared else SECOND.get(leak, (None, 0, 0))
        self.sources = sources or tuple(f"source {cpu} {FAR} 1 1" for cpu in range(SOURCES))

    def semaphore(self, side: int) -> int:
        """The root's selector of the semaphore that a side gets."""
        if self.leak == "semaphore" or self.leak == "alarm" and side == 1 or self.rings != "own" and side == 0:
            return 202
        return 3 + 2 if self.leak == "alarm" else 3 + 1 if self.rings == "other" else 3 + 1 + side

    def items(self, side: int) -> list[tuple[int, int]]:
        s = 400 + 20 * side
        free = not self.walled or self.creates and side == 0
        items = [(word("obj", s + 1, 0, 7 if free else 1), HANDLER), (word("obj", s + 4, 0, 7), PORTAL), (word("obj", s + 3, 0, 4), STARTUP_AT)]
        if free or self.leak in ("create", "makes") and side == 1:
            items.append((word("obj", s, 0, 1), OWN))
        if self.walled:
            items += [(word("obj", self.semaphore(side), 0, 3), SHARED), (word("obj", s + 6, 0, 1), CONTEXT)]
        if self.leak == "ticks":
            items = items[:-1] + ([(word("obj", 426, 0, 1), CONTEXT)] if side == 0 else [])
        if side == self.second[0]:
            items.append((word("obj", s + 8, 0, 4), STARTUP_AT + 1))
        if self.leak == "scheduled" and side == 0:
            items.append((word("obj", s + 9, 0, 7), LENT))
        if self.leak == "answers":
            items.append((word("obj", 211 + 2 * side, 0, 2), SERVER))
        return items

    def maker(self, side: int, last: list[str]) -> list[str]:
        """What the root's own thread on the side's processor does: it makes the side's domain, its handler and its thread."""
        s, cpu, at = 400 + 20 * side, 1 + side, VIEW[side] * 4096
        lines = call(2, s, 0, word("mem", VIEW[side], 4, 7)) + call(3, s + 1, s, cpu, 0, 0) + call(5, s + 2, 0, s + 1, 0, at)
        lines += ["lui x5, 0xfffff", "sw x0, 0(x5)"]
        if (self.leak, side) in (("ancestor", 1), ("derived", 0)):  # which gives the root a page of its own
            lines += [li(6, word("mem", LENT_PAGE, 0, 1)), "sw x6, 8(x5)"]
        lines += call(0, s + 2, 0)
        lines += call(5, s + 3, 0, s + 1, 0, at + 0x100) + call(11, s + 3, at + 0x1000) + call(5, s + 4, 0, s + 1, 0, at + 0x200)
        lines += call(3, s + 5, s, 0x100 + cpu, 0, STARTUP_AT) + call(4, s + 6, 0, s + 5, 0x503)
        whose, where, pays = self.second
        if side == whose:
            lines += call(3, s + 7, s, where, 0, 0) + call(5, s + 8, 0, s + 7, 0, at + 0x100) + call(11, s + 8, at + 0x3000)
            lines += call(3, s + 9, s, 0x100 + where, 0, STARTUP_AT + 1) + (call(4, s + 10, 0, s + 9, pays) if pays else call(6, s + 10, 0, 0))
        lines += message([(range_word, place << 12 | 1) for range_word, place in self.items(side)]) + call(0, s + 2, 0)
        if self.leak == "ancestor" and side == 0:  # and the root gives it to the other side
            lines += message([(word("mem", LENT_PAGE, 0, 1), COMMON[0] << 12 | 1)]) + call(0, s + 2, 0)
        return lines + last

    def text(self, sides: list[Side], last: list[str] | None = None, other: list[str] | None = None) -> str:
        """The scenario; `last` and `other` are what the makers on the processors of sides 0 and 1 do in the end."""
        view = [(word("mem", 16, 3, 7), 0), (word("mem", 64, 0, 3), 8), (word("mem", 32, 3, 7), 0x20), (word("mem", 65, 0, 3), 0x28)]
        if self.leak == "frame":
            view += [(word("mem", 48, 0, 3), 0x0A), (word("mem", 48, 0, 3), 0x2A)]
        if self.leak in ("ancestor", "derived"):
            view.append((word("mem", 48, 0, 1), 0x2A if self.leak == "ancestor" else 0x0A))
        root = call(3, 200, 0, 0) + call(5, 201, 0, 200, 0, 0x4000)
        root += ["lui x5, 0xfffff", li(6, word("mem", 0x100, 6, 7)), "sw x6, 8(x5)", "sw x0, 0(x5)"] + call(0, 201, 0) + call(6, 202, 0, 0)
        if self.leak == "answers":  # the root's domain serves both sides, by a handler on the processor of each
            for side in (0, 1):
                root += call(3, 210 + 2 * side, 0, 1 + side, 0, 0) + call(5, 211 + 2 * side, 0, 210 + 2 * side, 0, 0x8000 + 0x100 * side)
        for side in (0, 1):  # a thread of the root's on each side's processor, which makes the side there
            s, cpu = 300 + 10 * side, 1 + side
            root += call(3, s, 0, cpu, 0, 0) + call(5, 320 + 16 * side, 0, s, 0, 0x5000) + call(11, 320 + 16 * side, 0x6000 + 0x1000 * side)
            root += call(3, s + 1, 0, 0x100 + cpu, 0, 320 + 16 * side) + call(4, s + 2, 0, s + 1, 0x1C8)
        return (
            f"cpus {self.cpus}\nram 6\nconsoles 2\nroot 0 0x2000 200 50\n"
            + "".join(f"{line}\n" for line in self.sources)
            + image(0, root + ["ebreak"])
            + image(0x4000, message([(w, place << 12 | 1) for w, place in view]) + ["addi x17, x0, 1", "ecall"])
            + image(0x5000, STARTUP)
            + image(0x6000, self.maker(0, last or ["ebreak"]))
            + image(0x7000, self.maker(1, other or ["ebreak"]))
            + (image(0x8000, ANSWERS) + image(0x8100, COUNTS_CALLS) if self.leak == "answers" else "")
            + "".join(side.images() for side in sides)
        )
