"""A side that creates alone, beside those that `scenarios` has."""

from __future__ import annotations

from scenarios import CONTEXT, FRAMES, HANDLER, OWN, SHARED, Reviser, call, image, li, message, word

SPINS = [li(9, 110), "spin: addi x9, x9, -1", "bne x9, x0, spin"]  # until the place where the runs are compared: it creates nothing before
EVENTS, QUIET, DOMAIN, FARTHER = 48, 60, 62, 70  # where portals for exits, quiet portals, domains, and threads of other processors are made
ENTRIES = {"startup": 0x100, "serves": 0x200, "quiet": 0xC00}


class Creator(Reviser):
    """A side that creates, also in domains that it made, and gives and revokes as a reviser, without deadlines.

    The threads that it makes create, raise and lower semaphores, call, look up and recall; they neither give, also no first range, nor revoke, so that none gives amid a revoke of another's.
    """

    def __init__(self, side: int, seed: object) -> None:
        super().__init__(side, seed)
        self.next = 96

    def owner(self) -> int:
        return self.rng.choice([OWN] * 7 + [DOMAIN, DOMAIN + 1])

    def fresh(self) -> int:
        """A selector at which something is to be made: it is free at first, or may be."""
        if self.rng.random() < 0.5:
            return self.rng.randrange(32, 44)
        self.next += 1
        return self.next

    def made(self) -> int:
        """One at which something may have been made."""
        return self.rng.choice([*range(32, 44), EVENTS, QUIET, *range(96, self.next + 1)])

    def first(self) -> int:
        """What a new domain is given first: portals for its threads' exits, what was made, pages, or nothing."""
        rng = self.rng
        return rng.choice([0, word("obj", EVENTS, 3, 31), word("obj", rng.choice([32, 40, 56]), 3, 31), word("mem", self.page(), 3, 7), self.range()])

    def entry(self, name: str) -> int:
        return self.page() * 4096 + ENTRIES[name]

    def begins(self) -> int:
        """Where a thread that it makes begins."""
        return self.page() * 4096 + self.rng.choice([0x2000, 0x3000])

    def thread(self, at: int, pays: int, owner: int = OWN) -> list[str]:
        """A thread or a virtual CPU of its own processor, with what schedules it, which a portal at its first event has begin, if its domain has that."""
        rng = self.rng
        lines = call(5, EVENTS, OWN, HANDLER, rng.choice([2, 2, 3, 15]), self.entry("startup")) + call(11, EVENTS, self.begins())
        lines += call(3, at, owner, rng.choice([0x100, 0x100, 0x100, 0x200]) + 1 + self.side, self.page() * 4096, rng.choice([EVENTS] * 4 + [self.made()]))
        return lines + call(4, pays, OWN, at, rng.choice([1, 2, 3, 7]) * 256 + rng.choice([1, 2, 3, 3, 3, 3, 4]))

    def creates(self, main: bool) -> list[str]:
        rng, kind = self.rng, self.rng.randrange(8)
        if kind == 0:
            return call(6, self.fresh(), self.owner(), rng.choice([0, 0, 1, 2, 0xFFFFFFFF]))
        if kind == 1:  # a local thread of any processor
            return call(3, self.fresh(), self.owner(), rng.choice([0, 1, 1, 1, 2, 3, 255]), rng.randrange(9) * 256, rng.choice([EVENTS, self.made()]))
        if kind == 2:  # one of another, which never has turns
            return call(3, FARTHER + rng.randrange(4), self.owner(), rng.choice([0x100, 0x102, 0x200, 0x202]), 0, EVENTS)
        if kind == 3:
            serves = main and rng.random() < 0.7
            at = self.fresh() if serves else QUIET + rng.randrange(2)
            return call(5, at, self.owner(), rng.choice([HANDLER, HANDLER, self.made()]), rng.randrange(17), self.entry("serves" if serves else "quiet"))
        if kind == 4:
            at = EVENTS + rng.choice([0, 3, 6, 7])
            return call(5, at, OWN, rng.choice([HANDLER, HANDLER, self.made()]), rng.randrange(16), self.entry(rng.choice(["startup", "startup", "quiet"])))
        if kind == 5:
            return call(4, self.fresh(), self.owner(), self.made(), rng.choice([0, 1, 2, 3, 7]) * 256 + rng.randrange(5))
        if kind == 6:
            return call(2, rng.choice([DOMAIN, DOMAIN + 1, self.fresh()]), self.owner(), self.first() if main else 0)
        return self.thread(self.fresh(), self.fresh(), self.owner())

    def quiet_step(self, main: bool) -> list[str]:
        """What any thread does: nothing is given or taken away."""
        rng, kind = self.rng, self.rng.randrange(9)
        if kind < 3:
            return self.creates(main)
        if kind == 3:
            return call(8, self.range())
        if kind == 4:
            return call(9, rng.choice([self.made(), FARTHER])) if rng.random() < 0.3 else call(10, rng.choice([self.made(), CONTEXT]))
        if kind == 5:
            return call(11, rng.choice([self.made(), QUIET, EVENTS]), self.begins())
        if kind == 6:
            return call(12, rng.choice([SHARED, self.made()]), 0 if main else rng.randrange(2))
        if kind == 7:
            return ["lui x5, 0xfffff", "sw x0, 0(x5)"] + call(0, QUIET + rng.randrange(2), rng.randrange(2))
        return self.memory()

    def gives_or_revokes(self) -> list[str]:
        """Without a down: no source rings at its semaphore, and it has no deadline."""
        while True:
            lines = super().step(0)
            if li(17, 12) not in lines:
                return lines

    def step(self, depth: int) -> list[str]:
        rng, kind = self.rng, self.rng.random()
        if kind < 0.3:
            return self.creates(True) + self.told()
        if kind < 0.5:
            return self.quiet_step(True) + self.told()
        if kind < 0.6:  # through a portal that it made
            return message([self.item(True) for _ in range(rng.choice([0, 1]))], 0) + call(0, self.made(), rng.randrange(2)) + self.told()
        if kind < 0.7:
            order = rng.choice([0, 1, 2, 3])
            return call(7, word("obj", self.made() >> order << order, order, 31), rng.choice([0, 1])) + self.told()
        return self.gives_or_revokes()

    def program(self, length: int) -> list[str]:
        if length < 24:
            return ["top:"] + [line for _ in range(length) for line in self.quiet_step(False) + self.told()] + [self.rng.choice(["j top", "j top", "ebreak"])]
        before = [line for _ in range(4) for line in self.gives_or_revokes()]
        return before + SPINS + call(2, DOMAIN, OWN, self.first()) + self.thread(40, 41) + self.thread(42, 43) + super().program(16)

    def images(self) -> str:
        quiet = message([], self.rng.choice([0, 1, 2])) + ["addi x17, x0, 1", "ecall"]
        return super().images() + image(FRAMES[self.side] * 4096 + ENTRIES["quiet"], quiet)
