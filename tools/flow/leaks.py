"""What goes wrong without each premise: two scenarios, and two runs, with the same side, whose part comes to differ.

`breaks` names the premises that fail at the place where the runs are compared, see `premises`; all others hold there.
"""

from __future__ import annotations

from dataclasses import dataclass

from premises import Allowed
from scenarios import (
    ALL,
    ALL_PAGES,
    COMMON,
    CONSOLE,
    CONTEXT,
    FRAMES,
    LENT,
    LENT_PAGE,
    OWN,
    PORTAL,
    SERVER,
    SHARED,
    SOURCES,
    STARTUP_AT,
    VIEW,
    Fixed,
    SetUp,
    call,
    li,
    message,
    word,
)

COUNTS = ["addi x9, x9, 1"]
RESTS = ["addi x0, x0, 0"]
SPINS = [li(9, 170), "spin: addi x9, x9, -1", "bne x9, x0, spin"]  # longer than until the place where the runs are compared
LATER = [li(9, 340), *SPINS[1:]]  # and longer than the other side spins


GIVES_ON = message([(word("mem", LENT_PAGE, 0, 1), COMMON[1] << 12 | 1)]) + call(0, 422, 0) + ["ebreak"]  # the root gives the page on to the other side
WAITS = call(12, 3 + 1, 1)  # the root waits for the source of the side's processor
ONE_MORE = call(6, 203, 0, 0) + ["ebreak"]  # the root makes a semaphore, when the side is there
UNBOUND, BOUND = (call(number, 203, 0, 409, 0x100) + ["ebreak"] for number in (6, 4))  # a semaphore, or a scheduling context for a thread of the side's, which is never chosen
WHICH, TWICE, PLACES = VIEW[0] + 5, VIEW[0] + 4, (0x200, 0x201)  # pages of the side: that of the word, the one that it gives itself, and where
SWAPS = [li(7, (FRAMES[0] + 5) * 4096), li(6, (PLACES[0] ^ PLACES[1]) << 12), "sw x6, 0(x7)", "ebreak"]  # the root writes the word
WIPES = ["lui x5, 0xfffff", *(f"sw x0, {4 * place}(x5)" for place in range(124, 128)), "addi x6, x0, 0", "addi x9, x0, 0"]


def at(page: int, line: str) -> list[str]:
    return [li(7, page * 4096), line]


class Taker(Fixed):
    """A side whose first handler opens its window for objects, and then for pages."""

    takes = [
        "lui x5, 0xfffff",
        "lw x7, 8(x5)",
        li(6, ALL),
        "beq x7, x0, open",
        li(6, ALL_PAGES),
        "open: sw x6, 8(x5)",
    ]


class Giver(Fixed):
    """A side whose first handler gives a page to who calls it."""

    def __init__(self, side: int, lines: list[str], once: list[str] | None = None) -> None:
        super().__init__(side, lines, once)
        self.gives = message([(word("mem", COMMON[side], 0, 1), LENT_PAGE << 12 | 1)])


class Forgetful(Taker):
    """A side that gives itself a page twice, in the order that a word in its memory says, and wipes that away; its second thread looks one of them up again and again."""

    def __init__(self, side: int, lines: list[str]) -> None:
        gives = message([(word("mem", TWICE, 0, 7), place << 12 | 1) for place in PLACES])
        swaps = [line for place in (127, 125) for line in (f"lw x6, {4 * place}(x5)", "xor x6, x6, x9", f"sw x6, {4 * place}(x5)")]
        super().__init__(side, lines, at(WHICH, "lw x9, 0(x7)") + ["sw x0, 0(x7)"] + gives + swaps + call(0, PORTAL, 0) + WIPES)

    def serves(self) -> list[str]:
        return WIPES + super().serves()

    def program(self, length: int) -> list[str]:
        looks = call(12, SHARED, 1) + ["look:"] + call(8, word("mem", PLACES[0], 0, 0)) + self.told() + call(12, SHARED, 2, 1) + ["j look"]
        return super().program(length) if length > 6 else looks


@dataclass(frozen=True)
class Leak:
    """What is told without a premise; the lines of the side, and those of the other side and of the root in the two scenarios."""

    tells: str
    breaks: frozenset[str]
    side: list[str]
    others: tuple[list[str], list[str]] = (RESTS, RESTS)
    once: tuple[list[str], list[str]] = ([], [])
    root: tuple[list[str], list[str]] = (["ebreak"], ["ebreak"])
    elsewhere: tuple[list[str], list[str]] = (["ebreak"], ["ebreak"])  # of the root, on the other side's processor
    first: int = 1  # the processor on which a side is made first
    handlers: tuple[type[Fixed], type[Fixed]] = (Fixed, Fixed)
    allowed: Allowed = Allowed()  # what the side may do
    creates: bool = False  # whether it holds a right to create
    cpus: tuple[int, int] = (SOURCES, SOURCES)  # how many processors there are
    rings: str = "own"  # whose the semaphore of the source on its processor is
    shared: tuple[int, int] = (0, 0)  # by what the other side has a thread on that processor, where the law allows it

    def pair(self, name: str) -> list[str]:
        """The two scenarios."""
        sources = tuple(f"source {cpu} {400 + 40 * cpu} 30 1000000" for cpu in range(SOURCES))
        set_ups = [SetUp(walled=True, leak=name, sources=sources, creates=self.creates, rings=self.rings, cpus=cpus, shared=pays) for cpus, pays in zip(self.cpus, self.shared)]
        told = [] if self.side is COUNTS else Fixed(0, []).told()
        first, second = self.handlers
        return [set_ups[n].text([first(0, self.side + told), second(1, self.others[n], SPINS + self.once[n])], self.root[n], self.elsewhere[n]) for n in (0, 1)]


LEAKS = {
    "create": Leak(
        "a processor is no capability: by a right to create the other side puts a thread of priority 255 there, which takes every turn",
        frozenset({"IsDivided.creates"}),
        COUNTS,
        once=([], call(3, 100, OWN, 0x101, 0, STARTUP_AT) + call(4, 101, OWN, 100, 0x1FF)),
    ),
    "stranger": Leak(
        "a thread of the other side's is on the processor: it takes turns, or has ended",
        frozenset({"IsDivided.others"}),
        COUNTS,
        others=(RESTS, ["ebreak"]),
    ),
    "away": Leak(
        "a thread of the side's is on the other side's processor: it takes turns there where that one takes none",
        frozenset({"HasHome.contexts"}),
        COUNTS,
        others=(RESTS, ["ebreak"]),
    ),
    "root": Leak(
        "a thread of the root's on the processor isn't idle: it goes on, or ends",
        frozenset({"AreSeparate.rest"}),
        COUNTS,
        root=(["on: j on"], SPINS + ["ebreak"]),
    ),
    "semaphore": Leak(
        "both hold a semaphore: a down tells whether the other side raised it",
        frozenset({"AreSetsApart.objects", "IsGuarded.semaphores"}),
        call(12, SHARED, 2, 3),
        others=(RESTS, call(12, SHARED, 0)),
    ),
    "ticks": Leak(
        "with control of the other side's scheduling context, sc_ctrl tells how many turns that one paid for",
        frozenset({"IsClosed.capabilities", "IsSide.holds"}),
        call(10, CONTEXT),
        others=(RESTS, ["ebreak"]),
        first=2,
    ),
    "frame": Leak(
        "the other side writes to a frame that the side reads",
        frozenset({"IsGuarded.memory"}),
        at(COMMON[0], "lw x10, 0(x7)"),
        others=(at(COMMON[1], "sw x9, 0(x7)"),) * 2,
        once=([], [li(9, 7)]),
    ),
    "ancestor": Leak(
        "a page comes of the other side's: a revoke there takes it away",
        frozenset({"IsGuarded.lines"}),
        at(COMMON[0], "lw x10, 0(x7)"),
        once=([], call(7, word("mem", COMMON[1], 0, 7), 0)),
        first=2,
        handlers=(Taker, Giver),
    ),
    "woken": Leak(
        "an alarm of the processor wakes a thread of the root's there: it goes on, or ends",
        frozenset({"AreSeparate.rest"}),
        COUNTS,
        root=(WAITS + ["on: j on"], WAITS + ["ebreak"]),
    ),
    "alarm": Leak(
        "an alarm of another processor rings at the side's semaphore: a down tells how many turns came there",
        frozenset({"HasHome.rings"}),
        call(12, SHARED, 1),
    ),
    "answers": Leak(
        "a server of both, with a handler for each, answers the side how often the other side called",
        frozenset({"IsClosed.capabilities", "IsSide.holds"}),
        SPINS + ["again:", "lui x5, 0xfffff", "sw x0, 0(x5)"] + call(0, SERVER, 0) + ["lw x10, 16(x5)", li(7, CONSOLE[0] * 4096), "sb x10, 0(x7)", "j again"],
        others=(RESTS, ["lui x5, 0xfffff", "sw x0, 0(x5)"] + call(0, SERVER, 0)),
    ),
    "derived": Leak(
        "the side revokes a page of which others hold a part: how long that takes tells how many parts they made of it",
        frozenset({"DerivesWithin"}),
        SPINS + call(7, word("mem", COMMON[0], 0, 7), 0),
        elsewhere=(["ebreak"], GIVES_ON),
        handlers=(Giver, Taker),
        allowed=Allowed(revokes=True),
    ),
    "order": Leak(
        "of two ranges that the side made of one, and takes back, the newer one goes first: which that is comes of what was in its memory once",
        frozenset({"AreDerivedAlike.order"}),
        call(12, SHARED, 1) + call(7, word("mem", TWICE, 0, 7), 0),
        root=(["ebreak"], SWAPS),
        handlers=(Forgetful, Fixed),
        allowed=Allowed(revokes=True),
    ),
    "creates": Leak(
        "the side creates a semaphore, whose number tells how many objects there are",
        frozenset({"IsAtWork.calls"}),
        SPINS + call(6, 100, OWN, 0),
        elsewhere=(["ebreak"], ONE_MORE),
        creates=True,
    ),
    "numbers": Leak(
        "the side, which creates alone, makes a semaphore, whose number tells how many objects there were",
        frozenset({"AreCreatingAlone.objects"}),
        SPINS + call(6, 100, OWN, 0),
        elsewhere=(["ebreak"], ONE_MORE),
        allowed=Allowed(creates=True),
        creates=True,
        rings="root",
    ),
    "makes": Leak(
        "the other side makes a semaphore, too: the number of the next one that the side makes tells it",
        frozenset({"OthersMakeNothing"}),
        LATER + call(6, 100, OWN, 0),
        once=([], call(6, 100, OWN, 0)),
        allowed=Allowed(creates=True),
        creates=True,
        rings="root",
    ),
    "processors": Leak(
        "there is a processor more: the side may make a thread for it",
        frozenset({"AreCreatingAlone.cpus"}),
        SPINS + call(3, 100, OWN, SOURCES, 0, 0),
        allowed=Allowed(creates=True),
        creates=True,
        rings="root",
        cpus=(SOURCES, SOURCES + 1),
    ),
    "scheduled": Leak(
        "the root has made a scheduling context for a thread of the side's: the side can't make one",
        frozenset({"IsCreatingAlone.schedules"}),
        SPINS + call(4, 100, OWN, LENT, 0x100),
        root=(UNBOUND, BOUND),
        allowed=Allowed(creates=True),
        creates=True,
        rings="root",
    ),
    "clock": Leak(
        "a source of a processor that both share rings at the side's semaphore: a down tells how many turns the other side had",
        frozenset({"IsTimeless.alarms"}),
        call(12, SHARED, 1),
        allowed=Allowed(creates=True),
        shared=(0x103, 0x1403),
    ),
}
