"""Random programs for a guest of vmm: instructions that make exits of all kinds, at addresses that matter to the monitor."""

from __future__ import annotations

from random import Random

RAM, RAM_BYTES = 0x80000000, 1 << 18
UART, CLINT, MTIMECMP, FINISHER = 0x10000000, 0x02000000, 0x02004000, 0x00100000
CSR_PAGE, PATCHES, MESSAGE_WORDS = 0xFFFFF800, 0x7FFF8000, 0xFFFFF000

# What registers x8 to x15 begin with.
PLACES = [UART, CLINT, MTIMECMP, CLINT + 0xBFF8, CSR_PAGE, MESSAGE_WORDS, PATCHES, PATCHES + 0x7000, RAM, RAM + 0x40, RAM + 0x800, RAM + 0x4000,
          RAM + RAM_BYTES - 0x1000, RAM + RAM_BYTES, 0, 0x1000, 0x7FFFFFFF, 0x18000000, UART + 0x1000, 0xFFFFFFFC]
CSRS = [0x300, 0x301, 0x304, 0x305, 0x306, 0x310, 0x320, 0x340, 0x341, 0x342, 0x343, 0x344, 0x3A0, 0x3B0, 0xB00, 0xB80, 0xC00, 0xC01, 0xC81,
        0xF11, 0xF14, 0x106, 0x180, 0x5C0, 0x7C0, 0xFFF]
ATOMICS = [0, 1, 2, 3, 4, 8, 12, 16, 20, 24, 28]
ECALL, EBREAK, MRET, WFI, FENCE_I = 0x73, 0x100073, 0x30200073, 0x10500073, 0x100F
BASES = range(8, 16)


def upper(register: int, word: int) -> list[int]:
    """A register is set to a word, by lui and addi."""
    low = word & 0xFFF
    high = (word + 0x800) >> 12 & 0xFFFFF
    return [high << 12 | register << 7 | 0x37, low << 20 | register << 15 | register << 7 | 0x13]


def csr(number: int, kind: int, target: int, source: int) -> int:
    """csrrw, csrrs and so on, by funct3."""
    return number << 20 | source << 15 | kind << 12 | target << 7 | 0x73


def load(kind: int, target: int, base: int, offset: int) -> int:
    """lb, lh, lw, lbu, lhu, by funct3."""
    return (offset & 0xFFF) << 20 | base << 15 | kind << 12 | target << 7 | 0x03


def store(kind: int, source: int, base: int, offset: int) -> int:
    """sb, sh, sw, by funct3."""
    return (offset >> 5 & 127) << 25 | source << 20 | base << 15 | kind << 12 | (offset & 31) << 7 | 0x23


def branch(kind: int, a: int, b: int, distance: int) -> int:
    """beq and so on, by funct3."""
    return (distance >> 12 & 1) << 31 | (distance >> 5 & 63) << 25 | b << 20 | a << 15 | kind << 12 | (distance >> 1 & 15) << 8 | \
        (distance >> 11 & 1) << 7 | 0x63


def jump(target: int, distance: int) -> int:
    """jal."""
    return (distance >> 20 & 1) << 31 | (distance >> 1 & 1023) << 21 | (distance >> 11 & 1) << 20 | (distance >> 12 & 255) << 12 | target << 7 | 0x6F


def with_number(kind: int, target: int, source: int, number: int) -> int:
    """addi, andi and so on, by funct3."""
    return (number & 0xFFF) << 20 | source << 15 | kind << 12 | target << 7 | 0x13


def add(target: int, a: int, b: int, *, minus: bool = False) -> int:
    """add, or sub."""
    return minus << 30 | b << 20 | a << 15 | target << 7 | 0x33


class Writer:
    """Writes one program."""

    def __init__(self, seed: str) -> None:
        """What is random is by this seed."""
        self.random = Random(seed)
        self.kinds = [self.arithmetic, self.memory, self.memory, self.own_code, self.atomic, self.atomic, self.multiplication, self.control,
                      self.control, self.special, self.flow, self.anything]
        self.weights = [self.random.choice([0, 1, 3]) for _ in self.kinds]
        self.weights[0] += 1
        self.places = [self.random.choice([*PLACES, self.random.getrandbits(32)]) for _ in BASES]
        self.handles, self.interrupts = self.random.random() < 0.95, self.random.random() < 0.8
        self.step = self.random.choice([500, 3000, 5000, 20000, 50000])

    def register(self) -> int:
        """A register that may be overwritten."""
        return self.random.choice([0, 1, 5, 6, 7, 16, 17, 18, 28, 29, 30, 31, self.random.randrange(32)])

    def base(self) -> int:
        """A register with an address, mostly."""
        return self.random.choice([*BASES, self.random.randrange(32)])

    def arithmetic(self) -> list[int]:
        """An instruction of RV32I between registers, or with a number."""
        kind = self.random.randrange(8)
        if self.random.random() < 0.5:
            return [self.random.randrange(32) << 20 | self.base() << 15 | kind << 12 | self.register() << 7 | 0x13]
        return [self.base() << 20 | self.register() << 15 | kind << 12 | self.register() << 7 | 0x33]

    def memory(self) -> list[int]:
        """A load or a store."""
        offset = self.random.choice([0, 0, 1, 2, 3, 4, 5, 8, 12, self.random.randrange(-2048, 2048)])
        if self.random.random() < 0.5:
            return [load(self.random.choice([0, 1, 2, 4, 5]), self.register(), self.base(), offset)]
        return [store(self.random.randrange(3), self.base(), self.base(), offset)]

    def own_code(self) -> list[int]:
        """A store to the program's own code."""
        return [*upper(7, RAM + 4 * self.random.randrange(400)), store(2, self.register(), 7, 0)]

    def atomic(self) -> list[int]:
        """An instruction of A, or none that there is."""
        kind = self.random.choice([*ATOMICS, self.random.randrange(32)])
        funct3 = self.random.choice([2, 2, 2, 2, 2, 2, 2, 3])
        source = 0 if kind == ATOMICS[2] else self.base()
        return [kind << 27 | source << 20 | self.base() << 15 | funct3 << 12 | self.register() << 7 | 0x2F]

    def multiplication(self) -> list[int]:
        """An instruction of M."""
        return [1 << 25 | self.base() << 20 | self.base() << 15 | self.random.randrange(8) << 12 | self.register() << 7 | 0x33]

    def control(self) -> list[int]:
        """An instruction of Zicsr."""
        number = self.random.choice([*CSRS, self.random.randrange(4096)])
        return [csr(number, self.random.randrange(8), self.register(), self.base())]

    def special(self) -> list[int]:
        """What has no operands; to end the machine is rare."""
        if self.random.random() < 0.01:
            return [*upper(7, FINISHER), *upper(6, self.random.choice([0x5555, 0x3333, 0x7777, 1])), store(2, 6, 7, 0)]
        return [self.random.choice([ECALL, EBREAK, MRET, WFI, FENCE_I, 0])]

    def flow(self) -> list[int]:
        """A branch or a jump, mostly not far, and now and then to where a register says."""
        distance = 4 * self.random.choice([-8, -5, -3, -2, 2, 3, 4, 8, 16])
        chosen = self.random.random()
        if chosen < 0.7:
            return [branch(self.random.choice([0, 1, 4, 5, 6, 7]), self.base(), self.register(), distance)]
        if chosen < 0.9:
            return [jump(self.register(), distance)]
        return [self.base() << 15 | self.register() << 7 | 0x67]

    def anything(self) -> list[int]:
        """Any word."""
        return [self.random.getrandbits(32)]

    def handler(self, body: int) -> list[int]:
        """A trap handler. It goes on behind what trapped, or, if that isn't the program, where that begins. An interrupt of the timer sets the
        timer, and goes on somewhere in the program."""
        timer = [*upper(6, CLINT + 0xBFF8), load(2, 5, 6, 0), *upper(7, self.step), add(5, 5, 7), *upper(6, MTIMECMP), store(2, 5, 6, 0),
                 store(2, 0, 6, 4), with_number(7, 5, 5, 0x3FC), *upper(6, body), add(5, 5, 6)]
        behind = [with_number(0, 5, 5, 4)]
        outside = [*upper(6, RAM), add(6, 5, 6, minus=True), 11 << 20 | 6 << 15 | 5 << 12 | 6 << 7 | 0x13, branch(0, 6, 0, 12), *upper(5, body)]
        return [csr(0x341, 2, 5, 0), csr(0x342, 2, 6, 0), branch(5, 6, 0, 4 * len(timer) + 8), *timer, jump(0, 4 * len(behind) + 4), *behind, *outside,
                csr(0x341, 1, 0, 5), MRET]

    def prologue(self, body: int) -> list[int]:
        """Sets registers, and mostly a trap handler and interrupts."""
        words = [word for register, place in zip(BASES, self.places, strict=True) for word in upper(register, place)]
        if self.handles:
            handler = self.handler(body)
            words += [*upper(5, RAM + 4 * (len(words) + 4)), csr(0x305, 1, 0, 5), jump(0, 4 * (len(handler) + 1)), *handler]
        if self.interrupts:
            words += [*upper(5, self.step), *upper(6, MTIMECMP), store(2, 0, 6, 4), store(2, 5, 6, 0), *upper(6, 0x888), csr(0x304, 1, 0, 6),
                      csr(0x300, 6, 0, 8)]
        return words

    def program(self) -> list[int]:
        """The program, which mostly begins anew at its end, with registers as they are then."""
        if self.random.random() < 0.05:
            return [self.random.getrandbits(32) for _ in range(400)]
        begin = len(self.prologue(0))
        words = self.prologue(RAM + 4 * begin)
        while len(words) < begin + 300:
            words += self.random.choices(self.kinds, self.weights)[0]()
        return [*words, jump(0, 4 * (begin - len(words)))]


def program(seed: str) -> list[int]:
    """The words of a random program."""
    return Writer(seed).program()
