"""The scenarios that are measured, as texts."""

from __future__ import annotations

# How long a block of instructions may be, in bytes; handlers lie behind it.
HANDLERS = 0x800


def settings(cpus: int, pages_order: int, quantum: int, priority: int = 1) -> str:
    """The first lines: processors, RAM, no console, and a root."""
    return f"cpus {cpus}\nram {pages_order}\nconsoles 0\nroot 0 0 {priority} {quantum}\n"


def block(address: int, *lines: str) -> str:
    """A block of instructions at an address."""
    return "\n".join([f"image {address} asm", *lines, "end", ""])


def load(register: int, value: int) -> str:
    """A register gets a value of at most 31 bits."""
    high, low = (value + 0x800) >> 12, (value + 0x800) % 0x1000 - 0x800
    if high == 0:
        return f"addi x{register}, x0, {low}"
    return f"lui x{register}, {high:#x}\naddi x{register}, x{register}, {low}"


def call(number: int, **arguments: int) -> str:
    """A hypercall with its arguments, as x10=.., x11=.."""
    return "\n".join([load(17, number), *(load(int(name[1:]), value) for name, value in arguments.items()), "ecall"])


def jump(quantum: int) -> str:
    """A thread that jumps to itself."""
    return settings(1, 0, quantum) + block(0, "loop: jal x0, loop")


def memory(quantum: int) -> str:
    """A thread that loads, adds, stores and branches."""
    return settings(1, 0, quantum) + block(0, "addi x5, x0, 0x400", "loop: lw x6, 0(x5)", "addi x6, x6, 1", "sw x6, 0(x5)", "bne x6, x0, loop")


def beside(quantum: int) -> str:
    """The same in a domain that had a virtual CPU, which is dead: it has no portal to begin by."""
    vcpu = [call(3, x10=48, x11=0, x12=512, x13=0, x14=64), call(4, x10=49, x12=48, x13=(10 << 8) + 2)]
    loop = ["addi x5, x0, 0x400", "loop: lw x6, 0(x5)", "addi x6, x6, 1", "sw x6, 0(x5)", "bne x6, x0, loop"]
    return settings(1, 0, quantum) + block(0, *vcpu, *loop)


def calls(words: int) -> str:
    """A thread that calls a portal, whose handler replies with as many words; six turns a call."""
    root = [
        call(3, x10=32, x14=48),
        call(5, x10=33, x12=32, x13=0, x14=HANDLERS),
        "lui x5, 0xfffff",
        load(6, words),
        "sw x6, 0(x5)",
        "addi x17, x0, 0",
        "loop: addi x10, x0, 33",
        "addi x9, x9, 1",
        "ecall",
        "jal x0, loop",
    ]
    return settings(1, 0, 10) + block(0, *root) + block(HANDLERS, "addi x17, x0, 1", "ecall")


def guest_on(cpu: int, quantum: int) -> list[str]:
    """What makes a monitor and its guest on a processor."""
    monitor, base, domain, guest = 32 + cpu, 64 + 16 * cpu, 40 + cpu, 48 + cpu
    return [
        call(3, x10=monitor, x11=0, x12=cpu, x14=16),
        call(5, x10=base, x12=monitor, x13=0, x14=HANDLERS),
        call(5, x10=base + 2, x12=monitor, x14=HANDLERS + 64 * (cpu + 1)),
        call(2, x10=domain, x12=(base << 12) + 0x213),
        call(3, x10=guest, x11=domain, x12=512 + cpu, x13=0, x14=base),
        call(4, x10=56 + cpu, x12=guest, x13=(quantum << 8) + 2),
    ]


def page_for(cpu: int) -> str:
    """A monitor's answer to the fetch fault of its guest: page 1 more than the processor's number."""
    return block(
        HANDLERS + 64 * (cpu + 1), "lui x6, 16", "sw x6, 0(x5)", load(6, ((cpu + 1) << 12) + 29), "sw x6, 504(x5)", "addi x6, x0, 1", "sw x6, 508(x5)", "ecall"
    )


def guests(cpus: int, quantum: int) -> str:
    """A guest on each processor, which adds and jumps; the root ends when it has made them."""
    root = [line for cpu in range(cpus) for line in guest_on(cpu, quantum)]
    begin = block(HANDLERS, "lui x5, 0xfffff", "addi x6, x0, 2", "sw x6, 16(x5)", "addi x17, x0, 1", "ecall")
    pages = "".join(page_for(cpu) for cpu in range(cpus))
    codes = "".join(block(0x1000 * (cpu + 1), "loop: addi x5, x5, 1", "jal x0, loop") for cpu in range(cpus))
    return settings(cpus, 3, 10, 3) + block(0, *root, "ebreak") + begin + pages + codes


def crowd(threads: int, counter: int, *body: str) -> str:
    """Threads below the root, begun by one handler, each with the instructions of the body; a semaphore at selector 40 with that counter."""
    root = [
        call(3, x10=32, x14=48),
        call(5, x10=16, x12=32, x13=0, x14=HANDLERS),
        call(6, x10=40, x12=counter),
        load(5, 64),
        load(6, 64 + 2 * threads),
        "next: addi x17, x0, 3",
        "addi x10, x5, 0",
        "addi x12, x0, 256",
        "addi x14, x0, 16",
        "ecall",
        "addi x17, x0, 4",
        "addi x12, x5, 0",
        "addi x10, x5, 1",
        load(13, (10 << 8) + 2),
        "ecall",
        "addi x5, x5, 2",
        "bne x5, x6, next",
        "ebreak",
    ]
    begin = ["lui x5, 0xfffff", "addi x6, x0, 2", "sw x6, 16(x5)", load(6, HANDLERS + 64), "sw x6, 28(x5)", "addi x17, x0, 1", "ecall"]
    return settings(1, 0, 10, 3) + block(0, *root) + block(HANDLERS, *begin) + block(HANDLERS + 64, *body)


def blocked(threads: int) -> str:
    """Threads that wait at one semaphore, one after another, for ever."""
    return crowd(threads, 0, "addi x17, x0, 12", "addi x10, x0, 40", "addi x11, x0, 1", "ecall")


def ring(threads: int) -> str:
    """Threads that take one token in turn: each takes it at a semaphore and gives it back."""
    take = ["loop: addi x10, x0, 40", "addi x11, x0, 1", "ecall"]
    give = ["addi x10, x0, 40", "addi x11, x0, 0", "ecall", "jal x0, loop"]
    return crowd(threads, 1, "addi x17, x0, 12", *take, *give)
