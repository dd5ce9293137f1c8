"""Numbers of the machine that no crate shows as such, as runs show them."""

from __future__ import annotations

import re
from typing import TYPE_CHECKING

if TYPE_CHECKING:
    from programs import Tools

HEAD = "cpus 1\nram 0\nconsoles 0\nroot 0 0 1 10\n"

# A handler of the root's misaligned addresses puts the second qualifications of three exits into x20, four bits each, by its message words:
# those of a store, a load and a jump. At last a thread begins.
MISALIGNED = """image 0 asm
addi x17, x0, 3
addi x10, x0, 32
ecall
addi x17, x0, 5
addi x10, x0, 21
addi x12, x0, 32
addi x13, x0, 3
addi x14, x0, 0x100
ecall
sw x0, 1(x0)
lw x5, 1(x0)
jalr x0, 2(x0)
addi x17, x0, 3
addi x10, x0, 33
addi x12, x0, 0x100
ecall
addi x17, x0, 4
addi x10, x0, 34
addi x12, x0, 33
addi x13, x0, 0x101
ecall
ebreak
end
image 0x100 asm
li x5, ADDRESS
lw x6, 24(x5)
slli x20, x20, 4
add x20, x20, x6
lw x7, 28(x5)
addi x7, x7, 4
sw x7, 28(x5)
addi x6, x0, 2
sw x6, 16(x5)
addi x17, x0, 1
ecall
ebreak
end
"""


def most_sources(tools: Tools) -> int:
    """How many sources a scenario may have, which is looked for up to 64."""
    scenario = tools.scratch / "sources.nova"
    for count in range(1, 65):
        scenario.write_text(HEAD + "source 0 0 1 1\n" * count)
        if tools.call("check", str(scenario))[0]:
            return count - 1
    return 64


def shown(tools: Tools, words_address: int) -> dict[str, int]:
    """The numbers, where the message words lie at this address; without them otherwise."""
    scenario = tools.scratch / "machine.nova"
    scenario.write_text(HEAD + MISALIGNED.replace("ADDRESS", f"{words_address:#x}"))
    _, report = tools.call("solo", str(scenario))
    numbers = {"NOVA_MOST_SOURCES": most_sources(tools)}
    if seen := re.search(r"^ec 3 .* x20=0000(.)(.)(.)(.)", report, re.MULTILINE):
        numbers |= {"NOVA_WORDS_ADDRESS": words_address}
        numbers |= zip(("NOVA_STORE", "NOVA_LOAD", "NOVA_JUMP"), (int(digit, 16) for digit in seen.groups()[1:]), strict=True)
    if seen := re.search(r"^at \d+ 0 5 raise (\d+) 0$", report, re.MULTILINE):
        numbers["NOVA_STARTUP"] = int(seen[1])
    return numbers
