"""What build.sh and elf refuse, with the file's name and what to do, and with nothing written."""

from __future__ import annotations

import subprocess
from typing import TYPE_CHECKING

if TYPE_CHECKING:
    from pathlib import Path

    from outcome import Outcome
    from programs import Tools

MAIN = "int data = 1; int main(void) { return data; }\n"

# A linker script that runs the data at another address than it loads them at, as for a program in read-only memory.
ELSEWHERE = """SECTIONS { .text 0x1000 : { *(.text*) } .data 0x3000 : AT(0x2000) { *(.data*) *(.sdata*) } }
"""

# The words for build.sh, in a folder with these files, and what its line has to have.
WRONG_WORDS = [
    (["missing.c", "out.nova"], ["missing.c: there is no such file", "name a source"]),
    (["folder", "out.nova"], ["folder: is a directory", "name the files in it"]),
    (["notes.txt", "out.nova"], ["notes.txt: is neither C", "name such a file"]),
    (["main.c", "nowhere/out.nova"], ["nowhere/out.nova: there is no such folder", "make it"]),
    (["main.c", "folder.nova"], ["folder.nova: is a directory", "name a file"]),
    (["compressed.o", "out.nova"], ["compressed.o: has compressed instructions", "compile it with -march=rv32i"]),
    (["multiplies.o", "out.nova"], ["multiplies.o: was compiled for rv32i", "compile it with -march=rv32i"]),
    (["host.o", "out.nova"], ["host.o: is not", "compile it with -march=rv32i"]),
    (["--monitor", "missing.c", "main.c", "out.nova"], ["missing.c: there is no such file"]),
    (["main.c", "out.nova", "15"], ["15: memory has at most"]),
    (["--guest", "main.c", "out.nova", "14"], ["14: memory has at most"]),
    (["-march=rv32im", "main.c", "out.nova"], ["main.c, linked, was compiled for rv32i", "compile it with -march=rv32i"]),
    (["--cpus", "two", "main.c", "out.nova"], ["'two' is no number; build.sh --help lists the words"]),
    (["--cpus", "9", "main.c", "out.nova"], ["--cpus: '9' is not from 1 to 8"]),
    (["--cpus"], ["--cpus: a word has to follow it"]),
    (["--consoles", "17", "main.c", "out.nova"], ["--consoles: '17' is not from 0 to 16"]),
    (["--priority", "255", "main.c", "out.nova"], ["--priority: '255' is not from 0 to 254"]),
    (["--quantum", "3", "main.c", "out.nova"], ["--quantum: there is no such option; build.sh --help lists the words"]),
    (["--source", "0 100 50", "main.c", "out.nova"], ["--source '0 100 50': four numbers are wanted"]),
    (["--source", "1 100 50 2", "main.c", "out.nova"], ["its processor: '1' is not from 0 to 0"]),
    (["--source", "0 100 0 2", "main.c", "out.nova"], ["its period: '0' is not from 1 to 10000000"]),
    (["main.c", "out.nova", "other.nova"], ["other.nova: out.nova is the scenario already"]),
    (["main.c", "out.nova", "3", "4"], ["4: 3 is the order of the memory already"]),
    (["out.nova"], ["no source is named"]),
    (["header.c", "out.nova"], ["stdio.h is a header of the C library; build with --libc"]),
    (["function.c", "out.nova"], ["printf is a function of the C library; build with --libc"]),
    (["--stack", "60000", "main.c", "out.nova"], ["the memory is too small", "or a lesser --stack"]),
    (["main.c", "library.a", "out.nova"], ["library.a: its member compressed.o has compressed instructions", "compile it with"]),
    (["stacks.c", "out.nova", "8"], ["stacks.c: its memory, with its guard pages left out, falls into 71 ranges", "have fewer stacks"]),
    (["large.c", "out.nova"], ["the memory is too small", "give build.sh a greater RAM_ORDER"]),
]

# Calls with a constant that is outside its range, and what the compiler has to say.
WRONG_CONSTANTS = [
    ("nova_create_ec(40, NOVA_OWN_PD, NOVA_LOCAL, 256, 0, 0)", "a processor is 0 to 255"),
    ("nova_create_ec(40, NOVA_OWN_PD, (enum nova_kind)3, 0, 0, 0)", "an execution context is"),
    ("nova_create_sc(40, NOVA_OWN_PD, 41, 256, 10)", "a priority is 0 to 255"),
    ("nova_create_sc(40, NOVA_OWN_PD, 41, 1, 16777216)", "a quantum is 1 to 16,777,215"),
    ("nova_create_sc(40, NOVA_OWN_PD, 41, 1, 0)", "a quantum is 1 to 16,777,215"),
    ("nova_memory(1048576, 0, NOVA_READ)", "a range has an order"),
    ("nova_memory(1, 1, NOVA_READ)", "a range has an order"),
    ("nova_objects(0, 21, NOVA_ALL_RIGHTS)", "a range has an order"),
    ("nova_objects(40, 0, 32)", "a range has an order"),
    ("nova_set_counts(125, 0)", "a message has at most 124 words"),
    ("nova_set_counts(0, 63)", "a message has at most 124 words"),
    ("nova_delegate(62, NOVA_NULL, 0)", "an item is 0 to 61"),
    ("nova_delegate(0, NOVA_NULL, 1048576)", "an item is 0 to 61, and a hotspot is below 2^20"),
    ("nova_translate(62, NOVA_NULL)", "an item is 0 to 61"),
    ("(void)nova_item(62)", "an item is 0 to 61"),
    ("nova_give(&domain, 0, 63)", "at most 62 ranges"),
]

# The words for elf, and what its line has to have.
WRONG_EXECUTABLES = [
    (["elsewhere.elf"], ["elsewhere.elf: segment", "0x3000", "0x2000", "link with -T tools/c/program.ld"]),
    (["compressed.elf"], ["compressed.elf: has compressed instructions", "compile it with -march=rv32i"]),
    (["main.c"], ["main.c: is no ELF file", "name the executable"]),
    (["folder"], ["folder: is a directory", "name the executable"]),
    (["missing.elf"], ["missing.elf: No such file", "name the executable"]),
    (["main.o"], ["main.o: is no executable", "link it"]),
]


def compile_with(tools: Tools, folder: Path, *words: str) -> None:
    """Calls the compiler, which is to take it."""
    subprocess.run([tools.compiler, "-mabi=ilp32", "-nostdlib", "-Wl,--no-warn-rwx-segments", *words], cwd=folder, check=True)


def make(tools: Tools, folder: Path) -> None:
    """The files that are refused, and one that isn't."""
    for name in ("folder", "folder.nova"):
        (folder / name).mkdir(parents=True)
    (folder / "main.c").write_text(MAIN)
    (folder / "large.c").write_text("char large[60000]; int main(void) { return large[9]; }\n")
    (folder / "stacks.c").write_text('#include "nova.h"\nNOVA_STACKS(stacks, 60, 4096);\nint main(void) { return stacks[59][4096]; }\n')
    (folder / "header.c").write_text("#include <stdio.h>\n" + MAIN)
    (folder / "function.c").write_text('int printf(const char *, ...); int main(void) { return printf("x"); }\n')
    (folder / "notes.txt").write_text("notes\n")
    (folder / "elsewhere.ld").write_text(ELSEWHERE)
    (folder / "host.o").write_bytes(b"\x7fELF\x02\x01\x01" + bytes(57))
    compile_with(tools, folder, "-march=rv32i", "-c", "-o", "main.o", "main.c")
    compile_with(tools, folder, "-march=rv32ic", "-c", "-o", "compressed.o", "main.c")
    subprocess.run(["riscv64-unknown-elf-ar", "rc", "library.a", "main.o", "compressed.o"], cwd=folder, check=True)
    compile_with(tools, folder, "-march=rv32im", "-c", "-o", "multiplies.o", "main.c")
    compile_with(tools, folder, "-march=rv32i", "-e", "main", "-T", "elsewhere.ld", "-o", "elsewhere.elf", "main.c")
    compile_with(tools, folder, "-march=rv32ic", "-e", "main", "-o", "compressed.elf", "main.c")


def wrong(folder: Path, command: list[str], parts: list[str], given: str = "/dev/null") -> str:
    """What is wrong with how a command refuses, given a file as its standard input: its status, its line, or what it wrote."""
    before = sorted(folder.rglob("*"))
    with (folder / given).open("rb") as read:
        done = subprocess.run(command, cwd=folder, stdin=read, capture_output=True, text=True, check=False)
    if done.returncode == 0 or done.stdout:
        return "isn't refused"
    missing = [part for part in parts if part not in done.stderr]
    if missing:
        return f"says {done.stderr.strip()!r}, without {missing[0]!r}"
    return "" if sorted(folder.rglob("*")) == before else "something was written"


def wrong_list(tools: Tools) -> str:
    """What is wrong with the list of words."""
    done = tools.build(["--help"])
    return "" if done.returncode == 0 and not done.stderr and "--priority N" in done.stdout else f"says {done.stderr or done.stdout!r}"


def wrong_warning(tools: Tools, folder: Path) -> str:
    """What is wrong with the warning of a status that isn't looked at."""
    (folder / "unused.c").write_text('#include "nova.h"\nint main(void) { nova_down(99); nova_up(99); return 0; }\n')
    said = tools.build([str(folder / "unused.c"), str(folder / "unused.nova")]).stderr
    return "" if said.count("warning: ignoring return value") == 1 and "'nova_down'" in said else f"build.sh says: {said.strip()}"


def look(outcome: Outcome, tools: Tools) -> None:
    """Looks at all refusals, at the list of words that they name, and at a warning."""
    if not outcome.wants("refused"):
        return
    outcome.count("not refused: build.sh --help", wrong_list(tools))
    folder = tools.scratch / "refused"
    make(tools, folder)
    for words, parts in WRONG_WORDS:
        outcome.count(f"refused: build.sh {' '.join(words)}", wrong(folder, [str(tools.c / "build.sh"), *words], parts))
    for call, part in WRONG_CONSTANTS:
        (folder / "constant.c").write_text(f'#include "nova.h"\nstruct nova_domain domain;\nint main(void) {{ {call}; return 0; }}\n')
        outcome.count(f"refused: {call}", wrong(folder, [str(tools.c / "build.sh"), "constant.c", "out.nova"], [f"error: nova.h: {part}"]))
    outcome.count("not refused: nova_down(99); with a warning", wrong_warning(tools, folder))
    for words, parts in WRONG_EXECUTABLES:
        outcome.count(f"refused: elf {' '.join(words)}", wrong(folder, [str(tools.c / "elf"), *words], parts))
