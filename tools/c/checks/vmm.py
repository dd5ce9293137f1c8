"""The monitor of vmm: hart as its guest, alone and beside another one, and random programs as guests."""

from __future__ import annotations

import re
import shutil
import subprocess
import sys
from pathlib import Path
from typing import TYPE_CHECKING

import refusals
from programs import LIMIT, Case, wrong_run
from scenarios import VERSION, version

if TYPE_CHECKING:
    from outcome import Outcome
    from programs import Tools

QEMU = "qemu-system-riscv32"

# What a monitor of several files is built with: whole pages, and entries that only assembler names.
CASES = {"pages": Case("pages", "4", status=2), "threads, -flto": Case("threads", "--cpus 2 -flto", status=2)}

# What each way to build hart is called, with the compiler's words for it.
HARTS = {"full": [], "brief": ["-DBRIEF"]}

# The words for build.sh, in the folder of refusals.py, and what its line has to have.
WRONG_WORDS = [
    (["--image", "notes.txt@0", "out.nova"], ["notes.txt: a guest that is linked already has a monitor", "name that by --monitor"]),
    (["--monitor", "main.c", "--image", "notes.txt", "out.nova"], ["notes.txt: is no FILE@PAGE", "say from which page"]),
    (["--monitor", "main.c", "--image", "missing@0", "out.nova"], ["missing: there is no such file", "name what the linker wrote"]),
    (["--monitor", "main.c", "--image", "notes.txt@0", "main.c", "out.nova"], ["main.c: the guest is linked already", "leave out"]),
    (["--monitor", "main.c", "--image", "compressed.elf@0", "out.nova"], ["compressed.elf: has compressed instructions", "compile it with"]),
    (["--monitors", "2", "main.c", "out.nova"], ["main.c: only monitors are several", "give --monitor"]),
    (["--guest", "--monitors", "9", "main.c", "out.nova"], ["9: there are at most 8 processors", "give as many"]),
    (["--guest", "--monitors", "2", "--cpus", "2", "main.c", "out.nova"], ["2: each monitor has a processor", "leave out --cpus"]),
    (["--guest", "--monitors", "2", "main.c", "out.nova"], ["2: the monitors have more pages", "give a lesser --monitor-order"]),
    (["--guest", "--monitors", "7", "--monitor-order", "2", "main.c", "out.nova", "12"], ["7: all memory has at most", "give fewer monitors"]),
]

# The words for guest.sh, in the same folder with what make_guests adds, and what its line has to have.
WRONG_GUESTS = [
    (["default.elf", "out.nova"], ["default.elf: is linked for 0x10000 ", "link it with -T tools/c/vmm/guest.ld"]),
    (["far.elf", "out.nova"], ["far.elf: is linked for 0x80200000 and begins at 0x80200000", "-T tools/c/vmm/guest.ld"]),
    (["late.elf", "out.nova"], ["late.elf: is linked for 0x80000000 and begins at 0x800000", "-T tools/c/vmm/guest.ld"]),
    (["large.elf", "out.nova", "5"], ["large.elf: takes 300", "with ORDER 5 there are 131072; give a greater ORDER"]),
    (["large", "out.nova", "5"], ["large: takes 131073 bytes, and with ORDER 5 there are 131072; give a greater ORDER"]),
    (["--tree", "tree.dtb", "whole", "out.nova", "5"], ["whole: takes 131072 bytes", "of which a page is for the tree"]),
    (["empty", "out.nova"], ["empty: is empty; name an executable"]),
    (["missing", "out.nova"], ["missing: there is no such file; name an executable"]),
    (["folder", "out.nova"], ["folder: is a directory; name an executable"]),
    (["compressed.elf", "out.nova"], ["compressed.elf: has compressed instructions"]),
    (["whole", "out.nova", "ten"], ["ten: whole is the kernel already, and ORDER is a number"]),
    (["whole", "out.nova", "4"], ["ORDER: 4 is not from 5 to 13"]),
    (["--two", "whole", "out.nova", "5"], ["ORDER: with --two, 5 is not from 6 to 12"]),
    (["whole", "out.nova", "5", "6"], ["6: 5 is the order of the memory already"]),
    (["whole", "out.nova", "other.nova"], ["other.nova: out.nova is the scenario already"]),
    (["whole"], ["no scenario is named"]),
    (["--quick", "whole", "out.nova"], ["--quick: there is no such option; guest.sh --help lists the words"]),
    (["whole", "out.nova", "--tree"], ["--tree: a file has to follow it"]),
    (["--tree", "missing.dtb", "whole", "out.nova"], ["missing.dtb: there is no such file; name a device tree"]),
    (["--tree", "notes.txt", "whole", "out.nova"], ["notes.txt: is no device tree", "dtc -q -O dtb"]),
    (["--tree", "large.dtb", "whole", "out.nova"], ["large.dtb: has 4097 bytes, and a tree 4,096 at most"]),
    (["--input", "missing", "whole", "out.nova"], ["missing: there is no such file; name what the guest is to read"]),
]

# The words for other programs of tools/c, what is their standard input, and what their line has to have.
WRONG_OTHERS = [
    ("console", ["7"], "examples/hart.report", ["the report has no console 7; its last one is 0"]),
    ("console", [], "examples/hart.nova", ["standard input is no report"]),
    ("console", [], "/dev/null", ["standard input is empty"]),
    ("exits", ["notes.txt"], "/dev/null", ["notes.txt: has no line `ec N vcpu`"]),
    ("exits", ["examples/hart.report", "99"], "/dev/null", ["has no virtual CPU 99; it has 8, "]),
    ("linux.sh", ["--cache", "--two"], "/dev/null", ["--cache: a folder has to follow it"]),
    ("linux.sh", ["--quick"], "/dev/null", ["--quick: there is no such option"]),
    ("uboot.sh", ["--input", "folder"], "/dev/null", ["folder: can't be read; name a file of what is typed"]),
]


def said(report: str, number: int = 0) -> str:
    """What a guest said, without what its monitor did, by the console of a number."""
    shown = re.search(rf"^console {number} ([0-9a-f]+)$", report, re.MULTILINE)
    text = bytes.fromhex(shown[1]).decode() if shown else ""
    return re.sub(r"\nvmm: .*\n", "", text)


def called(words: list[str | Path]) -> str:
    """Calls a program that is to take its words, and answers what it says where it doesn't."""
    done = subprocess.run(words, capture_output=True, text=True, check=False)
    return done.stderr.strip() or f"{words[0]} ends with status {done.returncode}" if done.returncode else ""


def wrong_hart(tools: Tools, name: str, flags: list[str]) -> str:
    """Builds a hart and a scenario of it, runs that, and answers what is wrong with what it says."""
    elf, scenario = tools.scratch / f"{name}.elf", tools.scratch / f"{name}.nova"
    wrong = called([tools.c / "hart/build.sh", elf, *HARTS[name]]) or called([tools.c / "vmm/guest.sh", *flags, elf, scenario, "6"])
    if wrong:
        return wrong
    status, report = tools.call("solo", str(scenario), "--limit", LIMIT)
    if status:
        return f"solo ends with status {status}"
    return "" if said(report) == (tools.c / "hart" / f"{name}.text").read_text() else f"the console has {said(report)!r}"


def wrong_two(tools: Tools) -> str:
    """Runs two guests beside each other by threads and by the order of that, and compares their inputs."""
    scenario, order = tools.scratch / "two.nova", tools.scratch / "two.order"
    if wrong := called([tools.c / "vmm/guest.sh", "--two", tools.scratch / "full.elf", scenario, "6"]):
        return wrong
    status, report = tools.call("run", str(scenario), str(order), "--limit", LIMIT)
    if status or tools.call("solo", str(scenario), str(order), "--limit", LIMIT) != (0, report):
        return "solo over run's order writes another report"
    if {said(report, 0), said(report, 1)} != {(tools.c / "hart/full.text").read_text()}:
        return "their consoles are others"
    guests = re.findall(r"^ec (\d+) vcpu dead 8\w+ ", report, re.MULTILINE)
    twin = tools.scratch / "two.twin"
    twin.write_text("".join(f"{scenario} {order} {guest}\n" for guest in guests))
    status, answer = tools.call("twin", str(twin), "--limit", LIMIT)
    return "" if answer.startswith("equal ") and not status else f"twin answers {answer.strip()!r}"


def wrong_on_qemu(tools: Tools, name: str) -> str:
    """Compares what is kept of a hart with what it says on QEMU."""
    words = [QEMU, "-M", "virt", "-m", "8M", "-bios", "none", "-kernel", str(tools.scratch / f"{name}.elf"), "-nographic"]
    done = subprocess.run(words, stdin=subprocess.DEVNULL, capture_output=True, text=True, check=False, timeout=120)
    return "" if done.stdout == (tools.c / "hart" / f"{name}.text").read_text() else f"QEMU writes {done.stdout!r}"


def wrong_kept(tools: Tools) -> str:
    """Builds the kept scenario of hart anew, and compares."""
    anew = tools.scratch / "kept.nova"
    wrong = called([tools.c / "hart/keep.sh", anew])
    return wrong or ("" if anew.read_bytes() == (tools.top / "examples/hart.nova").read_bytes() else "is built otherwise than it is kept")


def wrong_exits(tools: Tools) -> str:
    """Compares the sum of the exits of the kept run with the lines that raise them; the startup is none that is answered without items."""
    report = tools.top / "examples/hart.report"
    done = subprocess.run([tools.c / "exits", report], capture_output=True, text=True, check=False)
    guest = re.search(r"^ec (\d+) vcpu dead 8", report.read_text(), re.MULTILINE)
    answered = re.findall(rf"^at \d+ 0 {guest[1]} raise ", report.read_text(), re.MULTILINE) if guest else []
    wanted = f"\n| together | {len(answered) - 2:,} |"
    return "" if wanted in done.stdout else f"exits doesn't write {wanted!r}, but {done.stdout[-80:]!r}"


def make_guests(tools: Tools, folder: Path) -> None:
    """Kernels and device trees that are refused."""
    (folder / "kernel.c").write_text('__attribute__((section(".first"))) void _start(void) {} void late(void) {}\n')
    (folder / "bss.c").write_text('char large[300000]; __attribute__((section(".first"))) void _start(void) { large[9] = 1; }\n')
    (folder / "far.ld").write_text((tools.c / "vmm/guest.ld").read_text().replace("0x80000000", "0x80200000"))
    near = ["-march=rv32i", "-T", str(tools.c / "vmm/guest.ld")]
    refusals.compile_with(tools, folder, "-march=rv32i", "-o", "default.elf", "kernel.c")
    refusals.compile_with(tools, folder, "-march=rv32i", "-T", "far.ld", "-o", "far.elf", "kernel.c")
    refusals.compile_with(tools, folder, *near, "-e", "late", "-o", "late.elf", "kernel.c")
    refusals.compile_with(tools, folder, *near, "-o", "large.elf", "bss.c")
    (folder / "empty").touch()
    (folder / "whole").write_bytes(bytes(131072))
    (folder / "large").write_bytes(bytes(131073))
    (folder / "tree.dtb").write_bytes(b"\xd0\x0d\xfe\xed" + bytes(60))
    (folder / "large.dtb").write_bytes(b"\xd0\x0d\xfe\xed" + bytes(4093))
    (folder / "examples").symlink_to(tools.top / "examples")


def look_at_refusals(outcome: Outcome, tools: Tools) -> None:
    """Looks at what is refused of images, kernels and reports."""
    folder = tools.scratch / "images"
    refusals.make(tools, folder)
    for words, parts in WRONG_WORDS:
        outcome.count(f"refused images: build.sh {' '.join(words)}", refusals.wrong(folder, [str(tools.c / "build.sh"), *words], parts))
    make_guests(tools, folder)
    for words, parts in WRONG_GUESTS:
        outcome.count(f"refused images: guest.sh {' '.join(words)}", refusals.wrong(folder, [str(tools.c / "vmm/guest.sh"), *words], parts))
    for name, words, given, parts in WRONG_OTHERS:
        wrong = refusals.wrong(folder, [str(tools.c / name), *words], parts, given)
        outcome.count(f"refused images: {name} {' '.join(words)} <{given}", wrong)


def look_at_hart(outcome: Outcome, tools: Tools) -> None:
    """Looks at hart."""
    outcome.count("exits of hart", wrong_exits(tools))
    if version(tools) == VERSION:
        outcome.count("hart.nova, built anew", wrong_kept(tools))
    for name in HARTS:
        for flags in ([], ["--no-patches"]):
            outcome.count(f"hart, {name}, {' '.join(flags) or 'with patches'}", wrong_hart(tools, name, flags))
    outcome.count("hart, two of them", wrong_two(tools))
    if not shutil.which(QEMU):
        outcome.skip(f"hart on QEMU: {QEMU} isn't installed; apt-get install qemu-system-misc")
        return
    for name in HARTS:
        outcome.count(f"hart, {name}, on QEMU", wrong_on_qemu(tools, name))


def look(outcome: Outcome, tools: Tools) -> None:
    """Looks at hart, at random programs, and at what is refused."""
    if outcome.wants("hart"):
        look_at_hart(outcome, tools)
    for name, case in CASES.items():
        if outcome.wants(name):
            outcome.count(name, wrong_run(tools, case, guest=False))
    if outcome.wants("fuzz"):
        fuzz = [sys.executable, tools.c / "vmm/fuzz"]
        outcome.count("fuzz, 24 programs", called([*fuzz, "--program", tools.nova, "--seed", "checks", "--count", "24"]))
        outcome.count("the tests of fuzz", called([sys.executable, tools.c / "vmm/fuzz/tests", "--program", tools.nova]))
    if outcome.wants("refused images"):
        look_at_refusals(outcome, tools)
