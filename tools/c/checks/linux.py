"""Linux and U-Boot as guests of vmm, where they are built already: they are booted, and their consoles compared."""

from __future__ import annotations

import os
import re
import shutil
import subprocess
from pathlib import Path
from typing import TYPE_CHECKING

from programs import LIMIT
from vmm import QEMU, called, said

if TYPE_CHECKING:
    from outcome import Outcome
    from programs import Tools

# The folder that linux.sh and uboot.sh keep what they build in. It isn't built here: that takes minutes.
VARIABLE = "NOVA_LINUX_CACHE"

# What may be otherwise from run to run, from compiler to compiler, or on QEMU, and what stands for it.
MASKS = [
    (r"\r", ""),
    (r"^\[ *\d+\.\d+\] random: crng init done\n", ""),
    (r"^\[ *\d+\.\d+\]", "[TIME]"),
    (r"Linux version .*", "Linux version .."),
    (r"Memory: .*", "Memory: .."),
    (r"^(marchid|mimpid)\t+: .*", r"\1: .."),
    (r"initmem\) memory: \d+K", "initmem) memory: .."),
    (r"[ \t]+$", ""),
    (r"^counters \d+ \d+$", "counters .."),
    (r"^( +2:) +\d+", r"\1 .."),
    (r"U-Boot (\S+) \(.*\)", r"U-Boot \1"),
    (r"^(riscv64-linux-gnu-gcc|GNU ld) .*", r"\1 .."),
]


def masked(text: str) -> str:
    """A console without times, counters and versions."""
    for pattern, instead in MASKS:
        text = re.sub(pattern, instead, text, flags=re.MULTILINE)
    return text


def difference(text: str, kept: Path) -> str:
    """The first line in which a console is another one than is kept."""
    mine, theirs = masked(text).splitlines(), kept.read_text().splitlines()
    pairs = [*zip(mine, theirs, strict=False), (f"{len(mine)} lines", f"{len(theirs)} lines")]
    return next((f"{ours!r}, and {other!r} is kept" for ours, other in pairs if ours != other), "")


def wrong_boot(tools: Tools, script: str, kept: Path, cache: str) -> str:
    """Writes a scenario, runs it, and compares its console."""
    scenario = tools.scratch / f"{script}.nova"
    if wrong := called([tools.c / script, "--cache", cache, scenario]):
        return wrong
    status, report = tools.call("solo", str(scenario), "--limit", LIMIT)
    return difference(said(report), kept) or ("" if status == 0 else f"solo ends with status {status}")


def wrong_on_qemu(kept: Path, cache: str) -> str:
    """Boots the same Linux on QEMU."""
    words = [QEMU, "-M", "virt", "-m", "8M", "-bios", "none", "-kernel", f"{cache}/Image", "-dtb", f"{cache}/virt.dtb", "-nographic"]
    done = subprocess.run(words, stdin=subprocess.DEVNULL, capture_output=True, text=True, check=False, timeout=120)
    return difference(done.stdout, kept)


def look(outcome: Outcome, tools: Tools) -> None:
    """Looks at what there is."""
    if not outcome.wants("linux"):
        return
    cache = os.environ.get(VARIABLE, "")
    if not (cache and Path(cache, "Image").exists()):
        outcome.skip(f"linux: {VARIABLE} names no folder where tools/c/linux.sh has built it")
        return
    kept = tools.c / "linux/console.text"
    outcome.count("linux, booted", wrong_boot(tools, "linux.sh", kept, cache))
    if shutil.which(QEMU):
        outcome.count("linux, on QEMU", wrong_on_qemu(kept, cache))
    if Path(cache, "uboot/u-boot.bin").exists():
        outcome.count("linux: u-boot, booted", wrong_boot(tools, "uboot.sh", tools.c / "uboot/console.text", cache))
