"""Makes an executable with the labels and lines of a scenario's `asm` images, for gdb alone."""

from __future__ import annotations

import subprocess
import tempfile
from pathlib import Path

from backend import Refused

AS, LD = "riscv64-unknown-elf-as", "riscv64-unknown-elf-ld"


def images_of(scenario: Path) -> list[tuple[int, list[str]]]:
    """The images of assembler, each with its address and its lines, which say where they stand."""
    images: list[tuple[int, list[str]]] = []
    lines: list[str] | None = None
    for number, line in enumerate(scenario.read_text(errors="replace").splitlines(), 1):
        text = line.split("#")[0].rstrip()
        words = text.split()
        if words[:1] == ["image"] and words[-1] == "asm":
            lines = [f'.file 1 "{scenario.resolve()}"', f'.section .i{len(images)},"ax"']
            images.append((int(words[1], 0), lines))
        elif words == ["end"]:
            lines = None
        elif lines is not None and words:
            lines += [f".loc 1 {number}", text]
    return images


def write_symbols(scenario: Path, output: Path) -> None:
    """Writes the executable."""
    images = images_of(scenario)
    if not images:
        raise Refused(f"{scenario} has no image of assembler")
    with tempfile.TemporaryDirectory() as folder:
        objects, places = [], []
        for number, (address, lines) in enumerate(images):
            source, made = Path(folder, f"{number}.s"), Path(folder, f"{number}.o")
            source.write_text("\n".join(lines) + "\n")
            run(AS, "-march=rv32i", "-mabi=ilp32", "-mno-relax", "-o", str(made), str(source))
            objects.append(str(made))
            places.append(f"--section-start=.i{number}={address:#x}")
        run(LD, "-m", "elf32lriscv", "--no-warn-rwx-segments", "-e", "0", *places, "-o", str(output), *objects)


def run(*words: str) -> None:
    """Runs a tool of binutils."""
    try:
        ran = subprocess.run(words, capture_output=True, text=True, check=False)
    except OSError as error:
        raise Refused(f"{words[0]}: {error.strerror}") from error
    if ran.returncode:
        raise Refused(ran.stderr.strip())
