"""The test programs: built as the root and as a guest, run in three ways, and compared with the host."""

from __future__ import annotations

import re
import shlex
import shutil
import subprocess
from dataclasses import dataclass, field
from pathlib import Path
from typing import TYPE_CHECKING

if TYPE_CHECKING:
    from outcome import Outcome

LIMIT = "10000000"

# What a run ends by: ebreak, a store that faults at address 0, or one that faults elsewhere.
FINE, NULL, FAULT = "raise 7 0", "raise 4 0", r"raise 4 [1-9]\d*"

# Of the host's statuses that which a store gives that faults.
SEGMENTATION_FAULT = -11


@dataclass
class Tools:
    """Where everything lies."""

    top: Path
    nova: Path
    scratch: Path
    c: Path = field(init=False)
    compiler: str = "riscv64-unknown-elf-gcc"

    def __post_init__(self) -> None:
        """The folder of the programs in C."""
        self.c = self.top / "tools" / "c"

    @property
    def has_compiler(self) -> bool:
        """Whether what build.sh needs is installed."""
        return shutil.which(self.compiler) is not None and Path("/usr/lib/picolibc/riscv64-unknown-elf/include").is_dir()

    def build(self, words: list[str]) -> subprocess.CompletedProcess[str]:
        """Calls build.sh at the top of the repository."""
        return subprocess.run([str(self.c / "build.sh"), *words], capture_output=True, text=True, check=False, cwd=self.top)

    def call(self, *words: str) -> tuple[int, str]:
        """Calls the program, and answers its status and what it writes."""
        done = subprocess.run([str(self.nova), *words], capture_output=True, text=True, check=False, cwd=self.top, timeout=300)
        return done.returncode, done.stdout

    def runs(self, scenario: Path, order: Path | None = None) -> tuple[str, str]:
        """The report of a scenario by solo, and what is wrong with it, or with that of run and of run's order again."""
        status, report = self.call("solo", str(scenario), *([str(order)] if order else []), "--limit", LIMIT)
        if status:
            return report, f"solo ends with status {status}"
        made = self.scratch / "made.order"
        made.unlink(missing_ok=True)
        first = self.call("run", str(scenario), str(made), "--limit", LIMIT)
        if first[0]:
            return report, f"run ends with status {first[0]}"
        if self.call("solo", str(scenario), str(made), "--limit", LIMIT) != first:
            return report, "solo over run's order writes another report"
        if "\ncpus 1\n" in scenario.read_text() and first[1] != report:
            return report, "run writes another report than solo"
        return report, ""


@dataclass
class Case:
    """A test program: its file, the words for build.sh before it, how it ends, and on which execution context where that is fixed."""

    name: str
    words: str = "--libc"
    end: str = FINE
    status: int = 0
    ec: int = 0
    suffix: str = ".c"


CASES = [
    Case("null", end=NULL),
    Case("errno"),
    Case("thread_local"),
    Case("constructor"),
    Case("malloc"),
    Case("printf"),
    Case("setjmp"),
    Case("exit", status=77),
    Case("overflow", end=FAULT),
    Case("constant", end=FAULT),
]

# Programs that speak to the hypervisor, which the host can't run.
OWN = [
    Case("threads", "--cpus 2", status=2),
    Case("monitor_null", "--monitor tools/c/tests/monitor_null.c", end=NULL, ec=10),
    Case("thread_overflow", ""),
    Case("monitors_overflow", "--monitors 2 --monitor-order 3 --monitor tools/c/tests/monitors_overflow.c", end=r"raise 4 2[4-8]\d\d\d", ec=7),
    Case("assembler", "", status=7, ec=1, suffix=".s"),
    Case("refused", "-DHELD=99 --debug -Itools/c/examples"),
]


def console(report: str) -> str:
    """What console 0 shows."""
    shown = re.search(r"^console 0 ([0-9a-f]+)$", report, re.MULTILINE)
    return bytes.fromhex(shown[1]).decode() if shown else ""


def program_of(report: str, *, guest: bool) -> int:
    """The number of the execution context that a program ran on: the virtual CPU after that of boot.s, or main's thread."""
    cpus = [int(number) for number in re.findall(r"^ec (\d+) vcpu", report, re.MULTILINE)]
    return cpus[1] if guest and len(cpus) > 1 else 6


def wrong_end(report: str, case: Case, *, guest: bool) -> str:
    """What is wrong with how a program ended."""
    number = case.ec or program_of(report, guest=guest)
    if not re.search(rf"^at \d+ \d+ {number} {case.end}$", report, re.MULTILINE):
        return f"it doesn't end by {case.end}"
    line = re.search(rf"^ec {number} .*$", report, re.MULTILINE)
    status = re.search(r" x10=([0-9a-f]{8})", line[0]) if line else None
    if case.end == FINE and (int(status[1], 16) if status else 0) != case.status:
        return f"x10 is not {case.status}"
    return ""


def wrong_run(tools: Tools, case: Case, *, guest: bool) -> str:
    """Builds and runs a case, and answers what is wrong."""
    scenario = tools.scratch / "program.nova"
    words = [*shlex.split(case.words), *(["--guest"] if guest else [])]
    built = tools.build([*words, f"tools/c/tests/{case.name}{case.suffix}", str(scenario)])
    if built.returncode or built.stderr:
        return f"build.sh says: {built.stderr.strip()}"
    report, wrong = tools.runs(scenario)
    wanted = (tools.c / "tests" / f"{case.name}.text").read_text()
    if not wrong and console(report) != wanted:
        wrong = f"the console has {console(report)!r}"
    return wrong or wrong_end(report, case, guest=guest)


def wrong_on_host(tools: Tools, case: Case) -> str:
    """Compares what is kept of a case with what the host's compiler makes of it."""
    built = tools.scratch / "on_host"
    words = ["cc", "-O1", "-w", "-o", str(built), str(tools.c / "tests" / f"{case.name}.c"), "-lm"]
    if subprocess.run(words, capture_output=True, check=False).returncode:
        return "the host's compiler refuses it"
    done = subprocess.run(["prlimit", "--as=300000000", "--core=0", str(built)], stdin=subprocess.DEVNULL, stdout=subprocess.PIPE,
                          stderr=subprocess.STDOUT, text=True, check=False)
    if done.stdout != (tools.c / "tests" / f"{case.name}.text").read_text():
        return f"the host writes {done.stdout!r}"
    wanted = case.status if case.end == FINE else SEGMENTATION_FAULT
    return "" if done.returncode == wanted else f"the host ends with {done.returncode}"


def look(outcome: Outcome, tools: Tools) -> None:
    """Looks at all test programs."""
    for case in CASES:
        if not outcome.wants(case.name):
            continue
        outcome.count(f"{case.name}, the root", wrong_run(tools, case, guest=False))
        outcome.count(f"{case.name}, a guest", wrong_run(tools, case, guest=True))
        if shutil.which("cc"):
            outcome.count(f"{case.name}, on the host", wrong_on_host(tools, case))
    for case in OWN:
        if outcome.wants(case.name):
            outcome.count(case.name, wrong_run(tools, case, guest=False))
