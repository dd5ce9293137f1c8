"""The programs of the repository: whether one is built of the sources that are here, and what to say where it isn't.

A program has a file of sums beside it, `NAME.sources`: of its sources, and of the kit that proved it. Times of files decide nothing, so a
tree that was copied or checked out again keeps its programs. Where it isn't built, a draft of the same sources stands in for it, which
`./nova draft` makes; that is said. Nothing here builds anything.
"""

from __future__ import annotations

import hashlib
import os
import sys
from enum import Enum
from pathlib import Path

sys.path.append(str(Path(__file__).resolve().parent))

from ending import Missing, ended  # noqa: E402
from kit import TOP, identity  # noqa: E402
from schedule import Schedule, costs, dependencies, in_order  # noqa: E402

# More workers than this are no quicker: the longest chain of crates is the clock. A job takes up to so many bytes.
PROCESSORS = len(os.sched_getaffinity(0))
WORKERS = min(4, PROCESSORS)
MEMORY_OF_A_JOB = 3_000_000_000
PARTS = ("src", "specs", "proofs", "c")
# A release has this file, and its programs in this folder; it has no sources.
MANIFEST, PROGRAMS = "MANIFEST", "bin"
# Where drafts are kept, and what makes them.
DRAFTS, MAKING = TOP / "out" / "draft", TOP / "tools" / "draft" / "making.py"


__all__ = ["Missing", "ended"]


class State(Enum):
    """What a program is."""

    BUILT = "built of the sources that are here"
    OLD = "of other sources"
    MISSING = "not built"


def jobs() -> int:
    """By how many jobs crates are proved on this machine: one for each processor, as far as there is memory for them."""
    memory = os.sysconf("SC_PAGE_SIZE") * os.sysconf("SC_PHYS_PAGES")
    return max(1, min(PROCESSORS, memory // MEMORY_OF_A_JOB))


def crates() -> dict[str, list[str]]:
    """The crates of the repository, each with those of them that it names."""
    return dependencies((TOP / "crates.txt").read_text())


def schedule(name: str) -> Schedule:
    """The crates of a program."""
    return Schedule.of(name, crates(), costs(), WORKERS, jobs())


def is_release() -> bool:
    """Whether this is a release, and no repository."""
    return (TOP / MANIFEST).is_file()


def path_of(name: str) -> Path:
    """Where the program of a crate lies once it is built."""
    return TOP / PROGRAMS / name if is_release() else TOP / "crates" / name / "out" / name


def sources_of(name: str) -> list[Path]:
    """The files that a crate and those below it are made from."""
    named = crates()
    files = [TOP / "HANDLES"]
    for crate in [*in_order(name, named), name]:
        for part in PARTS:
            files += (TOP / "crates" / crate / part).rglob("*.*")
    return sorted(file for file in files if file.is_file())


def lines_of(name: str) -> list[str]:
    """The lines of crates.txt of a crate and of those below it, without remarks."""
    text = (TOP / "crates.txt").read_text()
    wanted = {name, *in_order(name, dependencies(text))}
    lines = (" ".join(line.split("#")[0].split()) for line in text.splitlines())
    return sorted(line for line in lines if line.partition(":")[0].split(" ")[0] in wanted and line)


def sum_of(name: str) -> str:
    """A checksum of all that a program is made from, but the kit."""
    total = hashlib.sha256("\n".join(lines_of(name)).encode())
    for file in sources_of(name):
        total.update(f"\n{file.relative_to(TOP)} {hashlib.sha256(file.read_bytes()).hexdigest()}".encode())
    return total.hexdigest()


def record(name: str) -> None:
    """Notes of which sources, and by which kit, a program is built."""
    path = path_of(name)
    made = hashlib.sha256(path.read_bytes()).hexdigest()
    path.with_name(f"{name}.sources").write_text(f"program {made}\nsources {sum_of(name)}\nkit {identity() or '-'}\n")


def recorded(name: str) -> dict[str, str]:
    """What was noted of the program that is there: its sum, that of its sources, and the kit."""
    path = path_of(name)
    try:
        lines = path.with_name(f"{name}.sources").read_text().splitlines()
        noted = {word: rest for word, _, rest in (line.partition(" ") for line in lines)}
        return noted if noted.get("program") == hashlib.sha256(path.read_bytes()).hexdigest() else {}
    except OSError:
        return {}


def state_of(name: str) -> State:
    """Whether a program is built of these sources by this kit. Without a note of it, as `rt ci` leaves it, one that is newer than each of its
    sources is taken to be, and noted."""
    path = path_of(name)
    if not os.access(path, os.X_OK):
        return State.MISSING
    if is_release():
        return State.BUILT
    noted = recorded(name)
    if noted:
        same = noted.get("sources") == sum_of(name) and identity() in (None, noted.get("kit"))
        return State.BUILT if same else State.OLD
    built = path.stat().st_mtime
    if any(file.stat().st_mtime > built for file in [TOP / "crates.txt", *sources_of(name)]):
        return State.OLD
    try:
        record(name)
    except OSError:
        pass
    return State.BUILT


def draft_of(name: str) -> Path:
    """Where the draft of a program is, or will be: by a checksum of its sources, of the kit, and of how it is made."""
    key = hashlib.sha256(f"{sum_of(name)} {identity()} {MAKING.read_text()}".encode()).hexdigest()
    return DRAFTS / key[:16] / name


def advice(name: str) -> str:
    """How a program is built, and how long that takes."""
    if is_release():
        return "it isn't in this release"
    plan = schedule(name)
    there = [crate for crate in plan.below if (TOP / "crates" / crate / "out" / "rlib").is_dir()]
    minutes = plan.minutes_left(there, {}, 1)
    draft = "" if name == "nova" else f" {name.removeprefix('nova_')}"
    build = "python3 tools/build" if name == "nova" else f"python3 tools/build {name}"
    return f"`{build}` builds it, in {minutes} to {minutes * 5 // 2} minutes on four idle cores; `./nova draft --path{draft}` builds an unproved one and names it, within two"


def there(name: str) -> Path | None:
    """The program of a crate, or else its draft, which is said on standard error; none where neither is there."""
    if state_of(name) is State.BUILT:
        return path_of(name)
    if is_release():
        return None
    draft = draft_of(name)
    if not draft.exists():
        return None
    print(f"nova: DRAFT: {name} is unproved; nothing of what follows is proved", file=sys.stderr, flush=True)
    return draft


def find(name: str) -> Path:
    """The program of a crate, or else its draft. Raises Missing where neither is there."""
    found = there(name)
    if found is None:
        raise Missing(f"{name} is {state_of(name).value}: {advice(name)}")
    return found
