"""Packs the proved programs with what goes with them, to run without the kit and without sources.

python3 tools/release [--output FILE] [--with NAME].. [--dirty]

The archive, out/release/nova-COMMIT.tar.gz if no FILE is named, has the programs nova and nova_debug, the pages, the examples, the tools in Python
and a manifest: the commit, the kit, the checksum of each file, and of the sources of each crate that was proved. It is the same bytes for the same
programs and commit. Only programs are packed that are built of the sources that are here; nothing is built. --dirty packs a tree with changes that
aren't committed, and says so in the manifest.
"""

from __future__ import annotations

import argparse
import gzip
import hashlib
import io
import subprocess
import sys
import tarfile
from collections.abc import Iterator
from dataclasses import dataclass
from pathlib import Path

TOP = Path(__file__).resolve().parents[2]
sys.path.append(str(TOP / "tools" / "build"))

from built import MANIFEST, PROGRAMS, Missing, State, advice, ended, lines_of, path_of, recorded, schedule, state_of, sum_of  # noqa: E402

NAMES = ("nova", "nova_debug")
# What is packed beside the programs, of what git knows. Tools that look after sources or make programs of them stay.
PARTS = ("README.md", "nova", "nova-explore", "nova-policy", "docs", "examples", "tools")
LEFT_OUT = ("tools/changes/", "tools/definitions/", "tools/draft/", "tools/map/", "tools/release/", "tools/vectors/")
EXECUTABLE, PLAIN = 0o755, 0o644


class Refused(Exception):
    """Nothing can be packed; the text says why."""


@dataclass(frozen=True, slots=True)
class File:
    """A file of the archive: its name, its bytes, and whether it can be run."""

    name: str
    data: bytes
    runs: bool = False

    @property
    def sum(self) -> str:
        """Its checksum."""
        return hashlib.sha256(self.data).hexdigest()


def git(*words: str) -> str:
    """What git says."""
    told = subprocess.run(["git", *words], cwd=TOP, capture_output=True, text=True, check=False)
    if told.returncode:
        raise Refused(told.stderr.strip() or "git said nothing")
    return told.stdout


def files() -> Iterator[File]:
    """What is packed beside the programs: what git knows, as it stands here."""
    for name in sorted(git("ls-files", "-z", "--cached", "--others", "--exclude-standard", *PARTS).split("\0")):
        path = TOP / name
        if name and path.is_file() and not name.startswith(LEFT_OUT):
            yield File(name, path.read_bytes(), bool(path.stat().st_mode & 0o100))


def program(name: str) -> File:
    """A program. Raises Refused where it isn't built of these sources."""
    state = state_of(name)
    if state is not State.BUILT:
        raise Refused(f"{name} is {state.value}: {advice(name)}")
    return File(f"{PROGRAMS}/{name}", path_of(name).read_bytes(), True)


def proved(names: list[str]) -> Iterator[str]:
    """A line for each crate that the programs stand on: the checksum of it and of all below it, and its line of crates.txt."""
    done: set[str] = set()
    for name in names:
        for crate in schedule(name).below:
            if crate not in done:
                done.add(crate)
                line = next(line for line in lines_of(crate) if line.partition(":")[0].split()[0] == crate)
                yield f"proved {sum_of(crate)} {line}"


def manifest(names: list[str], packed: list[File], dirty: bool) -> str:
    """The text of the manifest."""
    kits = {recorded(name).get("kit", "-") for name in names}
    commit = git("rev-parse", "HEAD").strip()
    lines = [f"commit {commit}{', with changes that are not committed' if dirty else ''}", *(f"kit {kit}" for kit in sorted(kits))]
    lines += [f"program {name} sources {sum_of(name)}" for name in names]
    lines += proved(names)
    lines += [f"file {file.sum} {file.name}" for file in packed]
    return "\n".join(lines) + "\n"


def pack(packed: list[File], root: str, moment: int) -> bytes:
    """The archive's bytes, which depend on nothing else."""
    whole = io.BytesIO()
    with gzip.GzipFile("", "wb", 9, whole, 0) as packing, tarfile.open(fileobj=packing, mode="w", format=tarfile.PAX_FORMAT) as archive:
        for file in packed:
            info = tarfile.TarInfo(f"{root}/{file.name}")
            info.size, info.mtime, info.mode = len(file.data), moment, EXECUTABLE if file.runs else PLAIN
            archive.addfile(info, io.BytesIO(file.data))
    return whole.getvalue()


def release(names: list[str], output: Path | None, dirty: bool) -> Path:
    """Packs programs, and gives the archive's place."""
    changed = git("status", "--porcelain").strip()
    if changed and not dirty:
        raise Refused(f"{changed.splitlines()[0].split()[-1]} is not committed; --dirty packs the tree as it stands")
    packed = [*map(program, names), *files()]
    text = manifest(names, packed, bool(changed))
    root = f"nova-{git('rev-parse', '--short=12', 'HEAD').strip()}"
    place = output or TOP / "out" / "release" / f"{root}.tar.gz"
    place.parent.mkdir(parents=True, exist_ok=True)
    place.write_bytes(pack([File(MANIFEST, text.encode()), *packed], root, int(git("log", "-1", "--format=%ct"))))
    return place


def main(arguments: list[str]) -> int:
    """Packs. The status is 1 where nothing is packed."""
    words = argparse.ArgumentParser(prog="release", description="Packs the proved programs with what goes with them.")
    words.add_argument("--output", type=Path, metavar="FILE", help="where to write (out/release/nova-COMMIT.tar.gz)")
    words.add_argument("--with", dest="more", action="append", default=[], metavar="NAME", help="another program of the repository, by its crate")
    words.add_argument("--dirty", action="store_true", help="also with changes that are not committed")
    given = words.parse_args(arguments)
    try:
        place = release([*NAMES, *given.more], given.output, given.dirty)
    except (Refused, KeyError) as why:
        print(f"release: {why}", file=sys.stderr)
        return 1
    print(f"{place}: {place.stat().st_size / 1e6:.1f} MB, sha256 {hashlib.sha256(place.read_bytes()).hexdigest()}")
    return 0


if __name__ == "__main__":
    sys.exit(ended("release", lambda: main(sys.argv[1:])))
