"""The tests of releases, of a small repository whose programs are scripts.

python3 tools/release/tests
"""

from __future__ import annotations

import os
import shutil
import subprocess
import sys
import tarfile
import tempfile
import unittest
from pathlib import Path

TOP = Path(__file__).resolve().parents[3]
# Programs that say with which words they were started.
PROGRAM = "#!/bin/sh\necho {name} \"$@\"\n"
NAMES = ("nova", "nova_debug", "nova_explore", "nova_policy")


def run(*words: str | Path, folder: Path) -> subprocess.CompletedProcess[str]:
    """Runs a command in a folder, with no kit on the path and with hints."""
    how = os.environ | {"PATH": "/usr/bin:/bin", "GIT_CONFIG_GLOBAL": "/dev/null", "NOVA_HINTS": ""}
    return subprocess.run([*map(str, words)], cwd=folder, capture_output=True, text=True, env=how, check=False)


def repository(folder: str) -> Path:
    """A repository with what is packed, all of it committed, and its programs."""
    top = Path(folder, "top")
    for name in ("tools/build", "tools/release", "tools/draft", "tools/explain", "tools/picture", "tools/debug"):
        shutil.copytree(TOP / name, top / name, ignore=shutil.ignore_patterns("tests", "__pycache__"))
    shutil.copytree(TOP / "examples", top / "examples", ignore=lambda _, names: [name for name in names if not name.startswith("race.")])
    (top / "docs").mkdir()
    (top / "README.md").write_text("# nova\n")
    for name in ("nova", "nova-explore", "nova-policy"):
        shutil.copy(TOP / name, top / name)
    (top / ".gitignore").write_text("out/\n__pycache__/\n")
    (top / "HANDLES").write_text("Handles allowed: none.\n")
    (top / "crates.txt").write_text("low: # the lowest\nnova: low\nnova_debug: low\nnova_explore: low\nnova_policy: low\n")
    for crate, source in (("low", "lib.rt"), *((name, "main.rt") for name in NAMES)):
        (top / "crates" / crate / "src").mkdir(parents=True)
        (top / "crates" / crate / "src" / source).write_text("fn\n")
    for name in NAMES:
        program = top / "crates" / name / "out" / name
        program.parent.mkdir()
        program.write_text(PROGRAM.format(name=name))
        program.chmod(0o755)
    for words in (["init", "-q"], ["add", "-A"], ["-c", "user.name=a", "-c", "user.email=a@b", "commit", "-q", "-m", "All"]):
        run("git", *words, folder=top)
    return top


def release(top: Path, *words: str) -> subprocess.CompletedProcess[str]:
    """Packs a release."""
    return run(sys.executable, top / "tools/release", *words, folder=top)


class Releases(unittest.TestCase):
    """What is packed, and whether it runs."""

    def test_a_release_runs_by_itself(self) -> None:
        with tempfile.TemporaryDirectory() as folder:
            top, archive = repository(folder), Path(folder, "a.tar.gz")
            made = release(top, "--output", str(archive))
            self.assertEqual((made.returncode, made.stderr), (0, ""))
            with tarfile.open(archive) as packed:
                packed.extractall(folder)
            commit = run("git", "rev-parse", "HEAD", folder=top).stdout.strip()
            root = Path(folder, f"nova-{commit[:12]}")
            shutil.rmtree(top)
            self.assertEqual(run(root / "nova", "solo", "examples/race.nova", folder=root).stdout, "nova solo examples/race.nova\n")
            self.assertEqual(run(root / "nova", "draft", "x", folder=root).returncode, 1)
            for name in ("explore", "policy"):
                absent = run(root / f"nova-{name}", "examples/race.nova", folder=root)
                self.assertEqual((absent.returncode, absent.stderr), (1, f"nova: nova_{name} isn't in this release\n"))
            told = run(sys.executable, root / "tools/explain", "examples/race.report", folder=root)
            self.assertEqual((told.returncode, told.stdout.split(":")[0]), (0, "The run came to rest after 54 turns"))
            lines = (root / "MANIFEST").read_text().splitlines()
            self.assertEqual(lines[0], f"commit {commit}")
            self.assertEqual([line.split(" ", 2)[2] for line in lines if line.startswith("proved ")], ["low:", "nova: low", "nova_debug: low"])
            files = [line.split() for line in lines if line.startswith("file ")]
            self.assertEqual({name for _, _, name in files} - {str(path.relative_to(root)) for path in root.rglob("*")}, set())
            sums = "".join(f"{sum_} {name}\n" for _, sum_, name in files).replace(" ", "  ")
            Path(folder, "sums").write_text(sums)
            self.assertEqual(run("sha256sum", "--quiet", "-c", f"{folder}/sums", folder=root).returncode, 0)
            self.assertFalse((root / "tools/release").exists() or (root / "crates").exists())

    def test_another_program_is_packed_too(self) -> None:
        for name in ("explore", "policy"):
            with self.subTest(name), tempfile.TemporaryDirectory() as folder:
                top, archive = repository(folder), Path(folder, "a.tar.gz")
                self.assertEqual(release(top, "--with", f"nova_{name}", "--output", str(archive)).returncode, 0)
                with tarfile.open(archive) as packed:
                    packed.extractall(folder)
                (root,) = Path(folder).glob("nova-*")
                for words in ((root / f"nova-{name}",), (root / "nova", name)):
                    self.assertEqual(run(*words, "examples/race.nova", "ends", folder=root).stdout, f"nova_{name} examples/race.nova ends\n")

    def test_what_is_said_beside_the_line_of_the_policy(self) -> None:
        with tempfile.TemporaryDirectory() as folder:
            top = repository(folder)
            (top / "MANIFEST").touch()
            program = top / "bin" / "nova_policy"
            program.parent.mkdir()
            domains = "nova: no protection domain has such a number then. The same words with --policy /dev/null tell all there are\n"
            semaphores = "nova: no semaphore has such a number then. Lines sm of the run's report tell all there are\n"
            odd = "there is no option --before (a file with such a name stands behind --)"
            request = f"nova: these words are no request: {odd}. ./nova-policy --help lists them\n"
            for line, status, words, before, behind in (
                ("policy line 2: NoDomain 4", 7, ["a"], "", domains),
                ("policy line 3: NoSemaphore 5", 7, ["a"], "", semaphores),
                ("policy line 2: Number", 7, ["a"], "", ""),
                ("read fault", 3, ["a"], "nova: a: No such file or directory\n", ""),
                ("usage: ..", 2, ["--before"], request, ""),
            ):
                program.write_text(f"#!/bin/sh\necho 'nova_policy: {line}' >&2\nexit {status}\n")
                program.chmod(0o755)
                with self.subTest(line):
                    told = run(top / "nova-policy", *words, folder=top)
                    self.assertEqual((told.returncode, told.stdout, told.stderr), (status, "", f"{before}nova_policy: {line}\n{behind}"))
            program.write_text("#!/bin/sh\nprintf 'turn 3\\nserved\\n'\nexit 1\n")
            told = run(top / "nova-policy", "a", folder=top)
            self.assertEqual((told.returncode, told.stdout, told.stderr), (1, "turn 3\nserved\n", ""))
            for words in (("nova-policy", "--help"), ("nova", "policy", "--help")):
                self.assertIn("--policy POLICY", run(top / words[0], *words[1:], folder=top).stdout)

    def test_it_is_the_same_bytes_again(self) -> None:
        with tempfile.TemporaryDirectory() as folder:
            top = repository(folder)
            for name in ("a", "b"):
                self.assertEqual(release(top, "--output", f"{folder}/{name}").returncode, 0)
                os.utime(top / "README.md", (1, 1))
            self.assertEqual(Path(folder, "a").read_bytes(), Path(folder, "b").read_bytes())

    def test_refusals(self) -> None:
        with tempfile.TemporaryDirectory() as folder:
            top = repository(folder)
            (top / "README.md").write_text("# other\n")
            self.assertEqual(release(top).stderr, "release: README.md is not committed; --dirty packs the tree as it stands\n")
            made = release(top, "--dirty", "--output", f"{folder}/a")
            self.assertEqual(made.returncode, 0, made.stderr)
            with tarfile.open(f"{folder}/a") as packed:
                (manifest,) = [name for name in packed.getnames() if name.endswith("MANIFEST")]
                text = packed.extractfile(manifest)
                self.assertIn(b", with changes that are not committed\n", text.read() if text else b"")
            (top / "crates/low/src/lib.rt").write_text("fn two\n")
            self.assertIn("release: nova is of other sources: `python3 tools/build` builds it", release(top, "--dirty").stderr)
            (top / "crates/nova/out/nova").unlink()
            self.assertIn("release: nova is not built: ", release(top, "--dirty").stderr)


if __name__ == "__main__":
    unittest.main()
