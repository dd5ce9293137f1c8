"""The tests of the pages: what is wrong with a page is found out.

python3 tools/pages/tests
"""

from __future__ import annotations

import sys
import tempfile
import unittest
from pathlib import Path

TOOL = Path(__file__).resolve().parents[1]
sys.path.insert(0, str(TOOL))

from links import faults_of  # noqa: E402
from machine import Machine  # noqa: E402
from page import Page  # noqa: E402
from samples import Tried, try_page  # noqa: E402

# A program with the words of nova, which knows one scenario, one order of it, and one fault.
PROGRAM = """#!/bin/sh
case $1 in
--limit) echo limited; exit ;;
esac
case "$*: $(cat tried.nova)" in
*fault*) echo 'nova: scenario line 1: Syntax' >&2; exit 4 ;;
check*) echo ok ;;
*tried.order*) [ "$(cat tried.order)" = '0 2' ] && echo ordered || { echo 'nova: order line 1: Idle' >&2; exit 5; } ;;
*--limit*) echo limited ;;
*x17*) echo 'ec 1 global dead 0000004c x10=00000005 x11=0000001f' ;;
*) echo report ;;
esac
"""

RIGHT = (
    "```nova\na\n```\n```text\nreport\n```",
    "```nova\na\n```\nso\n```text\nreport\n```",
    "```nova --limit 4\na\n```\n```text\nlimited\n```",
    "```nova\na fault\n```\n```text\nnova: scenario line 1: Syntax\n```",
    "```nova\na\n```\n## Else\n```text\nof something else\n```",
    "```nova\na\n```\n```text part=docs/A.md\n# A\n```",
    "```nova\na\n```\n```order\n0 2\n```\n```text\nordered\n```",
    "```order\nof nothing\n```",
    "```asm\nnop\n```",
    "```text part=docs/A.md\n# A\nlast\n```",
    "```text whole=docs/A.md\n# A\n[a](B.md#b-1) `[a](C.md)`\nlast\n```",
    "```sh try\necho 1\n```\n```text\n1\n```",
    "```sh try\ntrue\n```",
    "```sh\nfalse\n```",
    "```sh try needs=sh,no-such-command\nfalse\n```",
    "| line outside a block | fault | why |\n|---|---|---|\n| `a fault` | Syntax | |",
    "| example | what |\n|---|---|\n| `nop` | nothing |",
    "| registers of the root | answer | why |\n|---|---|---|\n| `x17=12`, `x17=8 x10=1` | BAD_CAP, x11=0x1f | |",
    "```nova\na\n```\n| lines of the order | end | why |\n|---|---|---|\n| `0 2` | Done | |\n| none | Idle in line 1 | |",
)
WRONG = (
    "```nova\na\n```\n```text\nother\n```",
    "```nova\na fault\n```\n```text\nreport\n```",
    "```nova\na\n```\n```text\nnova: scenario line 1: Syntax\n```",
    "```nova\na fault\n```",
    "```nova\na\n```\n```order\n0 3\n```\n```text\nordered\n```",
    "```asm\nfault\n```",
    "```text part=docs/A.md\nlast\n# A\n```",
    "```text part=docs/C.md\nlast\n```",
    "```text whole=docs/A.md\n# A\n```",
    "```sh try needs=nova\nfalse\n```",
    "```sh try\necho 1\n```\n```text\n2\n```",
    "```sh try\nfalse | true\n```",
    "| line outside a block | fault | why |\n|---|---|---|\n| `a` | Syntax | |",
    "| line of a hex block | fault | why |\n|---|---|---|\n| `a fault` | Syntax | |",
    "| example | what |\n|---|---|\n| `fault` | nothing |",
    "| registers of the root | answer | why |\n|---|---|---|\n| `x17=8 x10=1` | BAD_CAP, x11=0 | |",
    "| registers of the root | answer | why |\n|---|---|---|\n| `x17=8 x10=1` | SUCCESS | |",
    "```nova\na\n```\n| lines of the order | end | why |\n|---|---|---|\n| `0 2` | Limit | |",
)

PAGES = {"README.md": "[a](docs/A.md#a), [b](docs/B.md)\n", "docs/A.md": "# A\n[a](B.md#b-1) `[a](C.md)`\nlast\n", "docs/B.md": "# `B`\n## B\n"}
LOST = (
    ("docs/A.md", "# A\n[a](B.md#b-2)\n"),
    ("docs/A.md", "# A\n[a](C.md)\n"),
    ("docs/A.md", "# A\n[a\na](#b)\n"),
    ("examples/a.nova", "# see docs/C.md\n"),
    ("examples/a.nova", '# see docs/B.md, "A"\n'),
    ("examples/a.nova", '# see "A" in `docs/B.md`\n'),
)


def repository(folder: str) -> Path:
    """A repository with the pages."""
    top = Path(folder, "top")
    for name in ("docs", "examples", "tools"):
        (top / name).mkdir(parents=True)
    for name in (".ci/run", "nova", "crates.txt"):
        (top / name).parent.mkdir(exist_ok=True)
        (top / name).write_text("", "utf-8")
    for name, text in PAGES.items():
        (top / name).write_text(text, "utf-8")
    return top


def tried(text: str) -> Tried:
    """What comes of a page with this text."""
    of = Tried()
    with tempfile.TemporaryDirectory() as folder:
        top = repository(folder)
        program, scratch = Path(folder, "program"), Path(folder, "scratch")
        program.write_text(PROGRAM, "utf-8")
        program.chmod(0o755)
        scratch.mkdir()
        try_page(Page(top / "docs/D.md", text), Machine(program, top, scratch), of)
    return of


class Samples(unittest.TestCase):
    """What pages show."""

    def test_what_is_right_is_taken(self) -> None:
        for text in RIGHT:
            with self.subTest(text):
                self.assertEqual(tried(text).faults, [])

    def test_what_is_wrong_is_found_out(self) -> None:
        for text in WRONG:
            with self.subTest(text):
                self.assertEqual(len(tried(text).faults), 1)

    def test_what_is_not_tried_is_counted(self) -> None:
        counts = [(tried(text).count, tried(text).left) for text in RIGHT]
        self.assertEqual(counts, [(1, 0)] * 5 + [(2, 0), (2, 0), (0, 0)] + [(1, 0)] * 5 + [(0, 0), (0, 1), (1, 0), (1, 0), (1, 0), (3, 0)])


class Links(unittest.TestCase):
    """Where pages lead."""

    def test_what_is_there_is_found(self) -> None:
        with tempfile.TemporaryDirectory() as folder:
            self.assertEqual(faults_of(repository(folder)), (4, []))

    def test_what_is_not_there_is_found_out(self) -> None:
        for name, text in LOST:
            with self.subTest(text), tempfile.TemporaryDirectory() as folder:
                top = repository(folder)
                (top / name).write_text(text, "utf-8")
                self.assertEqual(len(faults_of(top)[1]), 1)


if __name__ == "__main__":
    unittest.main()
