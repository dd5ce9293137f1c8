"""The tests of the comparison: pages that grow stale are found out.

python3 tools/changes/tests
"""

from __future__ import annotations

import sys
import tempfile
import unittest
from pathlib import Path

TOP = Path(__file__).resolve().parents[1]
sys.path.insert(0, str(TOP))

from crates import file_rows, stale_crates, with_crates  # noqa: E402
from page import gone, named  # noqa: E402
from tables import Enumeration, citing, sources, tables, variants  # noqa: E402

CALLS = """/// What is asked for. It was Never.
pub enum Call {
    /// Asks.
    Ask {
        whom: u32,
    },
    Reply,
    Make(u32),
    Look,
}

pub enum Other {
    None,
}
"""

# A table of all, one with a default, one that only imports and tells of them, and a test's.
FILES = {
    "nova_a/src/call.rt": CALLS,
    "nova_a/src/row.rt": "use crate::call::Call::{Ask};\nfn row(c: Call) { match c { Ask => 0, Reply => 1, Make => 2, Look => 3 } }\n",
    "nova_b/specs/Rows.antt": "row Ask = 0\nrow Reply = 1\nrow Make = 2\nrow _ = 3\n",
    "nova_b/proofs/Told.antt": "use Rattle.nova_a.{Ask, Reply, Make, Look}\n-- Ask, Reply, Make and Look\nrow Ask = refl\n",
    "nova_b/out/kept.rt": CALLS,
    "nova_tests_a/src/calls.rt": CALLS,
}
OF = Enumeration("A call", "crates/nova_a/src/call.rt", "Call", 0.75)
FOUND = ["nova_a/src/call.rt", "nova_a/src/row.rt", "nova_b/specs/Rows.antt"]

PAGE = "| `nova_a/src/row.rt` (`row`, the table `Call`), `Rows.antt` (of some); `nova_a/src`; `cargo.toml` |\n"

# What is named, and what is wrong with it.
GONE = (
    ("`nova_a/src/row.rt` (`row`)", []),
    ("`row.rt` (`row`, and `column`)", ["not in row.rt: column"]),
    ("`nova_b/src/row.rt`", ["no file: nova_b/src/row.rt"]),
    ("`src/call.rt` and `Lines.antt` (`line`)", ["no file: Lines.antt"]),
    ("`nova_b/out/kept.rt`", ["no file: nova_b/out/kept.rt"]),
)

# Crates by layer, and the page with a list for each, before and after it is written.
CRATES = {
    "crates.txt": "# The first.\nnova_a: nova_b\nnova_b:\n\n# The last.\nnova_d may=Wait:\n\n# Tests.\nnova_tests_a: nova_a\n",
    "nova_a/src/lib.rt": "//! Asks. More.\n",
    "nova_b/src/lib.rt": "//! Rows,\n//! by number.\n//!\n//! More.\n",
    "nova_d/src/main.rt": "//! `d`: ends.\n",
    "nova_tests_a/src/lib.rt": "//! Tries.\n",
}
OLD = """# Architecture

### By layer

Each says:

**The first**

- `nova_b`: Rows, by number.
- `nova_a`: Answers.

## Another
"""
NEW = """# Architecture

### By layer

Each says:

**The first**

- `nova_a`: Asks.
- `nova_b`: Rows, by number.

**The last**

- `nova_d`: `d`: ends.

## Another
"""


class Crates(unittest.TestCase):
    """The tables that are written."""

    def setUp(self) -> None:
        folder = tempfile.TemporaryDirectory()
        self.addCleanup(folder.cleanup)
        self.top = Path(folder.name)
        for name, text in CRATES.items():
            path = self.top / (name if name == "crates.txt" else f"crates/{name}")
            path.parent.mkdir(parents=True, exist_ok=True)
            path.write_text(text, "utf-8")

    def test_rows_are_what_crates_say(self) -> None:
        self.assertEqual(with_crates(OLD, self.top), NEW)
        self.assertEqual(with_crates(NEW, self.top), NEW)
        self.assertEqual(stale_crates(NEW, self.top), [])

    def test_a_row_that_is_not_what_its_crate_says_is_found(self) -> None:
        lacks, none = '"By layer" lacks this row: ', '"By layer" has a row of no crate: '
        said = [lacks + "- `nova_a`: Asks.", lacks + "**The last**", lacks + "- `nova_d`: `d`: ends.", none + "- `nova_a`: Answers."]
        self.assertEqual(stale_crates(OLD, self.top), said)
        turned = NEW.replace("- `nova_a`: Asks.\n- `nova_b`: Rows, by number.", "- `nova_b`: Rows, by number.\n- `nova_a`: Asks.")
        self.assertEqual(stale_crates(turned, self.top), ['"By layer" has its rows in another order than crates.txt'])

    def test_a_crate_that_says_nothing_is_found(self) -> None:
        (self.top / "crates/nova_d/src/main.rt").write_text("fn main() {}\n", "utf-8")
        self.assertEqual(stale_crates(with_crates(NEW, self.top), self.top), ["nova_d says nothing at its head"])

    def test_files_are_shown_by_crate(self) -> None:
        self.assertEqual(file_rows(FOUND), "  nova_a: src/call.rt, src/row.rt\n  nova_b: specs/Rows.antt")
        self.assertEqual(file_rows([]), "")


class Changes(unittest.TestCase):
    """What the crates have, and what the page says of it."""

    def setUp(self) -> None:
        folder = tempfile.TemporaryDirectory()
        self.addCleanup(folder.cleanup)
        self.top = Path(folder.name)
        for name, text in FILES.items():
            path = self.top / "crates" / name
            path.parent.mkdir(parents=True, exist_ok=True)
            path.write_text(text, "utf-8")

    def test_variants_are_those_of_the_enumeration(self) -> None:
        self.assertEqual(variants(CALLS, "Call"), ["Ask", "Reply", "Make", "Look"])
        self.assertEqual(variants(CALLS, "Gone"), [])

    def test_sources_are_those_of_crates_without_tests(self) -> None:
        self.assertEqual([path.name for path in sources(self.top)], ["call.rt", "row.rt", "Told.antt", "Rows.antt"])

    def test_a_table_has_a_row_for_most_variants(self) -> None:
        self.assertEqual(tables(self.top, OF), FOUND)

    def test_proofs_that_import_a_definition_cite_it(self) -> None:
        self.assertEqual(citing(self.top, "Make", "Rattle.nova_a"), ["nova_b/proofs/Told.antt"])
        self.assertEqual(citing(self.top, "Mak", "Rattle.nova_a"), [])
        self.assertEqual(citing(self.top, "Make", "Rattle.nova_b"), [])

    def test_names_in_brackets_are_of_the_file_before_them(self) -> None:
        self.assertEqual(named(PAGE)[:2], [("nova_a/src/row.rt", ["row", "Call"]), ("Rows.antt", [])])

    def test_what_is_not_there_is_found(self) -> None:
        for text, said in GONE:
            with self.subTest(text):
                self.assertEqual(gone(text, self.top), said)


if __name__ == "__main__":
    unittest.main()
