"""The tests of the comparison: tables that go wrong are found out.

python3 tools/definitions/tests
"""

from __future__ import annotations

import sys
import tempfile
import unittest
from pathlib import Path

TOP = Path(__file__).resolve().parents[1]
sys.path.insert(0, str(TOP))

from heads import crate_summary, layers, shortened, summary  # noqa: E402
from index import stale, without_name, written  # noqa: E402
from names import Law, defined, laws_of, names_in, types  # noqa: E402
from others import stale as stale_laws  # noqa: E402
from others import written as with_laws  # noqa: E402
from rows import Link, contracts, edits_gone, links, missing, unnamed  # noqa: E402
from scenarios import FILE, differing  # noqa: E402
from sentences import stale as stale_sentences  # noqa: E402
from sentences import told  # noqa: E402
from sentences import written as with_sentences  # noqa: E402
from table import Credit, read, wrong  # noqa: E402
from words import assembled  # noqa: E402

# Definitions of two files, one name in both; a module and a use are none, and neither is what isn't public or is within a record.
SPECS = {
    "Turn.antt": "pub mod Edges\nuse Rattle.x.{pub}\nabbrev pub turn : ℕ\nturn = 0\nunfoldable pub entry : ℕ\nabbrev hidden : ℕ\n",
    "Edges.antt": "pub record Edge : Type 0 where\n  pub from : ℕ\npub data Way (n : ℕ) : Type 0 where\nabbrev pub entry : ℕ\n",
}

# Two laws, and a function with a result and one with an argument, which are none.
SOURCE = """/// It is.
pub fn edges_end()
    ensures first { (n : ℕ) → turn n ≡ 0 }
    ensures last { (n : ℕ)
        → turn n ≡ 1 }
{}

pub fn turns_end()
    ensures { (n : ℕ) → n ≡ n }
{
    edges_end();
}

pub fn count() -> u64
    ensures { result ≡ 0 }
{
    0
}

pub fn set(n: u64)
    ensures none { n ≡ n }
{}
"""
LAWS = [Law("nova_a", "edges_end", frozenset({"first", "last"})), Law("nova_a", "turns_end", frozenset())]

TABLE = """# Definitions that code copies, and more

A clause that no definition is.

| definitions | pinned by |
|---|---|
| **Edges** |  |
| `edge`, `Turn.entry` | `edges_end` (`first`, `last`), `turns_end` of `nova_a`; each: `turns_end`, by `nova_a/proofs/X.antt`. That it ends: **none** |
| `turn` |  |

## Another section

| `no_row` | of another section |
"""

# A type with a function, and a trait whose function has no body.
TYPES = """pub struct Line {
    end: u64,
}

impl Line {
    /// Its end.
    pub fn end<T: Copy>(
        &self,
    ) -> u64
        ensures exact { result ≡ self.end }
    {
        self.end
    }
}

pub trait Ends {
    fn all(&self) -> u64
        ensures few { result < 8 };

    fn none(&self) -> u64;
}
"""

RECORD = "pub record IsEnd (n : ℕ) : Type 0 where\n  pub last : n ≡ 0\n"

THEOREMS = """# What is proved

Not a row: [`edges_end`](../crates/nova_a/src/laws.rt): `third`.

| promise | by |
|---|---|
| `edge` ends | [`edges_end`](../crates/nova_a/src/laws.rt): `first`, `last`; [`IsEnd`](../crates/nova_a/specs/End.antt): `last` |
| a line ends | [`Line::end`](../crates/nova_a/src/line.rt): `exact`, [`Line`](../crates/nova_a/src/line.rt): `end`, `few`, `first` |
"""

# The table of other laws, with one that has a row and one that is gone.
OTHERS = (
    THEOREMS
    + """
## Other laws

By crate:

| law | what it says |
|---|---|
| **nova_a** | Edges. |
| [`edges_end`](../crates/nova_a/src/laws.rt) | It is. |
| [`gone`](../crates/nova_a/src/laws.rt) | It was. |

## Behind

Stays.
"""
)

BODIES = """| a | `nova_a`: `of_another_section` |

## Mutants, and more

| mutant | refused |
|---|---|
| early, late | `nova_a`: `ends_early`, `ends_late`; `nova_b`: `starts_early` |
| some | the four of `nova_a` |
"""

# Links, and what is wrong with each.
LINKS = (
    (Link("edges_end", "crates/nova_a/src/laws.rt", ("first", "last")), []),
    (Link("edges_end", "crates/nova_a/src/laws.rt", ("third",)), ["not behind edges_end: third"]),
    (Link("Line::end", "crates/nova_a/src/line.rt", ("few",)), ["not behind Line::end: few"]),
    (Link("Ends::all", "crates/nova_a/src/line.rt", ("few",)), []),
    (Link("Line", "crates/nova_a/src/line.rt", ("exact", "all", "fourth")), ["not behind Line: fourth"]),
    (Link("IsEnd", "crates/nova_a/specs/End.antt", ("last", "first")), ["not behind IsEnd: first"]),
    (Link("IsStart", "crates/nova_a/specs/End.antt", ("last",)), ["not in crates/nova_a/specs/End.antt: IsStart"]),
    (Link("starts", "crates/nova_a/src/laws.rt", ()), ["not in crates/nova_a/src/laws.rt: starts"]),
    (Link("edges_end", "crates/nova_a/src/edges.rt", ()), ["no file of edges_end: crates/nova_a/src/edges.rt"]),
)

# Two types of a source, each with a function of the same name; and lines that say what comments say first, or another thing.
SAID = """/// A line, to its end. It has one.
#[derive(Clone)]
pub struct Line {
}

impl Line {
    /// Where the line
    /// begins: before it.
    #[inline]
    pub fn begin(&self) -> u64 {
    }
}

impl Ends for Part {
    /// Where a part begins.
    fn begin(&self) -> u64 {
    }
}
"""
TOLD = """- [`Line`](../crates/nova_a/src/said.rt): A line, to its end.
- [`Line::begin`](../crates/nova_a/src/said.rt) (`first`):
- [`Part::begin`](../crates/nova_a/src/said.rt): Where it begins.
- [`end`](../crates/nova_a/src/said.rt): By hand.
- [`nova_a/src/said.rt`](../crates/nova_a/src/said.rt): `ends`
"""

# A scenario as a text and as a specification.
TEXT = """cpus 1
ram 2                           # pages
consoles 0
root 0 0 1 100

image 0x40 asm
again:  addi x17, x0, 3         # create_ec
        jal x0, again
end
"""
SCENARIO = """abbrev pub small : Scenario
small = record {
  cpus = 1;
  ram = 2;
  consoles = 0;
  root = record { pc = 0; sp = 0; priority = 1; quantum = 100 };
  images = image 64 (3147923 ∷ 4292866159 ∷ []) ∷ [];
  sources = [];
}
"""

# Lines and their words, by the formats of the RISC-V manual.
LINES = (
    (["li x6, 0x20181"], [0x00020337, 0x18130313]),
    (["li x5, 0x12345fff"], [0x123462B7, 0xFFF28293]),
    (["sw x6, 504(x5)", "lw x6, 72(x5)", "sb x6, 0(x7)"], [0x1E62AC23, 0x0482A303, 0x00638023]),
    (["loop: add x7, x7, x6", "addi x6, x6, -1", "bne x6, x0, loop"], [0x006383B3, 0xFFF30313, 0xFE031CE3]),
    (["slli x6, x6, 12", "jalr x0, 0(x1)", "ecall", "ebreak"], [0x00C31313, 0x00008067, 0x00000073, 0x00100073]),
)

# Credits, and what is wrong with each.
CREDITS = (
    (Credit("edges_end", ("first", "last"), frozenset({"nova_a"})), []),
    (Credit("edges_end", ("first",), frozenset()), []),
    (Credit("edges_end", ("firsts",), frozenset()), ["no clause of edges_end: firsts"]),
    (Credit("edge_ends", (), frozenset()), ["no law: edge_ends"]),
    (Credit("turns_end", (), frozenset({"nova_b"})), ["no law of nova_b: turns_end"]),
)

# What a file begins with, and the first sentence of it.
HEADS = (
    ("-- One turn.\nabbrev pub turn : ℕ\n", "One turn."),
    ("-- One turn of `a.nova`, with\n-- 1.5 | 2 ways. And more.\n--\n-- Not this.\n", r"One turn of `a.nova`, with 1.5 \| 2 ways."),
    (
        "-- Exits: (NOVA)\n-- go. Then more. (NOVA specification, exits; reasons are\n-- our own.)\n",
        "Exits: (NOVA) go. (NOVA specification, exits; reasons are our own.)",
    ),
    ("-- no sentence\nuse Rattle.x.{y}\n", "no sentence"),
    ("use Rattle.x.{y}\n-- Behind an import.\n", ""),
    ("", ""),
)
CRATES = {
    "crates.txt": "# The first.\nnova_b may=Wait: nova_c\nnova_c:\n\n# Without definitions.\nnova_d:\n",
    "crates/nova_b/specs/Lib.antt": "pub mod Turn\n",
    "crates/nova_b/specs/Turn.antt": "-- One turn. More.\n",
    "crates/nova_b/specs/Bare.antt": "use Rattle.x.{y}\n",
    "crates/nova_b/src/lib.rt": "//! Turns,\n//! one by one. More.\n//!\n//! Still more.\n",
    "crates/nova_d/src/main.rt": "//! Ends.\n",
}
INDEX = """# Definitions

## Files

Each says:

### Of another name

`nova_b/specs`

- `Bare.antt` †: By hand.
- `Gone.antt`: It was.
- `Turn.antt`: Two turns.

## Behind

Stays.
"""
NEW_INDEX = """# Definitions

## Files

Each says:

### The first

`nova_b/specs`

- `Bare.antt` †: By hand.
- `Turn.antt`: One turn.

## Behind

Stays.
"""


class Heads(unittest.TestCase):
    """What files say of themselves, and the page that has it."""

    def setUp(self) -> None:
        folder = tempfile.TemporaryDirectory()
        self.addCleanup(folder.cleanup)
        self.top = Path(folder.name)
        for name, text in CRATES.items():
            path = self.top / name
            path.parent.mkdir(parents=True, exist_ok=True)
            path.write_text(text, "utf-8")

    def test_a_summary_is_the_first_sentence_at_the_head(self) -> None:
        for text, said in HEADS:
            with self.subTest(text):
                self.assertEqual(summary(text, "--"), said)

    def test_a_long_sentence_ends_at_its_colon(self) -> None:
        words = " ".join(["word"] * 21)
        self.assertEqual(shortened(f"Turns, of all, one by one: {words}."), "Turns, of all, one by one.")
        kept = ("Turns, of all, one by one: the first.", f"Turns one by: {words} and more.", f"`a B C D`: {words} and.", f"One turn of a {words}.")
        for said in kept:
            self.assertEqual(shortened(said), said)

    def test_crates_have_their_layers_and_say_what_they_are(self) -> None:
        self.assertEqual([layer.crates for layer in layers(self.top)], [("nova_b", "nova_c"), ("nova_d",)])
        self.assertEqual([crate_summary(self.top, f"nova_{name}") for name in "bcd"], ["Turns, one by one.", "", "Ends."])

    def test_rows_are_written_anew_but_those_by_hand(self) -> None:
        self.assertEqual(written(INDEX, self.top), NEW_INDEX)
        self.assertEqual(written(NEW_INDEX, self.top), NEW_INDEX)
        self.assertEqual(stale(NEW_INDEX, self.top), [])

    def test_a_row_that_is_not_what_its_file_says_is_found(self) -> None:
        gone = "no file of definitions: nova_b/specs/Gone.antt"
        other = "the row of nova_b/specs/Turn.antt isn't what the file says: One turn."
        self.assertEqual(stale(INDEX, self.top), [other, gone])
        self.assertEqual(stale("# Empty\n\n## Files\n", self.top), ["no row of nova_b/specs/Bare.antt", "no row of nova_b/specs/Turn.antt"])

    def test_a_row_begins_without_the_name_of_its_file(self) -> None:
        said = ("Range words: base.", "Range word: base.", "Two words.", "Range words are.")
        self.assertEqual([without_name("nova_b/specs/RangeWords.antt", one) for one in said], ["base.", *said[1:]])

    def test_a_row_by_hand_is_of_a_file_that_says_nothing(self) -> None:
        marked = NEW_INDEX.replace("Turn.antt`", "Turn.antt` †")
        self.assertEqual(stale(marked, self.top), ["the row of nova_b/specs/Turn.antt is written by hand, and the file says: One turn."])
        unmarked = NEW_INDEX.replace(" †", "")
        self.assertEqual(stale(unmarked, self.top), ["the row of nova_b/specs/Bare.antt isn't what the file says: nothing"])


class Names(unittest.TestCase):
    """What sources have."""

    def test_definitions_are_public_and_at_the_start_of_a_line(self) -> None:
        self.assertEqual(names_in(SPECS["Turn.antt"]), {"turn", "entry"})
        self.assertEqual(names_in(SPECS["Edges.antt"]), {"Edge", "Way", "entry"})

    def test_a_name_of_two_files_has_its_file(self) -> None:
        with tempfile.TemporaryDirectory() as folder:
            for name, text in SPECS.items():
                Path(folder, name).write_text(text, "utf-8")
            self.assertEqual(defined(Path(folder)), {"turn", "Edge", "Way", "Turn.entry", "Edges.entry"})

    def test_a_type_without_parameters_needs_no_law(self) -> None:
        with tempfile.TemporaryDirectory() as folder:
            for name, text in SPECS.items():
                Path(folder, name).write_text(text, "utf-8")
            self.assertEqual(types(Path(folder)), {"Edge"})

    def test_laws_take_and_give_nothing(self) -> None:
        with tempfile.TemporaryDirectory() as folder:
            source = Path(folder, "crates/nova_a/src/laws.rt")
            source.parent.mkdir(parents=True)
            source.write_text(SOURCE, "utf-8")
            self.assertEqual(laws_of(Path(folder)), LAWS)


class Rows(unittest.TestCase):
    """What the table says."""

    def test_rows_are_of_the_section_and_name_definitions(self) -> None:
        rows = read(TABLE)
        self.assertEqual([row.definitions for row in rows], [("edge", "Turn.entry"), ("turn",)])
        self.assertEqual([row.right == "" for row in rows], [False, True])
        self.assertEqual([row.says_none() for row in rows], [True, False])

    def test_a_crate_is_of_the_laws_in_its_phrase(self) -> None:
        its = frozenset({"nova_a"})
        wanted = [Credit("edges_end", ("first", "last"), its), Credit("turns_end", (), its), Credit("turns_end", (), frozenset())]
        self.assertEqual(read(TABLE)[0].credits({"nova_a", "nova_b"}), wanted)

    def test_what_is_not_there_is_found(self) -> None:
        for credit, said in CREDITS:
            with self.subTest(credit):
                self.assertEqual(wrong(credit, LAWS), said)


class Scenarios(unittest.TestCase):
    """Scenarios of specifications."""

    def test_lines_have_their_words(self) -> None:
        for lines, words in LINES:
            with self.subTest(lines):
                self.assertEqual(assembled(lines, 0), words)

    def test_another_word_or_setting_is_found(self) -> None:
        with tempfile.TemporaryDirectory() as folder:
            top = Path(folder)
            for name, text in ((FILE, SCENARIO), ("examples/small.nova", TEXT)):
                (top / name).parent.mkdir(parents=True)
                (top / name).write_text(text, "utf-8")
            self.assertEqual(differing(top), [])
            for old, new in (("3147923", "2099347"), ("ram = 2", "ram = 3"), ("image 64", "image 68"), ("priority = 1", "priority = 2")):
                (top / FILE).write_text(SCENARIO.replace(old, new), "utf-8")
                self.assertEqual(differing(top), [f"{FILE}: small isn't small.nova"])
            (top / "examples/small.nova").unlink()
            self.assertEqual(differing(top), [f"{FILE}: no small.nova for small"])


class Theorems(unittest.TestCase):
    """What the rows of theorems link to."""

    def setUp(self) -> None:
        folder = tempfile.TemporaryDirectory()
        self.addCleanup(folder.cleanup)
        self.top = Path(folder.name)
        for name, text in (("src/laws.rt", SOURCE), ("src/line.rt", TYPES), ("specs/End.antt", RECORD)):
            path = self.top / "crates/nova_a" / name
            path.parent.mkdir(parents=True, exist_ok=True)
            path.write_text(text, "utf-8")

    def test_links_stand_in_last_cells_with_what_is_behind_them(self) -> None:
        self.assertEqual([(link.name, link.behind) for link in links(THEOREMS)], [
            ("edges_end", ("first", "last")), ("IsEnd", ("last",)), ("Line::end", ("exact",)), ("Line", ("end", "few", "first"))])
        self.assertEqual([fault for link in links(THEOREMS) for fault in missing(link, self.top)], [])

    def test_a_contract_ends_where_its_body_begins(self) -> None:
        for source, name, clauses in (
            (SOURCE, "edges_end", 2),
            (SOURCE, "turns_end", 1),
            (SOURCE, "set", 1),
            (TYPES, "end", 1),
            (TYPES, "all", 1),
            (TYPES, "none", 0),
        ):
            with self.subTest(name):
                self.assertEqual([text.count("ensures") for text in contracts(source, name)], [clauses])

    def test_what_is_not_there_is_found(self) -> None:
        for link, said in LINKS:
            with self.subTest(link):
                self.assertEqual(missing(link, self.top), said)

    def test_an_edit_that_is_gone_is_found(self) -> None:
        folder = self.top / "crates/nova_a/must-fail"
        folder.mkdir()
        (folder / "ends_early.edit").write_text("", "utf-8")
        self.assertEqual(edits_gone(BODIES, self.top), ["no edit of nova_a: ends_late", "no edit of nova_b: starts_early"])

    def test_a_clause_or_field_that_no_row_names_is_found(self) -> None:
        whole = (("edges_end", "crates/nova_a/src/laws.rt"), ("IsEnd", "crates/nova_a/specs/End.antt"))
        self.assertEqual(unnamed(links(THEOREMS), whole, self.top), [])
        self.assertEqual(unnamed(links(THEOREMS.replace("`first`, `last`;", "`first`;")), whole, self.top), ["no row of edges_end: last"])
        self.assertEqual(unnamed(links(THEOREMS.replace("End.antt): `last`", "End.antt)")), whole, self.top), ["no row of IsEnd: last"])

    def test_lines_say_what_comments_say_first(self) -> None:
        (self.top / "crates/nova_a/src/said.rt").write_text(SAID, "utf-8")
        first, second, third, *rest = TOLD.splitlines()
        page = "\n".join([first, f"{second} Where the line begins: before it.", third.replace("it begins", "a part begins"), *rest, ""])
        self.assertEqual(with_sentences(TOLD, self.top), page)
        self.assertEqual(stale_sentences(page, self.top), ["the line of end isn't what crates/nova_a/src/said.rt says: nothing"])
        self.assertEqual([fault.split(" isn't")[0] for fault in stale_sentences(TOLD, self.top)], [
            "the line of Line::begin", "the line of Part::begin", "the line of end"])
        self.assertEqual([(link.name, link.behind) for link in told(TOLD)], [
            ("Line", ()), ("Line::begin", ("first",)), ("Part::begin", ()), ("end", ())])

    def with_other_laws(self, comment: str) -> None:
        """Gives the crate a subject, and its second law a comment."""
        (self.top / "crates.txt").write_text("# The first.\nnova_a:\n", "utf-8")
        (self.top / "crates/nova_a/src/lib.rt").write_text("//! Edges. More.\n", "utf-8")
        text = SOURCE.replace("pub fn turns_end", f"{comment}pub fn turns_end")
        (self.top / "crates/nova_a/src/laws.rt").write_text(text, "utf-8")

    def test_laws_without_a_row_have_one_in_the_table(self) -> None:
        self.with_other_laws("/// Turns `a|b` end. More.\n")
        laws = laws_of(self.top)
        page = with_laws(OTHERS, laws, self.top)
        rows = OTHERS.replace("| [`edges_end`](../crates/nova_a/src/laws.rt) | It is. |\n", "")
        self.assertEqual(page, rows.replace("gone", "turns_end").replace("It was.", r"Turns `a\|b` end."))
        self.assertEqual(with_laws(page, laws, self.top), page)
        self.assertEqual(stale_laws(page, laws, self.top), [])

    def test_a_long_sentence_of_a_law_ends_at_its_colon(self) -> None:
        before, behind = "Each of the turns of a run ends in its time", f"{'soon and ' * 13}late."
        self.with_other_laws(f"/// {before}: {behind}\n/// So they do.\n")
        self.assertIn(f"laws.rt) | {before}. |\n", with_laws(OTHERS, laws_of(self.top), self.top))
        self.with_other_laws(f"/// What ends: {behind}\n/// So they do.\n")
        self.assertIn(f"laws.rt) | What ends: {behind} |\n", with_laws(OTHERS, laws_of(self.top), self.top))

    def test_stale_rows_of_laws_are_found(self) -> None:
        self.with_other_laws("/// Turns end.\n")
        laws, link = laws_of(self.top), "(../crates/nova_a/src/laws.rt)"
        self.assertEqual(stale_laws(OTHERS, laws, self.top), [
            f'"Other laws" lacks this row: | [`turns_end`]{link} | Turns end. |',
            f'"Other laws" has a row that no law without one above is to have: | [`edges_end`]{link} | It is. |',
            f'"Other laws" has a row that no law without one above is to have: | [`gone`]{link} | It was. |',
        ])
        (self.top / "crates/nova_a/src/lib.rt").write_text("//! Ends.\n", "utf-8")
        self.assertIn('"Other laws" lacks this row: | **nova_a** | Ends. |', stale_laws(OTHERS, laws, self.top))

    def test_a_law_without_a_comment_is_found(self) -> None:
        self.with_other_laws("")
        laws = laws_of(self.top)
        page = with_laws(OTHERS, laws, self.top)
        self.assertEqual(stale_laws(page, laws, self.top), ["crates/nova_a/src/laws.rt says nothing of turns_end"])


if __name__ == "__main__":
    unittest.main()
