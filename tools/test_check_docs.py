"""Tests of check_docs.py, and of the documents by it."""
import pathlib
import tempfile
import unittest
from dataclasses import replace

import check_docs
from check_docs import (
    Names,
    asking_faults,
    blocks_in,
    clause_faults,
    crates_of,
    head_of,
    is_name,
    link_faults,
    long_sentences,
    map_differences,
    missing,
    module_faults,
    names_in,
    runs_in,
    shown_in,
    slug_of,
    unknown_names,
)
from contracts import Clause, Function

CRATES_TXT = """# lowest first
low:
middle: low hex
high staticlib: middle low
"""

MAP = """# Map

```text
high      the top
middle    between
low       the bottom
```

| Crate | Knows |
|---|---|
| `low` | `bytes` |
| `middle` | words |
| `high` | all |

The way of one run: `high`.
"""

FILE = """-- A file.
use Rattle.other.{Left}

abbrev pub word_at : ℕ → ℕ
word_at n = n

pub record IsState (s : State) : Type 0 where
  pub ra : ℕ

pub data CalleeSaved : Type 0 where
  RBX RBP : CalleeSaved
"""

OWN: Names = {"State": names_in(FILE)}
SPECS: dict[str, Names] = {"unwind_definitions": OWN, "low": {"Image": {"word_at"}, "Halving": {"halved"}}}


def function(name: str, owner: str, public: bool, *clauses: str) -> Function:
    """A function with clauses of these names."""
    said = [Clause("ensures", clause, "") for clause in clauses]
    return Function("low", pathlib.Path("none.rt"), name, owner, public, said, False)


FUNCTIONS = [
    function("read", "", True, "exact", "none"),
    function("inner", "", False, "exact"),
    function("new", "impl Table", True, "empty"),
    function("find", "impl Table", True, "found"),
]

PROVED = """
| Call | Clause | What it says |
|---|---|---|
| `read` | `exact` | All. |
| | `none` | None. |
| `Table::find`, in `low` | `found` (the law `lost`) | It finds. |
| `Table` | `empty`, `found` | Both. |
"""


class Documents(unittest.TestCase):
    def test_the_documents_of_this_repository(self) -> None:
        for name, check in check_docs.CHECKS.items():
            with self.subTest(name):
                self.assertEqual(check(), [])


class Map(unittest.TestCase):
    def test_differences(self) -> None:
        cases: list[tuple[str, str, list[str]]] = [
            ("", "", []),
            ("middle    between\n", "", ["middle stands 0 times in the picture"]),
            ("low       the", "other     the", [
                "low stands 0 times in the picture",
                "other stands in the picture, and crates.txt has no such crate",
            ]),
            ("| `middle` | words |\n", "", ["middle stands 0 times in the table"]),
            ("| `high` | all |", "| `high` | all | more |", ["`high`: 3 cells, and not 2"]),
        ]
        for old, new, expected in cases:
            with self.subTest(old=old, new=new):
                self.assertEqual(map_differences(MAP.replace(old, new), crates_of(CRATES_TXT)), expected)


    def test_modules(self) -> None:
        modules = {"low": {"bytes", "lib"}, "middle": {"words"}, "high": {"lib"}}
        text = MAP.replace("`bytes` |", "bytes (`bytes`), (`Steps` of `middle`) |")
        text = text.replace("words |", "words (`abi/words`, `lost`) |")
        self.assertEqual(module_faults(text, modules), ["`middle` has no module lost"])


class Definitions(unittest.TestCase):
    def test_names_of_a_file(self) -> None:
        self.assertLessEqual({"word_at", "IsState", "ra", "CalleeSaved", "RBX", "RBP"}, names_in(FILE))
        self.assertNotIn("Left", names_in(FILE))

    def test_missing(self) -> None:
        cases = {
            "| a word | `low/specs/Image.word_at`, `halved`, `Halving.halved`, `Halving` |": [],
            "| a word | `low/specs/Image.halved` |": ["low/specs/Image.halved"],
            "| a word | `low/specs/Image.word_at`, `lost`, `Image.halved` |": ["lost", "Image.halved"],
            "| `lost` | `lower/specs/Image` |": ["lower/specs/Image"],
            "by `crates/low/specs/Image.antt`, `Lib.antt` and `lost`": [],
            "| a state | `State.IsState`, `State.lost`, `ra` |": ["State.lost"],
        }
        for text, expected in cases.items():
            with self.subTest(text):
                self.assertEqual(missing(text, SPECS, OWN), [f"line 1: `{said}`" for said in expected])


class NamesInBackquotes(unittest.TestCase):
    def test_what_is_a_name(self) -> None:
        known = {"walk", "Space", "add_elf", "check_docs.py", "unwind_cli"}
        paths = ("check_docs.py", "tools/check_docs.py", "examples/*.c", "low/specs/Lost")
        for said in ("walk", "Space::add_elf", "unwind_cli walk", "tools/check_docs.py CHECK", "frame I ra=0xN", *paths):
            self.assertTrue(is_name(said, known), said)
        strangers = ("wander", "Space::add_coff", "unwind_cli wander", "tools/check_docks.py CHECK", "/usr/lib")
        for said in strangers:
            self.assertFalse(is_name(said, known), said)

    def test_where_names_are_read(self) -> None:
        text = "`lost`\n```\n`block`\n```\n<!-- `comment` -->\n| `upstream` | `here` |\n"
        self.assertEqual(unknown_names(text, set(), True), ["line 1: `lost`", "line 6: `here`"])
        self.assertIn("line 6: `upstream`", unknown_names(text, set(), False))


class Clauses(unittest.TestCase):
    def test_a_row_names_clauses_of_its_call(self) -> None:
        cases = [
            ("", "", []),
            ("`none`", "`some`", ["line 5: no clause `some` of read"]),
            ("`read`", "`inner`", ["line 4: there is no `inner`"]),
            ("`Table::find`", "`Table::new`", ["line 6: no clause `found` of Table::new"]),
        ]
        for old, new, expected in cases:
            with self.subTest(new=new):
                found = clause_faults(PROVED.replace(old, new), FUNCTIONS, {})
                self.assertLessEqual(set(expected), set(found))
        self.assertEqual(clause_faults(PROVED, FUNCTIONS, {}), [])
        self.assertEqual(clause_faults("## `low`\n" + PROVED, FUNCTIONS, {}), [])
        elsewhere = [*FUNCTIONS, replace(FUNCTIONS[0], crate="high")]
        self.assertEqual(clause_faults("## `high`\n" + PROVED, elsewhere, {"high": {"Table"}}), [
            "line 7: there is no `Table::find`",
            "line 7: no clause `found` of Table::find",
            "line 8: no clause `empty` of Table",
            "line 8: no clause `found` of Table",
        ])

    def test_calls_that_ask_something_are_named(self) -> None:
        asking = [replace(f, clauses=[Clause("requires", "", "")]) for f in FUNCTIONS]
        table = "\n| Call | Asks |\n|---|---|\n| `read` | a byte |\n\n| `find` | |\n"
        self.assertEqual(asking_faults(table, asking, {"low": {"read", "inner", "Table"}}), [
            "the table of calls that ask something lacks low.new",
            "the table of calls that ask something lacks low.find",
        ])
        self.assertEqual(asking_faults(table, asking, {"low": {"read"}}), [])


class Examples(unittest.TestCase):
    def test_blocks_are_compared_by_their_lines(self) -> None:
        block = "//! ```rust\n//! use low::Table;\n//!\n//! let table = Table::new();   // none\n//! ```\n"
        head = f"//! A library.\n//!\n{block}\nfn f() {{}}\n"
        program = "fn g() {\n    // example\n    let table = Table::new();\n    // end\n}\n"
        self.assertEqual(blocks_in(head_of(head)), [["let table = Table::new();"]])
        self.assertEqual(shown_in(program), blocks_in(head_of(head)))

    def test_runs_are_blocks_of_their_own(self) -> None:
        run = "#0  0x0000000000401006\nend: the outermost frame, which returns to 0\n"
        self.assertEqual(runs_in(f"Text.\n```text\n{run}```\n```text\n#0 0x1 in f\n```\n"), [run])


class Readme(unittest.TestCase):
    def test_long_sentences(self) -> None:
        unread = "# A heading of many words\n\n```\na block of many words\n```\n"
        text = f"One two three. Four [five six](seven.md).\n\n{unread}\n| in a table | `one word of output` |\n"
        self.assertEqual(long_sentences(text, 3), [])
        self.assertEqual(
            long_sentences(text, 2), ["3 words: One two three. ..", "3 words: Four [five six]. ..", "3 words: in a table .."]
        )

    def test_links(self) -> None:
        self.assertEqual(slug_of("## Stops at every instruction"), "stops-at-every-instruction")
        with tempfile.TemporaryDirectory() as folder:
            page, other = pathlib.Path(folder, "page.md"), pathlib.Path(folder, "other.md")
            other.write_text("# A heading\n")
            right = "[a](other.md#a-heading) [b](https://example.org/)"
            page.write_text(f"{right} [c](#lost) [d](lost.md) [e](other.md#lost)\n")
            self.assertEqual(list(link_faults(page)), [
                "page.md links to #lost, and there is no such heading",
                "page.md links to lost.md, which isn't there",
                "page.md links to other.md#lost, and there is no such heading",
            ])


if __name__ == "__main__":
    unittest.main()
