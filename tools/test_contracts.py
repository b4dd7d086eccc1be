"""Tests of contracts.py: where clauses begin and end, and what texts name."""
import pathlib
import tempfile
import unittest

from contracts import Specs, definitions_in, functions_in, imports_of

SOURCE = """
ghost use Rattle.low.specs.Image.{IsLaidOut, word_at};
ghost use Rattle.low.specs.Sample as sample;

/// Reads, with a `{` in its words.
pub fn read(table: &[u8; 4], f: fn() -> u8) -> Option<u64>
    ghost image: { List Span }
    requires some { 0 < length image }
    // A comment with ensures lost { x }.
    ensures exact { (a : ℕ) → IsLaidOut image → (result ≡ word_at image a) }
    ensures { record { a = 1 }.a ≡ 1 }
{
    { 1 }
}

pub fn law() ensures met { IsLaidOut sample.image } {}

pub trait Finder {
    fn find(&self) -> u64
        ensures found { result ≡ 1 };
}

impl Finder for Table {
    pub(crate) fn inner(&self) {}
}
"""

SPECS = """-- A file.
use Rattle.low.specs.Other.{IsSpan}

-- a word
abbrev pub word_at : List Span → ℕ → ℕ
word_at image a = a

pub record IsLaidOut (image : List Span) : Type 0 where
  pub each : IsSpan image
  pub first : word_at image 0 ≡ 0

pub record Span : Type 0 where
  pub start : ℕ

pub data Kind : Type 0 where
  Elf Pe : Kind

abbrev pub Holds : List Span → Type 0
Holds image = IsLaidOut image
"""

OTHER = """abbrev pub IsSpan : ℕ → Type 0
IsSpan n = n ≡ n
"""

SAMPLE = """abbrev pub image : ℕ
image = 1
"""


class Contracts(unittest.TestCase):
    def test_functions(self) -> None:
        read, law, find, inner = functions_in("low", pathlib.Path("a.rt"), SOURCE)
        clauses = [("requires", "some"), ("ensures", "exact"), ("ensures", "")]
        self.assertEqual([(clause.kind, clause.name) for clause in read.clauses], clauses)
        self.assertEqual(read.clauses[1].text, "(a : ℕ) → IsLaidOut image → (result ≡ word_at image a)")
        self.assertEqual([f.is_empty for f in (read, law, find, inner)], [False, True, False, True])
        self.assertEqual([f.public for f in (read, law, find, inner)], [True, True, True, False])
        self.assertEqual((find.owner, inner.owner), ("pub trait Finder", "impl Finder for Table"))

    def test_imports(self) -> None:
        imports = imports_of(SOURCE)
        self.assertEqual(imports.names, {"IsLaidOut": ("low", "Image"), "word_at": ("low", "Image")})
        self.assertEqual(imports.files, {"sample": ("low", "Sample")})

    def test_definitions(self) -> None:
        found = definitions_in("low", "Image", SPECS)
        self.assertEqual([d.place[2] for d in found], ["word_at", "IsLaidOut", "Span", "Kind", "Holds"])
        self.assertEqual([d.is_relation for d in found], [False, True, False, False, True])
        self.assertEqual([d.parts for d in found], [[], [], [], ["Elf", "Pe"], []])

    def test_what_texts_name(self) -> None:
        specs = Specs()
        with tempfile.TemporaryDirectory() as folder:
            for name, text in {"Image": SPECS, "Other": OTHER, "Sample": SAMPLE}.items():
                path = pathlib.Path(folder, f"{name}.antt")
                path.write_text(text)
                specs.add("low", path)
        cited = specs.cited("IsLaidOut sample.image", imports_of(SOURCE))
        self.assertEqual(cited, {("low", "Image", "IsLaidOut"), ("low", "Sample", "image")})
        place = ("low", "Image", "IsLaidOut")
        named = specs.named_by(place, specs.definitions[place].text)
        self.assertEqual(named, {("low", "Other", "IsSpan"), ("low", "Image", "word_at"), ("low", "Image", "Span")})


if __name__ == "__main__":
    unittest.main()
