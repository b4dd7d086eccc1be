"""Tests of check_witnesses.py, and of the repository by it."""
import pathlib
import tempfile
import unittest

import contracts
from check_witnesses import EXCEPTIONS, Finder, lacking, premises_of, said_by, segments

SPECS = """-- Relations.
abbrev pub IsOdd : ℕ → Type 0
IsOdd n = n % 2 ≡ 1

pub record Meets (n : ℕ) : Type 0 where
  pub odd : IsOdd n
  pub each : (m : ℕ) → IsSmall m → IsLost m

abbrev pub IsSmall : ℕ → Type 0
IsSmall n = n < 8

abbrev pub IsLost : ℕ → Type 0
IsLost n = n ≡ 9

abbrev pub IsEither : ℕ → Type 0
IsEither n = IsLost n ⊎ IsSmall n

module _ (k : ℕ) where
  pub record IsNear (n : ℕ) : Type 0 where
    pub odd : IsOdd n
    pub above : k < n
"""

SOURCE = """ghost use Rattle.low.specs.Numbers.{IsOdd, Meets, IsSmall, IsLost, IsEither, IsNear};
pub fn count(n: u64) -> u64
    ensures odd { IsOdd n → result ≡ 1 }
    ensures small { (m : ℕ) → m ≡ n → IsSmall m → result ≡ m }
    ensures lost { IsLost n → IsEither n → result ≡ 9 }
    ensures near { IsNear 5 n → result ≡ 7 }
{ 1 }

pub fn seven_meets() ensures met { Meets 7 } {}
pub fn law() ensures small { IsOdd 1 → IsSmall 1 } {}
pub fn asked() requires { IsSmall 1 } ensures small { IsSmall 1 } {}
pub fn either() ensures { IsEither 1 } {}
"""


class Witnesses(unittest.TestCase):
    def test_statements(self) -> None:
        self.assertEqual([s.strip() for s in segments("(a → b) → c × (d → e)")], ["(a → b)", "c × (d → e)"])
        self.assertEqual([s.strip() for s in premises_of("(a → b) → c × (d → e)")], ["(a → b)", "a", "d"])
        self.assertEqual([s.strip() for s in said_by("(n : ℕ) → A n × (B n → C n)")], ["A n × ()"])
        self.assertEqual(list(said_by("A n ⊎ B n")) + list(said_by("A n → B n")), [])

    def test_premises_and_witnesses(self) -> None:
        with tempfile.TemporaryDirectory() as folder:
            numbers, source = pathlib.Path(folder, "Numbers.antt"), pathlib.Path(folder, "a.rt")
            numbers.write_text(SPECS)
            source.write_text(SOURCE)
            specs = contracts.Specs()
            specs.add("low", numbers)
            uses = Finder(specs, list(contracts.functions_in("low", source, SOURCE))).find()
        self.assertEqual({place[2]: use.witnesses for place, use in uses.items()}, {
            "IsOdd": ["low.seven_meets"],
            "IsSmall": [],
            "IsLost": [],
            "IsEither": ["low.either"],
            "IsNear": [],
        })
        self.assertEqual(lacking(uses)["low.Numbers.IsLost"], "low.Numbers.IsLost: premise of low.count.lost")

    def test_the_premises_of_this_repository(self) -> None:
        found = lacking(Finder(contracts.specs(), contracts.functions()).find())
        self.assertEqual([line for name, line in found.items() if name not in EXCEPTIONS], [])


if __name__ == "__main__":
    unittest.main()
