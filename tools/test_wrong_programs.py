"""Tests of wrong_programs.py: that each edit of the repository can be made, and which can't."""
from __future__ import annotations

import pathlib
import tempfile
import unittest

from wrong_programs import TOP, crates_for, edits_of, fault_of, faults

CODE = "fn is_below(a: u64, b: u64) -> bool {\n    a < b\n}\n"


class Texts(unittest.TestCase):
    def test_each_edit_of_the_repository_fits(self) -> None:
        self.assertEqual(faults(TOP), [])

    def test_what_does_not_fit(self) -> None:
        with tempfile.TemporaryDirectory() as folder:
            crate = pathlib.Path(folder)
            (crate / "src").mkdir()
            (crate / "src" / "lib.rt").write_text(CODE)
            for edit, why in (
                ("file: src/lib.rt\nold: a < b\nnew: a <= b\n", None),
                ("file: src/lib.rt\nold: a < b\nnew: b < a\nold: b < a\nnew: b <= a", None),
                ("file: src/lib.rt\nold: a < b\nnew: a < b\n", "it changes nothing"),
                ("file: src/lib.rt\n", "it changes nothing"),
                ("file: src/lib.rt\nold: u64\nnew: u32\n", "the old text stands 2 times in src/lib.rt"),
                ("old: a < b\nnew: a <= b\n", "the old text stands 0 times in "),
                ("file: src/main.rt\nold: a < b\nnew: a <= b\n", "there is no file src/main.rt"),
                ("file: src/lib.rt\n# a < b\n", "a line that begins with neither file, old nor new: # a < b"),
            ):
                self.assertEqual(fault_of(edit, crate), why, edit)

    def test_a_crate_is_copied_with_those_below(self) -> None:
        self.assertEqual(list(crates_for(["encoded_pointers"])), ["memory_image", "unwind_definitions", "encoded_pointers"])
        self.assertIn("frame_rows", crates_for(["unwind_cli"]))
        self.assertNotIn("unwind_cli", crates_for(["stack_deliver", "stack_walks"]))

    def test_few_crates_have_edits_that_the_gate_tries(self) -> None:
        tried = [crate.name for crate in sorted((TOP / "crates").iterdir()) if (crate / "must-fail").is_dir()]
        self.assertLessEqual(len(tried), 4)
        self.assertTrue(all(edits_of(TOP / "crates" / name) for name in tried))


if __name__ == "__main__":
    unittest.main()
