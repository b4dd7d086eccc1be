"""Tests of damage.py: that a run is repeated by its number, and what a run may end with."""
from __future__ import annotations

import unittest

from damage import COMPLAINTS, MEMORY, Run, fault_of, run_of, shipped_texts

STATE = b"ra=0x%x sp=0x7000 rbx=0x9 rbp=0x0 r12=0x0 r13=0x0 r14=0x0 r15=0x0\n"
FIRST, LAST = b"frame 0 " + STATE % 0x401006, b"frame 1 " + STATE % 0
LANDING = b"landing " + STATE[:-1] % 0x401070 + b" rax=0x900000 rdx=0x0\n"


def fault(word: str, status: int, output: bytes, limit: object = 2) -> str | None:
    """What is wrong with such a run."""
    return fault_of(Run("name", word, b"", limit, MEMORY), status, output, COMPLAINTS.get(status, b""))


class Runs(unittest.TestCase):
    def test_a_number_gives_one_run(self) -> None:
        texts = shipped_texts()
        self.assertEqual(run_of("a", 7, texts), run_of("a", 7, texts))
        self.assertNotEqual([run_of("a", i, texts) for i in range(5)], [run_of("b", i, texts) for i in range(5)])

    def test_damage_is_made_for_each_number(self) -> None:
        texts = {name: text for name, text in shipped_texts().items() if len(text) < 10_000}
        self.assertGreater(len({run_of("a", number, texts).text for number in range(200)}), 150)


class Ends(unittest.TestCase):
    def test_standard_error_names_what_failed_after_some_statuses_alone(self) -> None:
        run = Run("name", "walk", b"", 2, MEMORY)
        self.assertIsNone(fault_of(run, 9, b"", b"unwind_cli: out of memory\n"))
        self.assertIsNotNone(fault_of(run, 9, b"", b""))
        self.assertIsNotNone(fault_of(run, 6, b"not json\n", b"unwind_cli: out of memory\n"))

    def test_what_may_come(self) -> None:
        for word, status, output in (
            ("walk", 0, FIRST + LAST + b"end\n"), ("deliver", 0, FIRST + LAST + b"outcome end of stack\n"),
            ("deliver", 0, FIRST + b"cleanup pad=0x1 sp=0x2\n" + LANDING + b"outcome installed\n"),
            ("walk", 8, b"refused: unmapped 0x7008\n"), ("deliver", 8, b"refused: no resume 0x401040\n"),
            ("walk", 8, b"refused: table UnexpectedEof\n"), ("walk", 8, b"refused: macho ReadError Header\n"),
            ("walk", 8, b"refused: pe info\n"), ("deliver", 8, b"refused: macho ReadError Lsda\n"), ("walk", 7, b"bad snapshot: limit\n"),
            ("walk", 6, b"not json\n"), ("walk", 9, b""),
        ):
            with self.subTest(output):
                self.assertIsNone(fault(word, status, output))

    def test_what_may_not_come(self) -> None:
        for word, status, output in (
            ("walk", -11, b""), ("walk", 1, b""), ("walk", 0, FIRST), ("walk", 0, FIRST + LAST + b"outcome installed\n"),
            ("walk", 0, FIRST + FIRST + b"end\n"), ("walk", 0, LAST.replace(b"1", b"0", 1) + LAST + b"end\n"),
            ("deliver", 0, FIRST + b"outcome installed\n"), ("deliver", 0, FIRST + LANDING + b"outcome fatal phase 1\n"),
            ("walk", 8, b"refused: unmapped 0x07008\n"), ("walk", 6, b"not json"), ("walk", 9, FIRST), ("walk", 3, b""),
        ):
            with self.subTest(output):
                self.assertIsNotNone(fault(word, status, output))

    def test_frames_keep_the_limit(self) -> None:
        self.assertIsNotNone(fault("walk", 0, FIRST + LAST + b"end\n", limit=1))


if __name__ == "__main__":
    unittest.main()
