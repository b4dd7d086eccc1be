"""Tests of named_files.py: words of gdb as its manual has them, and cores made by hand by the System V ABI."""
from __future__ import annotations

import os
import struct
import tempfile
import unittest

from elf_image import Range
from named_files import Named, cut_of, fault_of, fault_of_core, fault_of_program, named_by, present_memory

# An ELF header of a core of x86-64 with three segments of program headers, after one another from byte 64 on.
HEADER = b"\x7fELF\x02\x01\x01" + bytes(9) + struct.pack("<HHIQQQIHHHHHH", 4, 62, 1, 0, 64, 0, 0, 64, 56, 3, 0, 0, 0)
SEGMENTS = b"".join(
    struct.pack("<IIQQQQQQ", kind, 6, offset, address, 0, size, size, 1)
    for kind, offset, address, size in ((4, 232, 0, 8), (1, 240, 0x1000, 16), (1, 256, 0x5000, 32))
)
CORE = HEADER + SEGMENTS + bytes(8 + 16 + 32)


class Words(unittest.TestCase):
    def test_words(self) -> None:
        cases = {
            "gdb -p 12 -batch": Named(process=12),
            "gdb --pid=12 prog": Named(12, "prog"),
            "gdb prog none -batch -ix tools/snapshot.py -ex snapshot": Named(None, "prog", "none"),
            "gdb -nx -c core -e prog": Named(None, "prog", "core"),
            "gdb --core=core prog": Named(None, "prog", "core"),
            "gdb prog 12": Named(12, "prog"),
            "gdb -q --args prog core": Named(None, "prog"),
            "gdb -ex run": Named(),
        }
        for words, expected in cases.items():
            with self.subTest(words):
                self.assertEqual(named_by(words.split()), expected)


class Files(unittest.TestCase):
    def setUp(self) -> None:
        folder = tempfile.TemporaryDirectory()
        self.addCleanup(folder.cleanup)
        self.folder = folder.name

    def file(self, content: bytes) -> str:
        """A file with these bytes."""
        path = os.path.join(self.folder, "file")
        with open(path, "wb") as stream:
            stream.write(content)
        return path

    def test_cores(self) -> None:
        program = CORE[:16] + b"\x02" + CORE[17:]
        cases = {
            b"": "is empty", b"text": "is no core: it is no ELF file",
            CORE[:40]: "is no core of 64 bits, or is cut off in its header",
            program: "is no core: it is an ELF file of the type 2",
            CORE[:-1]: "is cut off: it has 287 of 288 bytes", CORE[:100]: "is cut off: it has 100 of 232 bytes",
        }
        for content, expected in cases.items():
            with self.subTest(expected):
                path = self.file(content)
                self.assertEqual(fault_of_core(path), f"{path} {expected}")
        self.assertIsNone(fault_of_core(self.file(CORE)))
        self.assertEqual(fault_of_core("/nonexistent"), "/nonexistent: No such file or directory")

    def test_memory_of_a_core_that_was_cut_off(self) -> None:
        cases = {288: [(0x1000, 0x1010), (0x5000, 0x5020)], 260: [(0x1000, 0x1010), (0x5000, 0x5004)],
                 256: [(0x1000, 0x1010)], 248: [(0x1000, 0x1008)], 240: [], 100: []}
        for size, expected in cases.items():
            with self.subTest(size):
                path = self.file(CORE[:size])
                self.assertEqual(present_memory(path), [Range(*place) for place in expected])
                self.assertEqual(cut_of(path) is None, size == 288)

    def test_programs(self) -> None:
        self.assertIsNone(fault_of_program("sh"))
        self.assertEqual(fault_of_program("no-such-program"), "no-such-program: No such file or directory")
        core = self.file(CORE)
        self.assertEqual(fault_of_program(core), f"{core} is a core: the program comes before it")
        self.assertEqual(fault_of_program(self.folder), f"{self.folder} is a folder")
        self.assertEqual(fault_of(Named(None, "/none", core)), "/none: No such file or directory")
        self.assertEqual(fault_of(Named(None, "/bin/sh", self.folder)), f"{self.folder} is a folder")


if __name__ == "__main__":
    unittest.main()
