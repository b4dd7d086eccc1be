"""Tests of elf_image.py, over a small ELF file that is put together here."""
import io
import struct
import unittest

from elf_image import ElfImage, Function, Range, Refused, build_id_of

NOTE = struct.pack("<III4s", 4, 20, 3, b"GNU\0") + bytes(range(20))
SYMBOL_NAMES = b"\0main\0data\0"
SYMBOLS = struct.pack("<IBBHQQ", 1, 2, 0, 1, 0x1010, 0x20) + struct.pack("<IBBHQQ", 6, 1, 0, 1, 0x4000, 8)
CONTENTS = {
    ".note.gnu.build-id": (7, 0x200, NOTE, 0),
    ".eh_frame": (1, 0x300, b"table", 0),
    ".gcc_except_table": (1, 0x400, b"sites", 0),
    ".symtab": (2, 0, SYMBOLS, 5),
    ".strtab": (3, 0, SYMBOL_NAMES, 0),
    ".bss": (8, 0x5000, b"nothing", 0),
}


def small_elf(machine: int = 62) -> bytes:
    """A file with one executable segment and the sections above."""
    names = b"\0" + b"".join(name.encode() + b"\0" for name in [*CONTENTS, ".shstrtab"])
    segment = struct.pack("<IIQQQQQQ", 1, 5, 0x1000, 0x1000, 0x1000, 0x80, 0x80, 0x1000)
    rows, body = [bytes(64)], b""
    for name, (kind, address, content, link) in [*CONTENTS.items(), (".shstrtab", (3, 0, names, 0))]:
        where = names.index(name.encode() + b"\0")
        rows.append(struct.pack("<IIQQQQIIQQ", where, kind, 0, address, 120 + len(body), len(content), link, 0, 1, 0))
        body += content
    header = struct.pack("<HHIQQQIHHHHHH", 3, machine, 1, 0x1010, 64, 120 + len(body), 0, 64, 56, 1, 64, 8, 7)
    return b"\x7fELF\x02\x01\x01".ljust(16, b"\0") + header + segment + body + b"".join(rows)


class Elf(unittest.TestCase):
    def setUp(self) -> None:
        self.elf = ElfImage(io.BytesIO(small_elf()))

    def test_what_a_snapshot_takes(self) -> None:
        self.assertEqual(self.elf.code_ranges(0x70000), [Range(0x71000, 0x71080)])
        self.assertEqual(self.elf.section_range(".eh_frame", 0x70000), Range(0x70300, 0x70305))
        self.assertEqual(self.elf.language_tables(0x70000), [Range(0x70400, 0x70405)])
        self.assertIsNone(self.elf.section(".bss"))
        self.assertIsNone(self.elf.section(".eh_frame_hdr"))
        self.assertEqual(self.elf.build_id(), bytes(range(20)).hex())

    def test_the_bias(self) -> None:
        self.assertEqual(self.elf.bias_of_sections({".text": 1, ".eh_frame": 0x555000300}), 0x555000000)
        self.assertEqual(self.elf.bias_of_mapping(0x555001000, 0x1000), 0x555000000)
        with self.assertRaises(Refused):
            self.elf.bias_of_sections({".text": 1})
        with self.assertRaises(Refused):
            self.elf.bias_of_mapping(0x555001000, 0x2000)

    def test_functions(self) -> None:
        self.assertEqual(self.elf.functions(), [Function(0x1010, 0x1030, "main")])

    def test_what_is_no_such_file(self) -> None:
        whole = small_elf()
        cases = {"no file": b"", "a text": b"#!/bin/sh\n" * 20, "another machine": small_elf(183), "a cut": whole[:-1]}
        for name, content in cases.items():
            with self.subTest(name), self.assertRaises(Refused):
                ElfImage(io.BytesIO(content))

    def test_a_build_id_after_another_note(self) -> None:
        other = struct.pack("<III4s", 4, 3, 1, b"GNU\0") + b"abc\0"
        self.assertEqual(build_id_of(other + NOTE), bytes(range(20)).hex())
        self.assertIsNone(build_id_of(other))


if __name__ == "__main__":
    unittest.main()
