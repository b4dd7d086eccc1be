"""Tests of frame_table.py. The bytes are of files of Debian 12, and what is expected is what readelf says."""
import struct
import unittest

from elf_image import Range, Refused
from frame_table import Table, encoded_pointer, entries, frame_table_of_header, personality_cells, signal_trampolines

# The CIE `zRS` of libc 2.36 and the entry of its __restore_rt (readelf: pc=3c04f..3c059), without the
# expressions, which nothing here reads.
SIGNAL_CIE = bytes.fromhex("1000000000000000017a52530001781001 1b0000".replace(" ", ""))
SIGNAL_ENTRY = struct.pack("<IIiI", 12, 0x18, 0x3C04F - 0x2000 - 28, 0x3C059 - 0x3C04F)

# The CIEs and one entry of examples/cleanups.cpp, built by g++ -O2, from 0x555555556080 on.
PLAIN_CIE = bytes.fromhex("1400000000000000017a5200017810011b0c070890010000")
PERSONALITY_CIE = bytes.fromhex("1c00000000000000017a504c5200017810079bc91e00001b1b0c070890010000")


class Entries(unittest.TestCase):
    def test_entries_end_at_the_terminator_and_at_a_cut(self) -> None:
        cases = {
            "two and a terminator": (PLAIN_CIE + PERSONALITY_CIE + bytes(4) + PLAIN_CIE, [0, 24]),
            "a cut": (PLAIN_CIE + PERSONALITY_CIE[:20], [0]),
            "a length of 8 bytes": (b"\xff" * 4 + struct.pack("<QI", 4, 0) + PLAIN_CIE, [0, 16]),
            "nothing": (b"", []),
        }
        for name, (content, offsets) in cases.items():
            with self.subTest(name):
                self.assertEqual([entry.offset for entry in entries(Table(0, content))], offsets)


class Cells(unittest.TestCase):
    def test_the_cell_of_an_indirect_personality(self) -> None:
        # readelf: the CIE is at 0xe4 of the table; DW.ref.__gxx_personality_v0 is at 0x4040.
        before = PLAIN_CIE * 9 + bytes.fromhex("080000000000000000000000")
        table = Table(0x555555556080, before + PERSONALITY_CIE)
        self.assertEqual(len(before), 0xE4)
        self.assertEqual(personality_cells(table), [Range(0x555555558040, 0x555555558048)])

    def test_no_cell_without_a_personality(self) -> None:
        self.assertEqual(personality_cells(Table(0x1000, PLAIN_CIE)), [])


class Trampolines(unittest.TestCase):
    def test_the_entries_of_a_signal_cie(self) -> None:
        table = Table(0x2000, SIGNAL_CIE + SIGNAL_ENTRY + PLAIN_CIE)
        self.assertEqual(signal_trampolines(table), [Range(0x3C04F, 0x3C059)])

    def test_none_without_a_signal_cie(self) -> None:
        self.assertEqual(signal_trampolines(Table(0x2000, PLAIN_CIE + SIGNAL_ENTRY)), [])


class Pointers(unittest.TestCase):
    def test_encodings(self) -> None:
        table = Table(0x1000, bytes.fromhex("fcffffffffffffff"))
        cases = [(0x00, 0xFFFFFFFFFFFFFFFC), (0x1B, 0xFFC), (0x3B, 0x7FFC), (0x03, 0xFFFFFFFC), (0x12, 0x10FFC)]
        for encoding, address in cases:
            with self.subTest(hex(encoding)):
                self.assertEqual(encoded_pointer(table, 0, encoding, data_base=0x8000), address)

    def test_unknown_encodings_are_refused(self) -> None:
        for encoding in (0x01, 0x25, 0x5B):
            with self.subTest(hex(encoding)), self.assertRaises(Refused):
                encoded_pointer(Table(0, bytes(8)), 0, encoding)

    def test_the_frame_table_of_a_header(self) -> None:
        # readelf: .eh_frame_hdr is at 0x2004 and .eh_frame at 0x2080 of the program above.
        header = Table(0x555555556004, bytes.fromhex("011b033b78000000" "0e000000"))
        self.assertEqual(frame_table_of_header(header), 0x555555556080)


if __name__ == "__main__":
    unittest.main()
