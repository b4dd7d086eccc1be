"""Tests of tables.py: the lines of entries, from what readelf 2.40 printed of files of Debian 12."""
import unittest

from frame_table import Table
from tables import blocks, differences, listing, printed_blocks, read_facts, read_rows, sum_of

# A frame table of gcc, as far as it is read here: the CIE of examples/cleanups.cpp, built by g++ -O2.
CONTENT = bytes.fromhex("1c00000000000000017a504c5200017810079bc91e00001b1b0c070890010000")

FACTS = """
00000000 000000000000001c 00000000 CIE
  Version:               1
  Augmentation:          "zPLR"
  Code alignment factor: 1
  Data alignment factor: -8
  Return address column: 16
  Augmentation data:     9b c9 1e 00 00 1b 1b
  DW_CFA_def_cfa: r7 (rsp) ofs 8
  DW_CFA_offset: r16 (rip) at cfa-8

00000020 0000000000000024 00000024 FDE cie=00000000 pc=0000000000001000..0000000000001020
  Augmentation data:     10 00 00 00
  DW_CFA_advance_loc: 1 to 0000000000001001
  DW_CFA_GNU_args_size: 32
  DW_CFA_advance_loc: 3 to 0000000000001004
  DW_CFA_register: r16 (rip) in r2 (rcx)

00000048 0000000000000014 0000004c FDE cie=00000000 pc=0000000000001020..0000000000001021
  Augmentation data:     00 00 00 00

00000060 ZERO terminator
"""

ROWS = """
00000000 000000000000001c 00000000 CIE "zPLR" cf=1 df=-8 ra=16
   LOC           CFA      ra
0000000000000000 rsp+8    c-8

00000020 0000000000000024 00000024 FDE cie=00000000 pc=0000000000001000..0000000000001020
   LOC           CFA      rbx   rbp   r12   ra
0000000000001000 rsp+8    u     u     u     c-8
0000000000001001 rsp+16   u     c-16  u     c-8
0000000000001001 rsp+16   v-24  c-16  vexp  c-8
0000000000001004 exp      s     u     exp   r2 (rcx)
0000000000001005 rcx+0    s     u     exp   u
0000000000001020 rsp+8    u     u     u     c-8

00000048 0000000000000014 0000004c FDE cie=00000000 pc=0000000000001020..0000000000001021

00000060 ZERO terminator
"""


def table() -> Table:
    """A table of those entries, of which nothing but augmentations is read from the bytes."""
    first = bytes(16) + b"\x04\x10\x00\x00\x00" + bytes(19)
    second = bytes(16) + b"\x04\x00\x00\x00\x00" + bytes(3)
    return Table(0x6000, CONTENT + first + second + bytes(4))


class Lines(unittest.TestCase):
    def setUp(self) -> None:
        facts, self.entries = read_facts(FACTS.splitlines()), read_rows(ROWS.splitlines())
        for entry in self.entries:
            entry.facts, entry.arguments = facts[entry.offset].facts, facts[entry.offset].arguments

    def test_lines_of_entries(self) -> None:
        expected = [
            ['0x0 cie version=1 code=1 data=-8 return=r16 "zPLR" personality=[0x7edc]'],
            [
                "0x20 fde cie=0x0 start=0x1000 len=0x20 lsda=0x6041",
                "  0x1000 cfa=r7+8 r16=c-8",
                "  0x1001 cfa=r7+16 r3=v-24 r6=c-16 r12=vexp arguments=0x20",
                "  0x1004 cfa=exp r3=s r12=exp r16=r2 r6=-",
                "  0x1005 cfa=r2+0 r16=u",
            ],
            ["0x48 fde cie=0x0 start=0x1020 len=0x1", "  0x1020 cfa=r7+8 r16=c-8"],
        ]
        self.assertEqual(list(blocks(table(), self.entries)), expected)

    def test_the_first_lines(self) -> None:
        first = '0x0 cie version=1 code=1 data=-8 return=r16 "zPLR" personality=[0x7edc]'
        lines = [line for block in blocks(table(), self.entries) for line in block]
        end = f"0x60 end lines=8 sum={sum_of(chr(10).join([*lines, '']).encode()):#x}"
        for most, expected in [(0, [end]), (1, [first, end]), (100, [*lines, end])]:
            with self.subTest(most):
                self.assertEqual(listing(table(), self.entries, most), expected)

    def test_sums(self) -> None:
        # Test vectors of FNV-1a with 64 bits (Fowler, Noll, Vo).
        for content, total in [(b"", 0xCBF29CE484222325), (b"a", 0xAF63DC4C8601EC8C), (b"foobar", 0x85944171F73967E8)]:
            self.assertEqual(sum_of(content), total)

    def test_differences(self) -> None:
        theirs = [["0x0 cie"], ["0x20 fde", "  0x1000 cfa=r7+8", "  0x1001 cfa=r7+16"], ["0x60 end"]]
        lines = [line for block in theirs for line in block]
        self.assertEqual(printed_blocks(lines), theirs)
        cases: dict[str, tuple[list[str], list[str]]] = {
            "the same": (lines, []),
            "another row": (
                [line.replace("+16", "+24") for line in lines],
                ["0x20 fde:   0x1001 cfa=r7+24, and readelf has   0x1001 cfa=r7+16"],
            ),
            "a row is missing": (
                lines[:2] + lines[3:], ["0x20 fde:   0x1001 cfa=r7+16, and readelf has   0x1000 cfa=r7+8"],
            ),
            "the last row is missing": (lines[:3] + lines[4:], ["0x20 fde: 1 rows, and readelf has 2 rows"]),
            "nothing": ([], ["0 entries, and readelf has 3"]),
        }
        for name, (ours, expected) in cases.items():
            with self.subTest(name):
                self.assertEqual(list(differences(printed_blocks(ours), theirs)), expected)


if __name__ == "__main__":
    unittest.main()
