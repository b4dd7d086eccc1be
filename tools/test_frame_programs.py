"""Tests of frame_programs.py: its rows are those that readelf prints, and it has none from where on there is none."""
from __future__ import annotations

import pathlib
import re
import subprocess
import tempfile
import unittest

from frame_programs import descriptions_of, rows_of, said_by
from frame_table import Table
from tables import Row, entries_of, table_of

# Each instruction that is known, by directives of the assembler or byte by byte.
EACH = """
    .globl each
    each: .cfi_startproc
        nop
        .cfi_def_cfa_offset 16
        .cfi_offset 3, -16
        .space 70, 0x90
        .cfi_remember_state
        .cfi_def_cfa 6, 24
        .cfi_escape 0x05, 0x0c, 0x03        # offset_extended: R12 in a slot
        .cfi_escape 0x11, 0x0d, 0x7e        # offset_extended_sf: R13 above the CFA
        .space 300, 0x90
        .cfi_register 14, 2
        .cfi_escape 0x14, 0x0f, 0x02        # val_offset
        .cfi_escape 0x15, 0x00, 0x7d        # val_offset_sf
        .cfi_same_value 6
        nop
        .cfi_escape 0x10, 0x01, 0x02, 0x77, 0x08    # expression
        .cfi_escape 0x16, 0x02, 0x02, 0x77, 0x10    # val_expression
        .cfi_escape 0x06, 0x0c              # restore_extended
        .cfi_restore 3
        nop
        .cfi_restore_state
        .cfi_escape 0x2f, 0x0c, 0x02        # GNU_negative_offset_extended
        .cfi_escape 0x2e, 0x10              # GNU_args_size
        nop
        .cfi_escape 0x12, 0x07, 0x7c        # def_cfa_sf
        nop
        .cfi_escape 0x13, 0x7b              # def_cfa_offset_sf
        .cfi_def_cfa_register 3
        nop
        .cfi_escape 0x0f, 0x03, 0x77, 0x08, 0x06    # def_cfa_expression
        .cfi_undefined 16
        .space 70000, 0x90
        .cfi_def_cfa 7, 8
        ret
        .cfi_endproc
    .globl plain
    plain: .cfi_startproc
        ret
        .cfi_endproc
"""


def built(folder: str, source: str) -> str:
    """A library of a source in assembler."""
    text, library = pathlib.Path(folder) / "source.s", pathlib.Path(folder) / "built.so"
    text.write_text(source)
    subprocess.run(["gcc", "-shared", "-nostdlib", "-o", str(library), str(text)], check=True, capture_output=True)
    return str(library)


def as_readelf(row: Row | None) -> Row | None:
    """A row without what readelf doesn't print: the bytes of expressions, and columns that are undefined."""
    if row is None:
        return None
    printed = {name: re.sub(r"^(v?exp) .*", r"\1", rule) for name, rule in row.items()}
    return {name: rule for name, rule in printed.items() if rule != "u" or name == "r16"}


class Rows(unittest.TestCase):
    maxDiff = None

    def check_file(self, path: str) -> int:
        """The rows of a file's descriptions are those of readelf. Returns how many descriptions there are."""
        entries = {entry.offset: entry for entry in entries_of(path)}
        table, count = table_of(path), 0
        for description in descriptions_of(table):
            entry = entries[description.offset]
            self.assertEqual(description.covers, entry.covers)
            common = entries[entry.common or 0]
            expected = dict(entry.rows or [(entry.covers.start, row) for _address, row in common.rows[-1:]])
            found = {address: as_readelf(row) for address, row in rows_of(table, description)}
            self.assertEqual(found, expected)
            count += 1
        return count

    def test_each_instruction(self) -> None:
        with tempfile.TemporaryDirectory() as folder:
            self.assertEqual(self.check_file(built(folder, EACH)), 2)

    def test_files_of_the_system(self) -> None:
        loaders = sorted(pathlib.Path("/lib64").glob("ld-linux-x86-64.so*"))
        for path in loaders:
            self.assertGreater(self.check_file(str(path)), 100)

    def test_no_row_after_a_fault(self) -> None:
        """Of an instruction that isn't known, a state that isn't remembered, an operand after the end, a CFA by an
        expression that gets a number, or a location that goes back."""
        for escape in ("0x1f", "0x0b", "0x0c, 0x07, 0x80", "0x0f, 0x02, 0x77, 0x08, 0x0e, 0x10", "0x01, 0x00, 0xe0, 0xff, 0xff"):
            source = f"f: .cfi_startproc\n push %rbx\n .cfi_def_cfa_offset 16\n nop\n .cfi_escape {escape}\n ret\n .cfi_endproc\n"
            with self.subTest(escape), tempfile.TemporaryDirectory() as folder:
                path = built(folder, source)
                (description,) = descriptions_of(table_of(path))
                table = table_of(path)
                # What the assembler puts after it to fill the entry would be operands of one that is cut off.
                end = table.content.index(bytes(int(byte, 16) for byte in escape.split(", ")), description.program.start)
                end += len(escape.split(", "))
                cut = description._replace(program=description.program._replace(end=end))
                start = description.covers.start
                rows = rows_of(table, cut)
                self.assertEqual([address - start for address, _row in rows], [0, 1, 2])
                self.assertEqual([row and row["cfa"] for _address, row in rows], ["r7+8", "r7+16", None])

    def test_what_no_rule_says_too(self) -> None:
        row = {"cfa": "r7+8", "r3": "s", "r0": "s", "r12": "u", "r16": "c-8"}
        self.assertEqual(said_by(row), {"cfa": "r7+8", "r0": "s", "r12": "u", "r16": "c-8"})
        self.assertIsNone(said_by(None))

    def test_an_empty_table(self) -> None:
        self.assertEqual(list(descriptions_of(Table(0x1000, bytes(4)))), [])


if __name__ == "__main__":
    unittest.main()
