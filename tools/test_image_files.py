"""Tests of image_files.py: what a snapshot takes of small PE and Mach-O files."""
import struct
import unittest

from elf_image import Range, Refused
from image_files import Function, functions_in, image_file


def pe_section(name: str, size: int, rva: int) -> bytes:
    """A section's header."""
    return struct.pack("<8sIIIIIIHHI", name.encode(), size, rva, 0x200, 0x400, 0, 0, 0, 0, 0)


def pe_symbol(name: str | int, value: int, section: int, storage: int = 2, auxiliary: int = 0) -> bytes:
    """A symbol whose name, where it is long, stands at a place of the table of names; and what belongs to it."""
    spelled = name.encode().ljust(8, b"\0") if isinstance(name, str) else struct.pack("<II", 0, name)
    return spelled + struct.pack("<IhHBB", value, section, 0x20, storage, auxiliary) + bytes(18 * auxiliary)


def small_pe(machine: int = 0x8664) -> bytes:
    """A PE file with three sections and symbols of two functions."""
    symbols = [
        pe_symbol(".text", 0, 1, 3, 1), pe_symbol("first", 0, 1), pe_symbol(4, 0x20, 1), pe_symbol("__marks", 0x20, 1),
        pe_symbol("datum", 0, 2),
    ]
    sections = pe_section(".text", 0x50, 0x1000) + pe_section(".xdata", 8, 0x2000) + pe_section(".pdata", 24, 0x3000)
    optional = bytearray(112 + 16 * 8)
    struct.pack_into("<Q", optional, 24, 0x10000000)
    struct.pack_into("<I", optional, 56, 0x4000)
    struct.pack_into("<II", optional, 112 + 3 * 8, 0x3000, 24)
    count = sum(len(symbol) for symbol in symbols) // 18
    place = 0x40 + 24 + len(optional) + len(sections)
    header = b"PE\0\0" + struct.pack("<HHIIIHH", machine, 3, 0, place, count, len(optional), 0)
    names = struct.pack("<I", 4 + 10) + b"named_two\0"
    return b"MZ".ljust(0x3C, b"\0") + struct.pack("<I", 0x40) + header + optional + sections + b"".join(symbols) + names


def macho_section(name: str, start: int, size: int) -> bytes:
    """A section's header."""
    return struct.pack("<16s16sQQIIIIIIII", name.encode(), b"__TEXT", start, size, 0, 0, 0, 0, 0, 0, 0, 0)


def small_macho(*names: str) -> bytes:
    """A Mach-O file with a segment of code and of sections with names, and symbols of two functions and of something else."""
    places = [(name, 0x100000340 + 0x60 * number, 0x60) for number, name in enumerate(names)]
    sections = b"".join(macho_section(*section) for section in [("__text", 0x100000300, 0x40), *places])
    head = (0x19, 72 + len(sections), b"__TEXT", 0x100000000, 0x1000, 0, 0x1000, 5, 5, 1 + len(names), 0)
    segment = struct.pack("<II16sQQQQIIII", *head)
    place = 32 + len(segment) + len(sections) + 24
    symbols = struct.pack("<IBBHQ", 1, 0xF, 1, 0, 0x100000300) + struct.pack("<IBBHQ", 8, 0xE, 1, 0, 0x100000310)
    symbols += struct.pack("<IBBHQ", 15, 0x1, 0, 0, 0)
    table = struct.pack("<IIIIII", 2, 24, place, 3, place + len(symbols), 23)
    names = b"\0_first\0_other\0_absent\0"
    header = struct.pack("<IIIIIIII", 0xFEEDFACF, 0x1000007, 3, 2, 2, 0, 0, 0)
    return header + segment + sections + table + symbols + names


class Images(unittest.TestCase):
    def test_a_pe_file(self) -> None:
        found = image_file(small_pe())
        self.assertEqual(
            found.module,
            {"kind": "pe", "base": "0x10000000", "size": "0x4000", "pdata_rva": "0x3000", "pdata_size": "0x18"},
        )
        self.assertEqual(
            found.places,
            [Range(0x10001000, 0x10001050), Range(0x10003000, 0x10003018), Range(0x10002000, 0x10002008)],
        )
        self.assertEqual(
            found.functions,
            [Function("first", Range(0x10001000, 0x10001020)), Function("named_two", Range(0x10001020, 0x10001050))],
        )

    def test_a_macho_file(self) -> None:
        found = image_file(small_macho("__unwind_info"))
        self.assertEqual(
            found.module, {"kind": "macho", "base": "0x100000000", "size": "0x1000", "unwind_info": "0x100000340"}
        )
        self.assertEqual(found.places, [Range(0x100000300, 0x100000340), Range(0x100000340, 0x1000003A0)])
        self.assertEqual(found.function_at(0x10000030F), Function("first", Range(0x100000300, 0x100000310)))
        self.assertEqual(found.function_at(0x100000310), Function("other", Range(0x100000310, 0x100000340)))
        with self.assertRaises(Refused):
            found.function_at(0x100000340)

    def test_language_tables_of_a_macho_file(self) -> None:
        found = image_file(small_macho("__gcc_except_tab", "__unwind_info", "__const"))
        code, tables, unwind_info = (Range(0x100000300, 0x100000340), Range(0x100000340, 0x1000003A0), Range(0x1000003A0, 0x100000400))
        self.assertEqual(found.places, [code, unwind_info, tables])

    def test_what_is_no_such_file(self) -> None:
        cases = {"a text": b"#!/bin/sh\n" * 20, "another machine": small_pe(0x14C), "no unwind data": small_macho("__const")}
        for name, content in cases.items():
            with self.subTest(name), self.assertRaises(Refused):
                image_file(content)

    def test_symbols_of_other_sections(self) -> None:
        symbols = [(0x1000, "_mark"), (0x1000, "one"), (0x1010, "two"), (0x2000, "elsewhere")]
        found = functions_in(Range(0x1000, 0x1020), symbols)
        self.assertEqual([function.name for function in found], ["one", "two"])


if __name__ == "__main__":
    unittest.main()
