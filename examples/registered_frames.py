#!/usr/bin/env python3
"""Writes the frame tables of a PE and a Mach-O image as assembly, for `__register_frame` of libgcc.

    registered_frames.py PE MACHO MACHO_OBJECT > FRAMES

Each function of the two images gets a description: call frame instructions, the personality of C++, and the language
table that stands in the image, in the handler data of a PE unwind record or in __gcc_except_tab. The instructions are those
that the compiler gave: g++ in .debug_frame of the linked PE image (`-g`), and clang in __eh_frame of the Mach-O object,
since LLD 14 leaves wrong addresses in the image's. So the process finds frames by other data than `unwind_cli` does. For PE
clang gives none: where there is no .debug_frame they are made from the steps of the unwind records, and hold in the bodies.
"""
from __future__ import annotations

import os
import struct
import sys
from dataclasses import dataclass

sys.path.insert(0, os.path.join(os.path.dirname(os.path.abspath(__file__)), "..", "tools"))

from elf_image import Refused  # noqa: E402
from frame_table import ABSOLUTE, RELATIVE_TO_PLACE, Entry, Table, encoded_pointer, entries, uleb128  # noqa: E402
from image_files import SEGMENT, SYMBOL_TABLE, PeHeader, macho_symbols, pe_header, text_at  # noqa: E402

# What marks a CIE in .debug_frame; in .eh_frame it is 0.
DEBUG_CIE = 0xFFFFFFFF
# Flags of an unwind record: it names a handler for exceptions or for termination (Microsoft x64 exception handling,
# `UNWIND_INFO`).
HANDLERS = 0x3
# Microsoft's numbers of the first eight registers as those of DWARF; the others are the same (System V psABI, figure 3.36).
COLUMNS = [0, 2, 1, 3, 7, 6, 4, 5, *range(8, 16)]
# Unwind operations, and how many slots each takes beside its own; of the large allocation one more with the info 1.
PUSH, ALLOCATE_LARGE, ALLOCATE_SMALL, SET_FRAME = range(4)
MORE_SLOTS = {PUSH: 0, ALLOCATE_LARGE: 1, ALLOCATE_SMALL: 0, SET_FRAME: 0, 8: 1, 9: 2}


@dataclass(frozen=True)
class Common:
    """What is taken of a CIE: the letters, what stands before the augmentation's data, and the instructions."""

    letters: str
    factors: bytes
    instructions: bytes


# The CIE that compilers for x86-64 give: the CFA is RSP plus 8, and the return address stands below it.
AT_ENTRY = Common("", b"\x01\x78\x10", b"\x0c\x07\x08\x90\x01")


@dataclass(frozen=True)
class Described:
    """A function, its language table's address, 0 without one, and its call frame instructions."""

    start: int
    size: int
    language_table: int
    instructions: bytes


def common_of(table: Table, entry: Entry) -> Common:
    """Reads a CIE of version 1 or 3 (DWARF 5, section 6.4.1; LSB for the letters)."""
    content, start = table.content, entry.identity_offset + 5
    factors = content.index(0, start) + 1
    offset = factors
    for _ in range(3):
        _, offset = uleb128(content, offset)
    end, letters = offset, content[start : factors - 1].decode()
    if letters:
        size, offset = uleb128(content, offset)
        offset += size
    return Common(letters, content[factors:end], content[offset : entry.end])


# ---- PE


def pe_section(content: bytes, header: PeHeader, name: str) -> Table:
    """A section of a PE file, whose name may stand after the symbols."""
    (start,) = struct.unpack_from("<I", content, 0x3C)
    (size,) = struct.unpack_from("<H", content, start + 20)
    for number in range(len(header.sections)):
        place = start + 24 + size + 40 * number
        found = text_at(content, place, 8)
        if found.startswith("/"):
            found = text_at(content, header.symbols + 18 * header.symbol_count + int(found[1:]))
        if found == name:
            length, rva, _, offset = struct.unpack_from("<IIII", content, place + 8)
            return Table(header.base + rva, content[offset : offset + length])
    raise Refused(f"it has no {name}")


@dataclass(frozen=True)
class Record:
    """A function of a PE file, and its unwind record's place in the section of those."""

    start: int
    size: int
    records: Table
    place: int

    def language_table(self) -> int:
        """Where its handler's data stand, after the slots and the handler; 0 without one."""
        slots = (self.records.content[self.place + 2] + 1) // 2 * 2
        has_handler = self.records.content[self.place] >> 3 & HANDLERS
        return self.records.address + self.place + 4 + 2 * slots + 4 if has_handler else 0

    def steps(self) -> list[tuple[int, int, int, int]]:
        """The steps of its prologue, in its order: where each ends, its operation, its info, and what more slots say."""
        content, found, slot = self.records.content, [], 0
        while slot < content[self.place + 2]:
            place = self.place + 4 + 2 * slot
            end, operation, info = content[place], content[place + 1] & 15, content[place + 1] >> 4
            more = MORE_SLOTS[operation] + (operation == ALLOCATE_LARGE and info == 1)
            found.append((end, operation, info, int.from_bytes(content[place + 2 : place + 2 + 2 * more], "little")))
            slot += 1 + more
        return found[::-1]

    def instructions(self) -> bytes:
        """The steps as call frame instructions (DWARF 5, section 6.4.2), without those that save XMM registers."""
        found, before, depth, frame = b"", 0, 8, self.records.content[self.place + 3]
        for end, operation, info, more in self.steps():
            found += bytes([0x02, end - before])
            before = end
            if operation == PUSH:
                depth += 8
                found += b"\x0e" + encoded_uleb128(depth) + bytes([0x80 | COLUMNS[info]]) + encoded_uleb128(depth // 8)
            elif operation in (ALLOCATE_LARGE, ALLOCATE_SMALL):
                depth += 8 * info + 8 if operation == ALLOCATE_SMALL else more * (1 if info == 1 else 8)
                found += b"\x0e" + encoded_uleb128(depth)
            elif operation == SET_FRAME:
                found += bytes([0x0C, COLUMNS[frame & 15]]) + encoded_uleb128(depth - 16 * (frame >> 4))
        return found


def encoded_uleb128(number: int) -> bytes:
    """A number as ULEB128."""
    return bytes([number]) if number < 0x80 else bytes([number & 0x7F | 0x80]) + encoded_uleb128(number >> 7)


def pe_records(content: bytes, header: PeHeader) -> list[Record]:
    """The functions of a PE file that have unwind records."""
    functions, records = pe_section(content, header, ".pdata"), pe_section(content, header, ".xdata")
    entries_of = struct.iter_unpack("<III", functions.content[: header.table_size])
    base = header.base
    return [Record(base + begin, end - begin, records, base + info - records.address) for begin, end, info in entries_of]


def pe_functions(content: bytes) -> tuple[Common, list[Described]]:
    """The functions of a PE image."""
    header = pe_header(content)
    records = {record.start: record for record in pe_records(content, header)}
    try:
        table = pe_section(content, header, ".debug_frame")
    except Refused:
        found = [Described(each.start, each.size, each.language_table(), each.instructions()) for each in records.values()]
        return AT_ENTRY, found
    common, found = AT_ENTRY, []
    for entry in entries(table):
        if entry.identity == DEBUG_CIE:
            common = common_of(table, entry)
            continue
        place = entry.identity_offset + 4
        start, size = struct.unpack_from("<QQ", table.content, place)
        language_table = records[start].language_table() if start in records else 0
        found.append(Described(start, size, language_table, table.content[place + 16 : entry.end]))
    return common, found


# ---- Mach-O


@dataclass(frozen=True)
class MachoFile:
    """The sections and the symbols of a Mach-O file."""

    sections: dict[str, Table]
    symbols: dict[str, int]


def macho_parts(content: bytes) -> MachoFile:
    """Reads the load commands (Apple's mach-o/loader.h)."""
    command, found = 32, MachoFile({}, {})
    for _ in range(struct.unpack_from("<I", content, 16)[0]):
        kind, length = struct.unpack_from("<II", content, command)
        for number in range(struct.unpack_from("<I", content, command + 64)[0] if kind == SEGMENT else 0):
            place = command + 72 + 80 * number
            start, size, offset = struct.unpack_from("<QQI", content, place + 32)
            found.sections[text_at(content, place, 16)] = Table(start, content[offset : offset + size])
        if kind == SYMBOL_TABLE:
            found.symbols.update({name: address for address, name in macho_symbols(content, command)})
        command += length
    return found


def macho_functions(image: MachoFile, unlinked: MachoFile) -> tuple[Common, list[Described]]:
    """The functions of a Mach-O object, at their addresses in the image, which the symbols say."""
    linked = {address: image.symbols[name] for name, address in unlinked.symbols.items()}
    table, commons, found = unlinked.sections["__eh_frame"], {}, []
    for entry in entries(table):
        if entry.identity == 0:
            commons[entry.offset] = common_of(table, entry)
            continue
        common, place = commons[entry.identity_offset - entry.identity], entry.identity_offset + 4
        start = linked[encoded_pointer(table, place, RELATIVE_TO_PLACE)]
        size = encoded_pointer(table, place + 8, ABSOLUTE)
        count, offset = uleb128(table.content, place + 16)
        language_table = linked[encoded_pointer(table, offset, RELATIVE_TO_PLACE)] if "L" in common.letters else 0
        found.append(Described(start, size, language_table, table.content[offset + count : entry.end]))
    if len({(common.factors, common.instructions.rstrip(b"\0")) for common in commons.values()}) != 1:
        raise Refused("its CIEs differ")
    return next(iter(commons.values())), found


# ---- assembly


def bytes_line(content: bytes) -> str:
    """Bytes as assembly."""
    return "    .byte " + ", ".join(f"{byte:#x}" for byte in content)


def entry_lines(number: int, lines: list[str]) -> list[str]:
    """An entry with its length, filled up to a multiple of eight."""
    return [f"{number}:", "    .long 9f - 8f", "8:", *lines, "    .balign 8, 0", "9:"]


def table_lines(name: str, common: Common, functions: list[Described]) -> list[str]:
    """A frame table with one CIE, whose personality is that of C++. All its pointers are absolute."""
    head = ["    .long 0", bytes_line(b"\x01zPLR\0" + common.factors + b"\x0b\x00"), "    .quad __gxx_personality_v0"]
    lines = ["    .balign 8", f"    .globl {name}", f"{name}:", *entry_lines(1, [*head, bytes_line(b"\0\0" + common.instructions)])]
    for function in functions:
        words = f"    .quad {function.start:#x}, {function.size:#x}"
        data = [words, "    .byte 8", f"    .quad {function.language_table:#x}"]
        lines += entry_lines(2, ["    .long . - 1b", *data, bytes_line(function.instructions or b"\0")])
    return [*lines, "    .long 0"]


def main() -> None:
    """Reads the files, and writes the assembly."""
    contents = []
    for file in sys.argv[1:4]:
        with open(file, "rb") as stream:
            contents.append(stream.read())
    pe = table_lines("pe_frames", *pe_functions(contents[0]))
    macho = table_lines("macho_frames", *macho_functions(macho_parts(contents[1]), macho_parts(contents[2])))
    print("\n".join(["    .data", *pe, *macho, '    .section .note.GNU-stack, "", @progbits']))


if __name__ == "__main__":
    main()
