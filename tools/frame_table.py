"""Reads of a frame table (`.eh_frame`) what the tools need: which functions are the trampolines of
signals, which cells hold personalities, and where a header says that the table is.

LSB Core, "Exception Frames"; DWARF 5, section 6.4.1. Entries are hopped over by their lengths, and of
a table only the CIEs are read.
"""
from __future__ import annotations

import re
import struct
from typing import Callable, Iterator, NamedTuple

from elf_image import WORD, Range, Refused

# Parts of a pointer encoding (LSB, "DWARF Exception Header Encoding").
INDIRECT = 0x80
APPLICATION = 0x70
ABSOLUTE, RELATIVE_TO_PLACE, RELATIVE_TO_DATA = 0x00, 0x10, 0x30
OMITTED = 0xFF

# The formats of numbers of a known size.
FORMATS = {0x0: "<Q", 0x2: "<H", 0x3: "<I", 0x4: "<Q", 0xA: "<h", 0xB: "<i", 0xC: "<q"}


# An entry's length and its identity; and where the length is this one, those of a longer entry.
HEAD, LONG_HEAD = struct.Struct("<II"), struct.Struct("<QI")
LONG_LENGTH = 0xFFFFFFFF

# Before a CIE's augmentation stands its version.
SIGNAL_LETTER = re.compile(rb"S[A-Za-z]*\0")
VERSIONS = (b"\x01", b"\x03", b"\x04")


class Table(NamedTuple):
    """A frame table's bytes, and the address of the first."""

    address: int
    content: bytes


class Entry(NamedTuple):
    """Where an entry lies: its length, its identity and the byte after it. A CIE has the identity 0."""

    offset: int
    identity_offset: int
    identity: int
    end: int


class Described(NamedTuple):
    """What a description covers, and the address of its language table, where it has one."""

    covers: Range
    language_table: int | None


class CommonEntry(NamedTuple):
    """What is read of a CIE. `personality` is an encoding and the offset of the pointer, and
    `language_table` the encoding of what its entries say of language tables."""

    is_signal: bool
    address_encoding: int
    personality: tuple[int, int] | None
    language_table: int = OMITTED


def entries(table: Table) -> Iterator[Entry]:
    """The entries up to the terminator, or up to one that doesn't fit."""
    return map(Entry._make, fields_of_entries(table))


def fields_of_entries(table: Table) -> Iterator[tuple[int, int, int, int]]:
    """The fields of each, which take less time than objects where there are thousands."""
    content, offset, size, head = table.content, 0, len(table.content), HEAD.unpack_from
    while offset + 8 <= size:
        length, identity = head(content, offset)
        start = offset + 4
        if length == LONG_LENGTH and start + 12 <= size:
            length, identity = LONG_HEAD.unpack_from(content, start)
            start += 8
        end = start + length
        if length < 4 or end > size:
            return
        yield offset, start, identity, end
        offset = end


def uleb128(content: bytes, offset: int) -> tuple[int, int]:
    """A number of variable length, and the offset after it."""
    number, shift = 0, 0
    while True:
        byte = content[offset]
        number |= (byte & 0x7F) << shift
        offset, shift = offset + 1, shift + 7
        if byte < 0x80:
            return number, offset


def encoded_size(encoding: int) -> int:
    """The size of an encoded pointer."""
    form = FORMATS.get(encoding & 0x0F)
    if form is None:
        raise Refused(f"the pointer encoding {encoding:#x} isn't known")
    return struct.calcsize(form)


def encoded_pointer(table: Table, offset: int, encoding: int, data_base: int = 0) -> int:
    """The address that an encoded pointer says. Of an indirect one it is that of its cell."""
    encoded_size(encoding)
    value: int = struct.unpack_from(FORMATS[encoding & 0x0F], table.content, offset)[0]
    bases = {ABSOLUTE: 0, RELATIVE_TO_PLACE: table.address + offset, RELATIVE_TO_DATA: data_base}
    if encoding & APPLICATION not in bases:
        raise Refused(f"the pointer encoding {encoding:#x} isn't known")
    return (bases[encoding & APPLICATION] + value) % WORD


def common_entry(table: Table, entry: Entry) -> CommonEntry:
    """Reads a CIE up to its augmentation data (LSB, "The Common Information Entry Format")."""
    content, offset = table.content, entry.identity_offset + 4
    version = content[offset]
    augmentation_end = content.index(0, offset + 1, entry.end)
    letters = content[offset + 1 : augmentation_end].decode("latin-1")
    offset = augmentation_end + (3 if version == 4 else 1)
    _, offset = uleb128(content, offset)
    _, offset = uleb128(content, offset)
    offset = offset + 1 if version == 1 else uleb128(content, offset)[1]
    address_encoding, personality, language_table = ABSOLUTE, None, OMITTED
    if letters.startswith("z"):
        _, offset = uleb128(content, offset)
        for letter in letters[1:]:
            if letter == "R":
                address_encoding = content[offset]
            elif letter == "L":
                language_table = content[offset]
            elif letter == "P" and content[offset] != OMITTED:
                personality = (content[offset], offset + 1)
                offset += encoded_size(content[offset])
            offset += letter in "LPR"
    return CommonEntry("S" in letters, address_encoding, personality, language_table)


def common_entries(table: Table) -> dict[int, CommonEntry]:
    """The CIEs of a table that can be read, by their offsets."""
    found = {}
    for entry in entries(table):
        if entry.identity == 0:
            try:
                found[entry.offset] = common_entry(table, entry)
            except (IndexError, ValueError, Refused):
                continue
    return found


def personality_cells(table: Table) -> list[Range]:
    """The cells that the table's indirect personality pointers name."""
    found = set()
    for entry in common_entries(table).values():
        if entry.personality is not None and entry.personality[0] & INDIRECT:
            encoding, offset = entry.personality
            cell = encoded_pointer(table, offset, encoding)
            found.add(Range(cell, cell + 8))
    return sorted(found)


def personality_routines(table: Table, read: Callable[[int, int], bytes]) -> set[int]:
    """The addresses of the routines that the table names, some by cells of the memory that `read` reads."""
    found = set()
    for entry in common_entries(table).values():
        if entry.personality is not None:
            encoding, offset = entry.personality
            address = encoded_pointer(table, offset, encoding)
            found.add(int.from_bytes(read(address, 8), "little") if encoding & INDIRECT else address)
    return found


def language_table_of(table: Table, entry: Entry, common: CommonEntry) -> int | None:
    """The address of the language table that a description names."""
    if common.language_table == OMITTED:
        return None
    offset = uleb128(table.content, entry.identity_offset + 4 + 2 * encoded_size(common.address_encoding))[1]
    if not any(table.content[offset : offset + encoded_size(common.language_table)]):
        return None
    return encoded_pointer(table, offset, common.language_table)


def described_at(table: Table, addresses: set[int]) -> list[Described]:
    """The descriptions of a table that contain one of the addresses."""
    commons, found = common_entries(table), []
    for entry in entries(table):
        common = commons.get(entry.identity_offset - entry.identity) if entry.identity else None
        if common is None:
            continue
        offset, encoding = entry.identity_offset + 4, common.address_encoding
        start = encoded_pointer(table, offset, encoding)
        covers = Range(start, start + encoded_pointer(table, offset + encoded_size(encoding), encoding & 0x0F))
        if any(covers.contains(address) for address in addresses):
            found.append(Described(covers, language_table_of(table, entry, common)))
    return found


def may_have_signals(content: bytes) -> bool:
    """Whether a table may have a CIE with the letter S: it has such letters, after a byte that is a version."""
    for match in SIGNAL_LETTER.finditer(content):
        start = match.start()
        while content[start - 1 : start].isalpha():
            start -= 1
        if content[start - 1 : start] in VERSIONS:
            return True
    return False


def signal_trampolines(table: Table) -> list[Range]:
    """The functions that a signal's handler returns to: those of CIEs with the letter S."""
    if not may_have_signals(table.content):
        return []
    of_signals: dict[int, int] = {}
    found = []
    for offset, identity_offset, identity, end in fields_of_entries(table):
        if identity == 0:
            try:
                common = common_entry(table, Entry(offset, identity_offset, identity, end))
            except (IndexError, ValueError, Refused):
                continue
            if common.is_signal:
                of_signals[offset] = common.address_encoding
        elif identity_offset - identity in of_signals:
            encoding = of_signals[identity_offset - identity]
            start = encoded_pointer(table, identity_offset + 4, encoding)
            size = encoded_pointer(table, identity_offset + 4 + encoded_size(encoding), encoding & 0x0F)
            found.append(Range(start, start + size))
    return found


def frame_table_of_header(header: Table) -> int:
    """The address of the frame table that an `.eh_frame_hdr` belongs to."""
    if len(header.content) < 12 or header.content[0] != 1:
        raise Refused("its .eh_frame_hdr isn't of version 1")
    return encoded_pointer(header, 4, header.content[1], data_base=header.address)
