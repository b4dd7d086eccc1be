"""Reads what a snapshot takes of an ELF file: segments, sections, its identity and its functions' names.

It reads the files of x86-64 alone (System V ABI, "Object Files"), and nothing of what it doesn't need.
"""
from __future__ import annotations

import struct
from typing import BinaryIO, Iterator, NamedTuple

WORD = 2**64

# Values of the fields that are read (System V ABI, "Object Files").
MACHINE_X86_64 = 62
EXECUTABLE = 1
SEGMENT_LOADED = 1
SECTION_SYMBOLS, SECTION_WITHOUT_BYTES, SECTION_DYNAMIC_SYMBOLS = 2, 8, 11
SYMBOL_FUNCTION, SYMBOL_INDIRECT_FUNCTION = 2, 10
NOTE_BUILD_ID = 3
PAGE = 4096


class Refused(Exception):
    """Why there is no snapshot, or why a module isn't in it."""


class Range(NamedTuple):
    """The addresses from `start` to before `end`."""

    start: int
    end: int

    def contains(self, address: int) -> bool:
        """Whether the address is one of them."""
        return self.start <= address < self.end

    def __str__(self) -> str:
        return f"{self.start:#x}-{self.end:#x}"


class Segment(NamedTuple):
    """A program header, with the file's own addresses."""

    kind: int
    flags: int
    offset: int
    address: int
    size: int


class Section(NamedTuple):
    """A section header, with the file's own addresses."""

    name: str
    kind: int
    address: int
    offset: int
    size: int
    link: int


class Function(NamedTuple):
    """A function of a symbol table, by the file's own addresses."""

    start: int
    end: int
    name: str


def text_at(table: bytes, offset: int) -> str:
    """The text of a string table that begins at an offset."""
    return table[offset : table.find(b"\0", offset)].decode("utf-8", "replace")


class ElfImage:
    """An ELF file of x86-64, read where it is asked."""

    def __init__(self, stream: BinaryIO) -> None:
        """Reads the headers. Refuses what is no such file."""
        self.stream = stream
        header = self.bytes_at(0, 64)
        if len(header) < 64 or header[:6] != b"\x7fELF\x02\x01":
            raise Refused("it is no ELF file of 64 bits")
        fields = struct.unpack_from("<HHIQQQIHHHHHH", header, 16)
        if fields[1] != MACHINE_X86_64:
            raise Refused(f"it is a file of the machine {fields[1]}")
        self.segments = self._segments(offset=fields[4], count=fields[9])
        self.sections = self._sections(offset=fields[5], count=fields[11], names=fields[12])

    def bytes_at(self, offset: int, size: int) -> bytes:
        """Bytes of the file, fewer where it ends before."""
        self.stream.seek(offset)
        return self.stream.read(size)

    def _headers(self, form: str, offset: int, count: int) -> Iterator[tuple[int, ...]]:
        """The fields of a table of headers."""
        size = struct.calcsize(form) * count
        table = self.bytes_at(offset, size) if count else b""
        if len(table) < size:
            raise Refused("it is no whole ELF file: a table of headers is cut off")
        return struct.iter_unpack(form, table)

    def _segments(self, offset: int, count: int) -> list[Segment]:
        """The program headers."""
        rows = self._headers("<IIQQQQQQ", offset, count)
        return [Segment(row[0], row[1], row[2], row[3], row[6]) for row in rows]

    def _sections(self, offset: int, count: int, names: int) -> list[Section]:
        """The section headers, with their names."""
        rows = list(self._headers("<IIQQQQIIQQ", offset, count))
        texts = self.bytes_at(rows[names][4], rows[names][5]) if names < len(rows) else b""
        return [Section(text_at(texts, row[0]), row[1], row[3], row[4], row[5], row[6]) for row in rows]

    def section(self, name: str) -> Section | None:
        """The first section of a name that has bytes in the file."""
        for section in self.sections:
            if section.name == name and section.kind != SECTION_WITHOUT_BYTES and section.size > 0:
                return section
        return None

    def contents(self, section: Section) -> bytes:
        """A section's bytes."""
        return self.bytes_at(section.offset, section.size)

    def section_range(self, name: str, bias: int) -> Range | None:
        """Where a section lies in the process, if there is one with bytes."""
        section = self.section(name)
        if section is None:
            return None
        start = (section.address + bias) % WORD
        return Range(start, start + section.size)

    def code_ranges(self, bias: int) -> list[Range]:
        """Where its executable segments lie in the process."""
        found = []
        for segment in self.segments:
            if segment.kind == SEGMENT_LOADED and segment.flags & EXECUTABLE and segment.size > 0:
                start = (segment.address + bias) % WORD
                found.append(Range(start, start + segment.size))
        if not found:
            raise Refused("it has no executable segment")
        return sorted(found)

    def language_tables(self, bias: int) -> list[Range]:
        """Where its language tables lie in the process: one section, or one for each function."""
        names = [section.name for section in self.sections]
        tables = [name for name in names if name.split(".")[1:2] == ["gcc_except_table"]]
        found = [self.section_range(name, bias) for name in dict.fromkeys(tables)]
        return [table for table in found if table is not None]

    def build_id(self) -> str | None:
        """The identity that the linker gave the file, in hexadecimal digits."""
        section = self.section(".note.gnu.build-id")
        return None if section is None else build_id_of(self.contents(section))

    def bias_of_sections(self, addresses: dict[str, int]) -> int:
        """How far above its own addresses the file is loaded, by a section whose address is known."""
        for section in self.sections:
            if section.address != 0 and section.name in addresses:
                return (addresses[section.name] - section.address) % WORD
        raise Refused("gdb doesn't say where it is loaded")

    def bias_of_mapping(self, start: int, offset: int) -> int:
        """The same, by an executable mapping of the file and the offset that is mapped there."""
        for segment in self.segments:
            of_code = segment.kind == SEGMENT_LOADED and segment.flags & EXECUTABLE
            if of_code and segment.offset // PAGE * PAGE == offset:
                return (start - segment.address // PAGE * PAGE) % WORD
        raise Refused("none of its executable segments is mapped")

    def functions(self) -> list[Function]:
        """The functions of its symbol table or, where it is stripped, of its dynamic one, by address."""
        for kind in (SECTION_SYMBOLS, SECTION_DYNAMIC_SYMBOLS):
            for section in self.sections:
                if section.kind == kind:
                    return sorted(self._functions_of(section))
        return []

    def _functions_of(self, section: Section) -> Iterator[Function]:
        """The functions of one symbol table."""
        texts = self.contents(self.sections[section.link])
        table = self.contents(section)
        whole = table[: len(table) // 24 * 24]
        for name, kind, _other, holder, value, size in struct.iter_unpack("<IBBHQQ", whole):
            if kind & 0xF in (SYMBOL_FUNCTION, SYMBOL_INDIRECT_FUNCTION) and holder != 0:
                yield Function(value, value + size, text_at(texts, name))


def build_id_of(notes: bytes) -> str | None:
    """The build id of a section of notes."""
    offset = 0
    while offset + 12 <= len(notes):
        name_size, size, kind = struct.unpack_from("<III", notes, offset)
        start = offset + 12 + (name_size + 3) // 4 * 4
        if kind == NOTE_BUILD_ID and notes[offset + 12 : offset + 16] == b"GNU\0":
            return notes[start : start + size].hex()
        offset = start + (size + 3) // 4 * 4
    return None
