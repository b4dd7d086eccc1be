"""An ELF file of x86-64 as its code is followed: its descriptions, the instructions in them, and the words of its data."""
from __future__ import annotations

import bisect
import functools
import struct
from typing import Iterator, NamedTuple

from elf_image import EXECUTABLE, SEGMENT_LOADED, ElfImage, Range
from frame_table import INDIRECT, OMITTED, CommonEntry, Table, common_entries, encoded_pointer, encoded_size, uleb128
from language_sites import Site, sites_of
from machine_code import Instruction, instructions_in, instructions_of
from tables import Row, entries_of, with_arguments

FIXED = 2
RELOCATIONS = 4
TO_SYMBOL, TO_SLOT, RELATIVE = 6, 7, 8


class Description(NamedTuple):
    """A description: what it covers, the rows from their addresses on, the call sites of its language table, if it has one,
    and whether it is of a signal's frame."""

    covers: Range
    rows: list[tuple[int, Row]]
    language: list[Site] | None
    is_signal: bool

    @property
    def sites(self) -> list[Site]:
        """The call sites whose exceptions land somewhere."""
        return [site for site in self.language or () if site.pad]

    def row(self, address: int) -> Row | None:
        """The row at an address."""
        place = bisect.bisect_right(self.rows, address, key=lambda row: row[0]) - 1
        return self.rows[place][1] if place >= 0 else None


# What `readelf` says of the last file that was read, of which more than one part may be asked for.
entries_read = functools.lru_cache(maxsize=1)(entries_of)


class CodeFile:
    """A file: descriptions by their addresses, and the instructions in them in one list, with the number of the
    description that each belongs to and the place of each address in the list. `outside` counts the instructions in no
    description, but for padding. Of a file of which a part is asked for only the descriptions that start there are read."""

    def __init__(self, path: str, part: Range | None = None) -> None:
        """Reads the file by `readelf` and `objdump`."""
        self.path, self.part = path, part
        with open(path, "rb") as stream:
            self.elf = ElfImage(stream)
            self.is_fixed, self.entry = struct.unpack("<H6xQ", self.elf.bytes_at(16, 16))
            self.is_fixed = self.is_fixed == FIXED
            self.segments = [
                (segment, self.elf.bytes_at(segment.offset, segment.size))
                for segment in self.elf.segments if segment.kind == SEGMENT_LOADED
            ]
            self.functions = {function.start: function.name for function in self.elf.functions()}
            self.names, self.relative = self._relocations()
            self.plt = [self.elf.section_range(name, 0) for name in (".plt", ".plt.got", ".plt.sec", ".iplt")]
            self.descriptions = sorted(self._descriptions(), key=lambda description: description.covers)
        self.starts = [description.covers.start for description in self.descriptions]
        self.starts_set = set(self.starts)
        self._read_code()

    def _relocations(self) -> tuple[dict[int, str], dict[int, int]]:
        """The names of symbols whose addresses cells hold, and the addresses of the file that cells hold."""
        names: dict[int, str] = {}
        relative: dict[int, int] = {}
        for section in self.elf.sections:
            table = self.elf.contents(section) if section.kind == RELOCATIONS else b""
            symbols = self.elf.sections[section.link]
            for place, kind, addend in struct.iter_unpack("<QQq", table[: len(table) // 24 * 24]):
                if kind & 0xFFFFFFFF == RELATIVE:
                    relative[place] = addend
                elif kind & 0xFFFFFFFF in (TO_SYMBOL, TO_SLOT):
                    names[place] = self._symbol(symbols.offset, symbols.link, kind >> 32)
        return names, relative

    def _symbol(self, offset: int, link: int, number: int) -> str:
        """The name of a symbol of a table."""
        (name,) = struct.unpack("<I", self.elf.bytes_at(offset + 24 * number, 4))
        return self.elf.bytes_at(self.elf.sections[link].offset + name, 200).partition(b"\0")[0].decode("latin-1")

    def _descriptions(self) -> Iterator[Description]:
        """The descriptions in the file's order."""
        section, place = self.elf.section(".eh_frame"), self.elf.section_range(".eh_frame", 0)
        if section is None or place is None:
            return
        table = Table(place.start, self.elf.contents(section))
        encodings = common_entries(table)
        entries = entries_read(self.path)
        commons = {entry.offset: entry for entry in entries if entry.common is None}
        for entry in entries:
            is_asked = self.part is None or self.part.contains(entry.covers.start)
            if is_asked and entry.common is not None and entry.covers.end > entry.covers.start:
                common = encodings[entry.common]
                rows = sorted(dict(with_arguments(entry, commons[entry.common])).items())
                sites = self._sites(table, entry.offset, entry.covers, common)
                yield Description(entry.covers, rows, sites, common.is_signal)

    def _sites(self, table: Table, offset: int, covers: Range, common: CommonEntry) -> list[Site] | None:
        """The call sites of a description's language table, if it has one."""
        if common.language_table == OMITTED:
            return None
        place = uleb128(table.content, offset + 8 + 2 * encoded_size(common.address_encoding))[1]
        encoding = common.language_table & ~INDIRECT
        if not any(table.content[place : place + encoded_size(encoding)]):
            return None
        address = encoded_pointer(table, place, encoding)
        found = self.bytes_from(address)
        return sites_of(Table(address, found), covers.start) if found else []

    def _read_code(self) -> None:
        """Reads the instructions of the descriptions. Those of a description in whose midst objdump starts are read anew."""
        self.code: list[Instruction] = []
        self.owner: list[int] = []
        self.bounds: list[tuple[int, int]] = []
        self.outside = 0
        whole: list[list[Instruction]] = [[] for _ in self.descriptions]
        end = max((description.covers.end for description in self.descriptions), default=0)
        bounds = () if self.part is None else (f"--start-address={self.part.start:#x}", f"--stop-address={end:#x}")
        for one in instructions_of(self.path, *bounds):
            owner = self.description_at(one.address)
            if owner is not None:
                whole[owner].append(one)
            elif not one.is_padding:
                self.outside += 1
        for number, (description, found) in enumerate(zip(self.descriptions, whole)):
            start, end = description.covers
            if not found or found[0].address != start:
                found = instructions_in(self.path, start, end)
            first = len(self.code)
            self.code += [one if one.address < one.end <= end else one._replace(end=end) for one in found]
            self.owner += [number] * len(found)
            self.bounds.append((first, len(self.code)))
        self.place = {one.address: place for place, one in enumerate(self.code)}

    def description_at(self, address: int) -> int | None:
        """The number of the description that covers an address."""
        number = bisect.bisect_right(self.starts, address) - 1
        return number if number >= 0 and self.descriptions[number].covers.contains(address) else None

    def bytes_from(self, address: int) -> bytes:
        """The file's bytes from an address to its segment's end."""
        for segment, content in self.segments:
            if 0 <= address - segment.address < len(content):
                return content[address - segment.address :]
        return b""

    def integer(self, address: int, form: str) -> int | None:
        """A number of the data, or an address of the file that a cell holds."""
        if form == "<Q" and address in self.relative:
            return self.relative[address]
        for segment, content in self.segments:
            if 0 <= address - segment.address <= len(content) - struct.calcsize(form):
                value: int = struct.unpack_from(form, content, address - segment.address)[0]
                return value
        return None

    def is_in_plt(self, address: int) -> bool:
        """Whether an address is in a section of the procedure linkage table."""
        return any(place is not None and place.contains(address) for place in self.plt)

    def words(self, cells: set[int]) -> set[int]:
        """The starts of descriptions that words of the data hold, except some cells. In a file that may be loaded anywhere
        a relocation sets these."""
        found = {value for cell, value in self.relative.items() if cell not in cells}
        for segment, content in self.segments if self.is_fixed else []:
            if not segment.flags & EXECUTABLE:
                first = -segment.address % 8
                aligned = content[first : first + (len(content) - first) // 8 * 8]
                numbered = enumerate(struct.iter_unpack("<Q", aligned))
                found.update(word for at, (word,) in numbered if segment.address + first + 8 * at not in cells)
        return found & self.starts_set
