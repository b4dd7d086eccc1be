"""The call sites of a function's language table, and the types that its action records name.

LSB, "Language Specific Data Area"; Itanium C++ ABI, exception handling, level II, section 2.5.
"""
from __future__ import annotations

import struct
from typing import Callable, Iterator, NamedTuple

from elf_image import Range, Refused
from frame_programs import sleb128
from frame_table import INDIRECT, OMITTED, Table, encoded_pointer, encoded_size, uleb128

VARIABLE = 1

# So many bytes of a process's memory from an address on.
Read = Callable[[int, int], bytes]


class Site(NamedTuple):
    """The addresses of a call site, where an exception that comes from there lands, or 0, the index of its first action record,
    0 where there is none, and what that record asks: 0 a cleanup, a number above a handler, and one below a filter."""

    start: int
    end: int
    pad: int
    action: int = 0
    asks: int = 0


class Sites(NamedTuple):
    """The call sites, how types are encoded and from which offset their entries count down (None
    without types), and the offset of the action records."""

    sites: list[Site]
    types: tuple[int, int] | None
    actions: int


class NamedTypes(NamedTuple):
    """The addresses of the type descriptions that are named, and the cells through which some are."""

    types: set[int]
    cells: set[Range]


def number_at(table: Table, offset: int, encoding: int) -> tuple[int, int]:
    """A number of a call site, and the offset after it."""
    if encoding & 0xF == VARIABLE:
        return uleb128(table.content, offset)
    return encoded_pointer(table, offset, encoding & 0xF), offset + encoded_size(encoding)


def read_table(table: Table, start: int) -> Sites:
    """What a table of the function that starts at an address says."""
    base, offset, found, types = start, 1, [], None
    if table.content[0] != OMITTED:
        base, offset = encoded_pointer(table, 1, table.content[0]), 1 + encoded_size(table.content[0])
    encoding, offset = table.content[offset], offset + 1
    if encoding != OMITTED:
        distance, offset = uleb128(table.content, offset)
        types = encoding, offset + distance
    encoding = table.content[offset]
    size, offset = uleb128(table.content, offset + 1)
    end = offset + size
    while offset < end:
        first, offset = number_at(table, offset, encoding)
        length, offset = number_at(table, offset, encoding)
        pad, offset = number_at(table, offset, encoding)
        action, offset = uleb128(table.content, offset)
        asks = sleb128(table.content, end + action - 1)[0] if action else 0
        found.append(Site(start + first, start + first + length, base + pad if pad else 0, action, asks))
    return Sites(found, types, end)


def sites_of(table: Table, start: int) -> list[Site]:
    """The call sites, and none where the table can't be read."""
    try:
        return read_table(table, start).sites
    except (IndexError, Refused, struct.error):
        return []


def numbers_of_chain(table: Table, place: int) -> Iterator[int]:
    """The numbers of the action records from an offset on, each of which says how far the next one is."""
    for _ in range(len(table.content)):
        number, after = sleb128(table.content, place)
        distance, _end = sleb128(table.content, after)
        yield number
        if distance == 0:
            return
        place = after + distance


def listed_at(table: Table, offset: int) -> Iterator[int]:
    """The indices of types that an exception specification lists, up to the number 0."""
    index, offset = uleb128(table.content, offset)
    while index:
        yield index
        index, offset = uleb128(table.content, offset)


def indices_of(table: Table, found: Sites) -> set[int]:
    """The indices of the types that action records name: those of handlers, and those that specifications list."""
    indices: set[int] = set()
    for action in {site.action for site in found.sites if site.action}:
        for number in numbers_of_chain(table, found.actions + action - 1):
            if number > 0:
                indices.add(number)
            elif number < 0 and found.types is not None:
                indices.update(listed_at(table, found.types[1] - number - 1))
    return indices


def types_of(table: Table, start: int, read: Read) -> NamedTypes:
    """The types that a table's action records name, but for the one that every exception has."""
    found, named = read_table(table, start), NamedTypes(set(), set())
    if found.types is None:
        return named
    encoding, end = found.types
    for index in indices_of(table, found):
        place = end - index * encoded_size(encoding)
        if not any(table.content[place : place + encoded_size(encoding)]):
            continue
        address = encoded_pointer(table, place, encoding & ~INDIRECT)
        if encoding & INDIRECT:
            named.cells.add(Range(address, address + 8))
            address = int.from_bytes(read(address, 8), "little")
        named.types.add(address)
    return named
