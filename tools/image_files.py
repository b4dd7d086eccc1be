"""PE and Mach-O files that are mapped at the addresses that they were linked for: what a snapshot takes of them.

Only what is asked here is read of their headers: where code and unwind data lie, and which functions the symbols name.
"""
from __future__ import annotations

import struct
from dataclasses import dataclass

from elf_image import Range, Refused
from snapshot_file import Object

PE, MACHO = "pe", "macho"


@dataclass(frozen=True)
class Function:
    """A function of a symbol table: its name, and its addresses up to the next symbol."""

    name: str
    place: Range


@dataclass(frozen=True)
class ImageFile:
    """What a snapshot takes of a file, by its addresses in the process."""

    module: Object
    code: Range
    places: list[Range]
    functions: list[Function]

    @property
    def kind(self) -> str:
        """The kind of its module."""
        return self.module["kind"]

    def function_at(self, address: int) -> Function:
        """The function that has an address."""
        for function in self.functions:
            if function.place.contains(address):
                return function
        raise Refused(f"no symbol names a function at {address:#x}")


def text_at(content: bytes, start: int, most: int | None = None) -> str:
    """The text from a place on up to a zero, or so many bytes of it."""
    end = content.index(b"\0", start) if most is None else start + most
    return content[start:end].split(b"\0")[0].decode()


def functions_in(code: Range, symbols: list[tuple[int, str]]) -> list[Function]:
    """The functions of symbols in the code. Each ends where the next one begins, at another address."""
    # Of several names the last counts: marks of the linker, which begin with an underscore, come first.
    in_order = sorted(symbols, key=lambda symbol: not symbol[1].startswith("_"))
    inside = {address: name for address, name in in_order if code.contains(address)}
    starts = sorted(inside)
    return [Function(inside[start], Range(start, end)) for start, end in zip(starts, [*starts[1:], code.end])]


# ---- PE (Microsoft's "PE Format")


@dataclass(frozen=True)
class PeHeader:
    """The base of a PE file, its size in memory, the function table, the sections and the symbol table."""

    base: int
    size: int
    table_rva: int
    table_size: int
    sections: dict[str, Range]
    symbols: int
    symbol_count: int


def pe_header(content: bytes) -> PeHeader:
    """Reads the header of a PE32+ file."""
    (start,) = struct.unpack_from("<I", content, 0x3C)
    machine, count, _, symbols, symbol_count, optional_size = struct.unpack_from("<HHIIIH", content, start + 4)
    optional = start + 24
    if content[start : start + 4] != b"PE\0\0" or machine != 0x8664:
        raise Refused("it is no PE file of x86-64")
    (base,) = struct.unpack_from("<Q", content, optional + 24)
    (size,) = struct.unpack_from("<I", content, optional + 56)
    table_rva, table_size = struct.unpack_from("<II", content, optional + 112 + 3 * 8)
    sections = {}
    for number in range(count):
        header = optional + optional_size + 40 * number
        length, rva = struct.unpack_from("<II", content, header + 8)
        sections[text_at(content, header, 8)] = Range(base + rva, base + rva + length)
    return PeHeader(base, size, table_rva, table_size, sections, symbols, symbol_count)


def pe_symbols(content: bytes, header: PeHeader, code_number: int) -> list[tuple[int, str]]:
    """The symbols of a section, by its number from 1 on, that are visible outside of their source file."""
    found = []
    names = header.symbols + 18 * header.symbol_count
    code = list(header.sections.values())[code_number - 1]
    number = 0
    while number < header.symbol_count:
        place = header.symbols + 18 * number
        zero, offset, value, section, _, storage, auxiliary = struct.unpack_from("<IIIhHBB", content, place)
        name = text_at(content, names + offset) if zero == 0 else text_at(content, place, 8)
        if section == code_number and storage == 2:
            found.append((code.start + value, name))
        number += 1 + auxiliary
    return found


def pe_file(content: bytes) -> ImageFile:
    """A PE file. A step reads its function table, its unwind records, and of code what may be an epilog."""
    header = pe_header(content)
    code_number = 1 + list(header.sections).index(".text")
    code = header.sections[".text"]
    symbols = pe_symbols(content, header, code_number)
    module = {
        "kind": PE,
        "base": f"{header.base:#x}",
        "size": f"{header.size:#x}",
        "pdata_rva": f"{header.table_rva:#x}",
        "pdata_size": f"{header.table_size:#x}",
    }
    places = [header.sections[name] for name in (".text", ".pdata", ".xdata") if name in header.sections]
    return ImageFile(module, code, places, functions_in(code, symbols))


# ---- Mach-O (Apple's mach-o/loader.h and mach-o/nlist.h)

SEGMENT, SYMBOL_TABLE = 0x19, 0x2


def macho_sections(content: bytes, command: int) -> dict[str, Range]:
    """The sections of a segment."""
    (count,) = struct.unpack_from("<I", content, command + 64)
    found = {}
    for number in range(count):
        place = command + 72 + 80 * number
        start, size = struct.unpack_from("<QQ", content, place + 32)
        found[text_at(content, place, 16)] = Range(start, start + size)
    return found


def macho_symbols(content: bytes, command: int) -> list[tuple[int, str]]:
    """The symbols of sections. Their names begin with an underscore that C has not."""
    symbols, count, names, _ = struct.unpack_from("<IIII", content, command + 8)
    found = []
    for number in range(count):
        name, kind, _, _, value = struct.unpack_from("<IBBHQ", content, symbols + 16 * number)
        if kind & 0xEE == 0xE:
            found.append((value, text_at(content, names + name).removeprefix("_")))
    return found


def macho_file(content: bytes) -> ImageFile:
    """A Mach-O file. A step reads its compact unwinding, and of code the sizes of frames that stand there; a delivery
    language tables too."""
    command, count = 32, struct.unpack_from("<I", content, 16)[0]
    sections: dict[str, Range] = {}
    symbols: list[tuple[int, str]] = []
    base, size = 0, 0
    for _ in range(count):
        kind, length = struct.unpack_from("<II", content, command)
        if kind == SEGMENT and text_at(content, command + 8, 16) == "__TEXT":
            base, size = struct.unpack_from("<QQ", content, command + 24)
            sections = macho_sections(content, command)
        elif kind == SYMBOL_TABLE:
            symbols = macho_symbols(content, command)
        command += length
    if "__unwind_info" not in sections:
        raise Refused("it has no __unwind_info")
    unwind_info = sections["__unwind_info"]
    module = {"kind": MACHO, "base": f"{base:#x}", "size": f"{size:#x}", "unwind_info": f"{unwind_info.start:#x}"}
    code = sections["__text"]
    places = [code, unwind_info, *(place for name, place in sections.items() if name == "__gcc_except_tab")]
    return ImageFile(module, code, places, functions_in(code, symbols))


def image_file(content: bytes) -> ImageFile:
    """A file of either format, by its first bytes."""
    if content[:2] == b"MZ":
        return pe_file(content)
    if content[:4] == b"\xcf\xfa\xed\xfe":
        return macho_file(content)
    raise Refused("it is neither a PE nor a Mach-O file of 64 bits")
