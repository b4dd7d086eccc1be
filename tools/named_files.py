"""The program and the core that gdb's words name, and what is wrong with them: gdb says it in lines of its own, goes on, and
has then no thread.

A core is an ELF file of the type ET_CORE, whose segments hold memory and notes (System V ABI, "Object Files").
"""
from __future__ import annotations

import os
import shutil
import struct
from dataclasses import dataclass

from elf_image import Range

# Options of gdb that take the next word, without their dashes; each may also be followed by `=` and the value.
VALUED = set(
    "x ix ex iex eix eiex command eval-command init-command init-eval-command early-init-command early-init-eval-command "
    "symbols s exec e se directory d cd b l tty ui i interpreter data-directory D".split()
)
OF_PROCESS, OF_CORE, OF_PROGRAM = {"p", "pid"}, {"c", "core"}, {"e", "exec", "se"}

ELF_HEADER, SEGMENT = struct.Struct("<16sHHIQQQIHHHHHH"), struct.Struct("<IIQQQQQQ")
TYPE_CORE, SEGMENT_LOADED, SEGMENT_NOTES = 4, 1, 4


@dataclass
class Named:
    """What gdb's words name."""

    process: int | None = None
    program: str | None = None
    core: str | None = None


@dataclass(frozen=True)
class Part:
    """A segment of a core: its kind, its place in memory, and its bytes in the file."""

    kind: int
    address: int
    offset: int
    size: int


def named_by(words: list[str]) -> Named:
    """What the words of gdb name: after its options a program, and then a core or the number of a process."""
    found, plain, rest = Named(), [], iter(words[1:])
    for word in rest:
        if not word.startswith("-") or word == "-":
            plain.append(word)
            continue
        name, sign, value = word.lstrip("-").partition("=")
        if name == "args":
            found.program = next(rest, None)
            return found
        if name in VALUED | OF_PROCESS | OF_CORE:
            note_option(found, name, value if sign else next(rest, ""))
    found.program = found.program or next(iter(plain), None)
    if len(plain) > 1 and plain[1].isdecimal() and not os.path.exists(plain[1]):
        found.process = int(plain[1])
    elif len(plain) > 1:
        found.core = plain[1]
    return found


def note_option(found: Named, name: str, value: str) -> None:
    """Notes what an option names."""
    if name in OF_PROCESS and value.isdecimal():
        found.process = int(value)
    elif name in OF_CORE:
        found.core = value
    elif name in OF_PROGRAM:
        found.program = value


# ---- files


def fault_of_file(path: str) -> str | None:
    """Why a file can't be what is asked: it isn't there, isn't a file, may not be read, or is empty."""
    try:
        if os.path.isdir(path):
            return f"{path} is a folder"
        with open(path, "rb") as stream:
            return None if stream.read(1) else f"{path} is empty"
    except OSError as error:
        return f"{path}: {error.strerror}"


def header_of(path: str) -> tuple[int, ...] | None:
    """The fields of a file's ELF header of 64 bits after the first, where it begins with one."""
    with open(path, "rb") as stream:
        header = stream.read(ELF_HEADER.size)
    whole = len(header) == ELF_HEADER.size and header[:6] == b"\x7fELF\x02\x01"
    return ELF_HEADER.unpack(header)[1:] if whole else None


def is_core_file(path: str) -> bool:
    """Whether a file's header says that it is a core."""
    header = None if fault_of_file(path) else header_of(path)
    return header is not None and header[0] == TYPE_CORE


def parts_of_core(path: str) -> list[Part]:
    """The segments of a core, those that its table has whole."""
    header = header_of(path)
    if header is None:
        return []
    with open(path, "rb") as stream:
        stream.seek(header[4])
        table = stream.read(SEGMENT.size * header[9])
    rows = SEGMENT.iter_unpack(table[: len(table) // SEGMENT.size * SEGMENT.size])
    return [Part(row[0], row[3], row[2], row[5]) for row in rows]


def cut_of(path: str) -> str | None:
    """How much a core lacks that was cut off, by the ends of its table and its segments."""
    header, size = header_of(path), os.path.getsize(path)
    if header is None:
        return None
    ends = [header[4] + SEGMENT.size * header[9], *(part.offset + part.size for part in parts_of_core(path))]
    return f"{path} is cut off: it has {size} of {max(ends)} bytes" if size < max(ends) else None


def present_memory(path: str) -> list[Range]:
    """The memory whose bytes a core has, also where it was cut off."""
    size = os.path.getsize(path)
    found = []
    for part in parts_of_core(path):
        there = min(part.size, size - part.offset)
        if part.kind == SEGMENT_LOADED and there > 0:
            found.append(Range(part.address, part.address + there))
    return found


def fault_of_core(path: str) -> str | None:
    """Why gdb has no thread of a core."""
    fault = fault_of_file(path)
    if fault:
        return fault
    header = header_of(path)
    if header is None:
        with open(path, "rb") as stream:
            begins = stream.read(4) == b"\x7fELF"
        return f"{path} is no core of 64 bits, or is cut off in its header" if begins else f"{path} is no core: it is no ELF file"
    if header[0] != TYPE_CORE:
        return f"{path} is no core: it is an ELF file of the type {header[0]}"
    return cut_of(path)


def fault_of_program(name: str) -> str | None:
    """Why gdb has no program file. One without a folder is also looked for on the PATH."""
    path = name if "/" in name or os.path.exists(name) else shutil.which(name) or name
    fault = fault_of_file(path)
    if fault:
        return fault
    if is_core_file(path):
        return f"{path} is a core: the program comes before it"
    with open(path, "rb") as stream:
        return None if stream.read(4) == b"\x7fELF" else f"{path} is no ELF file"


def fault_of(named: Named) -> str | None:
    """What is wrong with the files that are named, that with which gdb begins first."""
    faults = [
        fault_of_program(named.program) if named.program is not None else None,
        fault_of_core(named.core) if named.core is not None else None,
    ]
    return next((fault for fault in faults if fault), None)
