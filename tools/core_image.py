"""Reads core files of x86-64: memory, threads and which files were mapped.

System V gABI, "Object Files"; Linux's notes on threads and files (`linux/elfcore.h`, core(5)). A core is read where it
is asked, by its headers, and never whole: it may have gigabytes. Of one that was cut off what there is can be read.
"""
from __future__ import annotations

import bisect
import os
import struct
from typing import BinaryIO, Iterable, Iterator, NamedTuple

from elf_image import Range, Refused

TYPE_CORE, MACHINE_X86_64, MORE_SEGMENTS = 4, 62, 0xFFFF
SEGMENT_LOADED, SEGMENT_NOTES = 1, 4
EXECUTABLE = 1
NT_PRSTATUS, NT_AUXV, NT_FILE = 1, 6, 0x46494C45
AT_ENTRY, AT_SYSINFO_EHDR = 9, 33
HEADER, PROGRAM_HEADER = struct.Struct("<16sHHIQQQIHHHHHH"), struct.Struct("<IIQQQQQQ")
# Where section header 0 has the number of segments if the header can't count them.
SEGMENTS_OF_SECTION = 44

# `struct elf_prstatus`: the thread's number, and of `struct user_regs_struct` from byte 112 on what is read here.
STATUS_SIZE, NUMBER_OFFSET, REGISTERS_OFFSET, REGISTERS_END = 280, 32, 112, 328
RIP_OFFSET, RSP_OFFSET, FS_BASE_OFFSET = 240, 264, 280
REGISTERS = "r15 r14 r13 r12 rbp rbx r11 r10 r9 r8 rax rcx rdx rsi rdi orig_rax rip cs eflags rsp".split()
NO_REGISTERS = ("orig_rax", "cs", "eflags")

# What Linux leaves free below a stack that grows (`stack_guard_gap`).
STACK_GAP = 2**20

KINDS = {1: "an object file", 2: "a program", 3: "a program or a library"}
MACHINES = {3: "i386", 21: "PowerPC", 22: "S/390", 40: "ARM", 183: "AArch64", 243: "RISC-V"}


class Note(NamedTuple):
    """A note, and how it stands in the file."""

    name: bytes
    kind: int
    description: bytes
    text: bytes


class Thread(NamedTuple):
    """A thread: its number in the system, and the registers by which its stack and its code are found."""

    number: int
    rip: int
    rsp: int
    fs_base: int | None
    note: Note

    @property
    def words(self) -> list[int]:
        """All of its registers."""
        end = min(len(self.note.description), REGISTERS_END) // 8 * 8
        return [word for (word,) in struct.iter_unpack("<Q", self.note.description[REGISTERS_OFFSET:end])]

    @property
    def registers(self) -> dict[str, int]:
        """Those that a snapshot has, by their names."""
        found = dict(zip(REGISTERS, self.words))
        return {name: value for name, value in found.items() if name not in NO_REGISTERS}


class Mapped(NamedTuple):
    """A file's part that was mapped: where, and from which offset of the file on."""

    place: Range
    offset: int
    name: str


class Memory(NamedTuple):
    """What the file has of a mapping: from which address and offset on how many bytes; `size` bytes were mapped,
    of which `due` should be in the file. Of a core it is known whether the mapping could be run."""

    address: int
    offset: int
    present: int
    due: int
    size: int
    executable: bool = False

    @property
    def place(self) -> Range:
        """The addresses of the bytes that the file has."""
        return Range(self.address, self.address + self.present)


class Core:
    """A core file of x86-64."""

    def __init__(self, stream: BinaryIO) -> None:
        """Reads the headers and the notes. Refuses what is no core file."""
        self.stream = stream
        self.size = stream.seek(0, os.SEEK_END)
        header = self.bytes_at(0, HEADER.size)
        check_header(header, self.size)
        fields = HEADER.unpack(header)
        rows = list(PROGRAM_HEADER.iter_unpack(self._program_headers(fields)))
        self.memories = sorted(self._memory_of(row) for row in rows if row[0] == SEGMENT_LOADED)
        self.starts = [memory.address for memory in self.memories]
        self.note_ranges = [Range(row[2], row[2] + row[5]) for row in rows if row[0] == SEGMENT_NOTES]
        self.notes = [note for place in self.note_ranges for note in self._notes_at(place)]
        self.end = max([row[2] + row[5] for row in rows], default=0)

    def bytes_at(self, offset: int, size: int) -> bytes:
        """Bytes of the file, fewer where it ends before."""
        self.stream.seek(offset)
        return self.stream.read(size)

    def _program_headers(self, fields: tuple[int, ...]) -> bytes:
        """The program headers' bytes. Where they are too many for the header, a section header counts them."""
        offset, sections, size, count = fields[5], fields[6], fields[9], fields[10]
        if size != PROGRAM_HEADER.size and count:
            raise Refused(f"its program headers have {size} bytes each (at 0x36), and {PROGRAM_HEADER.size} are read")
        if count == MORE_SEGMENTS:
            counted = self.bytes_at(sections + SEGMENTS_OF_SECTION, 4)
            if len(counted) < 4:
                raise Refused(f"it is cut off at byte {self.size:#x}: how many segments it has stands at {sections:#x}")
            (count,) = struct.unpack("<I", counted)
        table = self.bytes_at(offset, PROGRAM_HEADER.size * count)
        if len(table) < PROGRAM_HEADER.size * count:
            whole = Range(offset, offset + PROGRAM_HEADER.size * count)
            raise Refused(f"it is cut off at byte {self.size:#x}, within its program headers ({whole})")
        return table

    def _memory_of(self, row: tuple[int, ...]) -> Memory:
        """A segment of memory, as far as the file has it."""
        _kind, flags, offset, address, _physical, due, size, _align = row
        return Memory(address, offset, max(0, min(due, self.size - offset)), due, size, flags & EXECUTABLE != 0)

    def _notes_at(self, place: Range) -> Iterator[Note]:
        """The notes of a segment, up to one that isn't whole."""
        return notes_of(self.bytes_at(place.start, min(place.end, self.size) - place.start) if place.start < self.size else b"")

    def memory_at(self, address: int) -> Memory | None:
        """The segment of memory that was mapped at an address."""
        index = bisect.bisect_right(self.starts, address) - 1
        if index < 0 or address >= self.memories[index].address + self.memories[index].size:
            return None
        return self.memories[index]

    def memory_from(self, address: int) -> Memory | None:
        """The segment with bytes that holds an address. Where nothing that should be in the file holds it, the next
        one above that isn't farther than what Linux leaves free below a stack."""
        found = self.memory_at(address)
        if found is not None and found.due > 0:
            return found if found.place.contains(address) else None
        index = bisect.bisect_right(self.starts, address)
        above = next((memory for memory in self.memories[index:] if memory.present > 0), None)
        return above if above is not None and above.address - address <= STACK_GAP else None

    def bytes_of(self, place: Range) -> bytes:
        """What the file has of a place from its start on, up to the end of one segment."""
        memory = self.memory_at(place.start)
        if memory is None or not memory.place.contains(place.start):
            return b""
        offset = memory.offset + place.start - memory.address
        return self.bytes_at(offset, min(place.end, memory.place.end) - place.start)

    def threads(self) -> list[Thread]:
        """The threads, in the order of their notes: the first is the one that got the signal."""
        found = [thread_of(note) for note in self.notes if is_status(note)]
        if not found:
            places = ", ".join(str(place) for place in self.note_ranges) or "none"
            cut = f", and it is cut off at byte {self.size:#x}" if self.size < self.end else ""
            raise Refused(f"it has no thread: no whole note NT_PRSTATUS is in its segments of notes ({places}{cut})")
        return found

    def cut_line(self) -> str | None:
        """Which memory is missing, where the file was cut off."""
        if self.size >= self.end:
            return None
        missing = [memory for memory in self.memories if memory.present < memory.due]
        first = min((memory.place.end for memory in missing), default=0)
        said = f"of {len(missing)} segments memory is missing, first at {first:#x}"
        return f"it is cut off: it has {self.size} of {self.end} bytes, and {said}"

    def missing_at(self, address: int) -> str:
        """Why a walk finds no memory at an address."""
        memory = self.memory_at(address)
        if memory is None:
            return "nothing was mapped there"
        if memory.place.contains(address):
            return "which wasn't taken"
        cut = memory.place.end <= address < memory.address + memory.due
        return "where the core is cut off" if cut else "which the core leaves out"

    def mapped(self) -> list[Mapped]:
        """The parts of files that were mapped. None where no note NT_FILE says so."""
        for note in self.notes:
            if note.kind == NT_FILE and note.name == b"CORE":
                return mapped_of(note.description)
        return []

    def auxiliary(self, asked: int) -> int | None:
        """A value of the auxiliary vector."""
        for note in self.notes:
            if note.kind == NT_AUXV and note.name == b"CORE":
                pairs = note.description[: len(note.description) // 16 * 16]
                return next((value for kind, value in struct.iter_unpack("<QQ", pairs) if kind == asked), None)
        return None


def check_header(header: bytes, size: int) -> None:
    """Refuses a header that isn't that of a core file of x86-64."""
    if size == 0:
        raise Refused("it is empty")
    if header[:4] != b"\x7fELF":
        raise Refused(f"it is no ELF file: its first bytes are {header[:4].hex(' ')}, and not 7f 45 4c 46")
    if len(header) < HEADER.size:
        raise Refused(f"it is cut off at byte {size:#x}, within its header (0x0-0x40)")
    if header[4] != 2:
        raise Refused(f"it is an ELF file of 32 bits: its byte 0x4 is {header[4]}, and that of x86-64 is 2")
    if header[5] != 1:
        raise Refused(f"its numbers begin with the highest byte: its byte 0x5 is {header[5]}, and that of x86-64 is 1")
    kind, machine = struct.unpack_from("<HH", header, 16)
    if kind != TYPE_CORE:
        said = f"its type at 0x10 is {kind}, and a core's is {TYPE_CORE}"
        raise Refused(f"it is no core but {KINDS.get(kind, 'another file')}: {said}")
    if machine != MACHINE_X86_64:
        name = MACHINES.get(machine, "another machine")
        raise Refused(f"it is a core of {name}: its machine at 0x12 is {machine}, and x86-64 is {MACHINE_X86_64}")


def notes_of(content: bytes) -> Iterator[Note]:
    """The notes of a segment, up to one that isn't whole. The filling after the last one may be missing."""
    offset = 0
    while offset + 12 <= len(content):
        name_size, size, kind = struct.unpack_from("<III", content, offset)
        name = offset + 12
        description = name + (name_size + 3) // 4 * 4
        end = description + (size + 3) // 4 * 4
        if description + size > len(content):
            return
        text = content[offset:end].ljust(end - offset, b"\0")
        yield Note(content[name : name + name_size].split(b"\0")[0], kind, content[description : description + size], text)
        offset = end


def is_status(note: Note) -> bool:
    """Whether a note is on a thread, with all registers that a walk begins with."""
    return note.kind == NT_PRSTATUS and note.name == b"CORE" and len(note.description) >= STATUS_SIZE


def thread_of(note: Note) -> Thread:
    """The thread that a note is on."""
    text = note.description
    (number,) = struct.unpack_from("<i", text, NUMBER_OFFSET)
    (rip,), (rsp,) = struct.unpack_from("<Q", text, RIP_OFFSET), struct.unpack_from("<Q", text, RSP_OFFSET)
    has_base = len(text) >= FS_BASE_OFFSET + 8
    return Thread(number, rip, rsp, struct.unpack_from("<Q", text, FS_BASE_OFFSET)[0] if has_base else None, note)


def mapped_of(description: bytes) -> list[Mapped]:
    """The rows of a note NT_FILE: a count, the size that offsets are counted in, and then places and names."""
    try:
        count, unit = struct.unpack_from("<QQ", description)
        rows = list(struct.iter_unpack("<QQQ", description[16 : 16 + 24 * count]))
        names = description[16 + 24 * count :].split(b"\0")
        if len(rows) < count or len(names) < count:
            raise Refused(f"its note NT_FILE counts {count} files, and has {len(rows)} places and {len(names)} names")
    except struct.error:
        raise Refused(f"its note NT_FILE isn't whole: it has {len(description)} bytes")
    return [Mapped(Range(row[0], row[1]), row[2] * unit, os.fsdecode(name)) for row, name in zip(rows, names)]


def core_with(threads: Iterable[Thread], memory: list[tuple[int, bytes]]) -> bytes:
    """A core file with the notes on these threads and this memory, by address."""
    if len(memory) >= MORE_SEGMENTS - 1:
        raise Refused(f"it has {len(memory)} stacks, and a core file's header counts {MORE_SEGMENTS - 2} at most")
    notes = b"".join(thread.note.text for thread in threads)
    count = 1 + len(memory)
    place = HEADER.size + PROGRAM_HEADER.size * count
    ident = b"\x7fELF\x02\x01\x01" + bytes(9)
    sizes = (HEADER.size, PROGRAM_HEADER.size, count, 0, 0, 0)
    parts = [HEADER.pack(ident, TYPE_CORE, MACHINE_X86_64, 1, 0, HEADER.size, 0, 0, *sizes)]
    parts.append(PROGRAM_HEADER.pack(SEGMENT_NOTES, 4, place, 0, 0, len(notes), 0, 4))
    place += len(notes)
    for address, content in memory:
        parts.append(PROGRAM_HEADER.pack(SEGMENT_LOADED, 6, place, address, 0, len(content), len(content), 1))
        place += len(content)
    return b"".join([*parts, notes, *(content for _address, content in memory)])
