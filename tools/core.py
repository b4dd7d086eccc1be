#!/usr/bin/env python3
"""Makes of a program and its core what `unwind_cli core` reads.

    tools/core.py PROGRAM CORE [FILE] [--limit N] [--stack-bytes N] [--root DIR]

Without FILE it is printed: `tools/core.py PROGRAM CORE | unwind_cli core` walks the threads. Of the core it takes the notes on threads, byte for byte, and of its memory what stacks need: a core file by the same
format, with fewer segments. What `unwind_cli core` writes is proved of that file; its threads are those of the core, and
each of its bytes is the core's at the same address. A walk that asks for anything else is refused as unmapped.

A stack begins with the red zone below a thread's RSP, or at the segment after it where the stack has overflowed, and
goes on to the segment's end or to where the thread's own block lies (its FS base), which is above the stack. Where a
signal's frame on it says that the interrupted code has another stack, that one is taken too. All stacks together have
less than 16 MiB, those of the threads three quarters of it at most, and those of interrupted code three quarters of what
is left: longer ones are taken up to a common size, or up to --stack-bytes.

The modules are the files that the core's note NT_FILE says were mapped, read from disk (below --root, where it is given),
and the one that the system maps, read from the core. PROGRAM is the program's file, wherever it lies now. Of each module
the `.eh_frame` is taken at the address at which it lay, since cores leave out what wasn't written to. A file whose build
id isn't the one in the core is refused if it is PROGRAM, and else left out. Modules that a word of the stacks or a
register points into come first, since return addresses are such words; the others are taken while stacks and tables have
no more than 16 MiB together.

Wants nothing but Python (tried: 3.11).
"""
from __future__ import annotations

import array
import bisect
import io
import os
import re
import signal
import stat
import struct
import sys
from typing import BinaryIO, Iterable, Iterator, NamedTuple, Sequence

from core_image import AT_ENTRY, AT_SYSINFO_EHDR, Core, Mapped, Thread, core_with
from elf_image import PAGE, SEGMENT_LOADED, WORD, ElfImage, Range, Refused, Segment, build_id_of
from frame_table import Table, frame_table_of_header
from loaded_module import Module, module_objects, taken_line
from snapshot_file import MOST_STATES, Object, Region, joined_regions, region_object, text_of, write_whole

RED_ZONE, MOST_STACK_BYTES, MOST_BYTES_WITH_ALL_TABLES = 128, 16 * 2**20, 16 * 2**20
SEGMENT_FRAME_HEADER, FRAME_HEADER_SIZE, ENTRY_OFFSET = 0x6474E550, 12, 24
# What a mapping that no file has is called: nothing, or of a compiler at run time that maps its code twice so.
OF_NO_FILE = re.compile(r"^$|^/memfd:|^\[anon")
# What a damaged file makes of reading it.
FAULTS = (OSError, Refused, struct.error, IndexError, ValueError)
# In what the system puts on a stack for a signal's handler the code and stack segments of user space stand in one word
# (CS, GS, FS, SS), and the interrupted RSP 24 bytes before it (`struct sigcontext_64`).
SIGNAL_SEGMENTS, POINTER_BEFORE = bytes.fromhex("3300000000002b00"), 24


class WithoutTable(Refused):
    """A file has no frame table, and so nothing that a walk could read."""


class Loaded(NamedTuple):
    """A module and the bytes of its frame table."""

    module: Module
    table: Region


class Source(NamedTuple):
    """The files that a core is read with: the program's, where it lies now, and the folder of the others."""

    program: str
    root: str = ""


class Wanted(NamedTuple):
    """Which modules are taken: those that one of the words, which ascend, points into, or every one."""

    words: Sequence[int]
    every: bool = False

    def points_into(self, places: Iterable[Range]) -> bool:
        """Whether one of the words is an address in one of the places, or that after it: a call may be the last
        instruction."""
        for place in places:
            index = bisect.bisect_left(self.words, place.start)
            if index < len(self.words) and self.words[index] <= place.end:
                return True
        return False

    def takes(self, places: Iterable[Range]) -> bool:
        """Whether a module is taken that lies at these places."""
        return self.every or self.points_into(places)


class Modules(NamedTuple):
    """What is taken of the files that are mapped, and what is said of code of which none has a table."""

    loaded: list[Loaded]
    code: list[Object]


class Taken(NamedTuple):
    """What is taken of a core or a process: its threads, their stacks, the modules that these point into, and code without tables."""

    threads: list[Thread]
    stacks: list[Region]
    loaded: list[Loaded]
    code: Sequence[Object] = ()


def say(line: str) -> None:
    """A line for the reader."""
    print(f"core: {line}", file=sys.stderr)


# ---- stacks


def stack_above(core: Core, pointer: int, base: int | None) -> Range | None:
    """The stack on which a pointer stands. Where nothing holds the pointer the stack has overflowed, and is the next
    segment above. A thread's own block, at its FS base, lies above its stack."""
    memory = core.memory_from(pointer)
    if memory is None:
        return None
    start = max(pointer - RED_ZONE, memory.address)
    end = base if base is not None and max(pointer, start) < base < memory.place.end else memory.place.end
    return Range(start, end)


def interrupted_pointers(content: bytes) -> Iterator[int]:
    """The stack pointers that signals' frames on a stack keep, and perhaps words that only look so."""
    place = content.find(SIGNAL_SEGMENTS)
    while place >= 0:
        if place >= POINTER_BEFORE:
            yield int.from_bytes(content[place - POINTER_BEFORE : place - POINTER_BEFORE + 8], "little")
        place = content.find(SIGNAL_SEGMENTS, place + 1)


def common_size(sizes: list[int], budget: int) -> int:
    """Up to which size each is taken, so that all together have no more than the budget."""
    left = budget
    for index, size in enumerate(sorted(sizes)):
        share = left // (len(sizes) - index)
        if size > share:
            return share
        left -= size
    return max(sizes, default=0)


def apart(places: Iterable[Range]) -> list[Range]:
    """The places by address, each up to where the next one begins: of stacks in one segment each ends before the
    stack pointer that stands above."""
    ordered = sorted(set(places))
    ends = [min(place.end, after.start) for place, after in zip(ordered, ordered[1:])]
    clipped = [Range(place.start, end) for place, end in zip(ordered, ends)] + ordered[-1:]
    return [place for place in clipped if place.start < place.end]


def bounded(places: Iterable[Range], most: int | None, budget: int = MOST_STACK_BYTES) -> list[Range]:
    """The fronts of stacks: of each at most that number of bytes after its red zone, and of all together no more than the
    budget."""
    stacks = apart(places)
    size = common_size([place.end - place.start for place in stacks], budget)
    if most is not None:
        size = min(size, most + RED_ZONE)
    cut = sum(place.end - place.start > size for place in stacks)
    if cut and most is None:
        say(f"{cut} of {len(stacks)} stacks are longer than {size} bytes, and are taken up to there")
    return joined([Range(place.start, min(place.end, place.start + size)) for place in stacks if size > 0])


def joined(places: list[Range]) -> list[Range]:
    """The places, which ascend, joined where they touch: a word may lie in two of them."""
    found: list[Range] = []
    for place in places:
        if found and place.start == found[-1].end:
            found[-1] = Range(found[-1].start, place.end)
        else:
            found.append(place)
    return found


def stacks_of(core: Core, threads: list[Thread], most: int | None) -> list[Region]:
    """The stacks of threads, and those on which the code stood that signals interrupted there."""
    found: list[Region] = []
    places = [stack_above(core, thread.rsp, thread.fs_base) for thread in threads]
    say_missing(threads, places)
    left = MOST_STACK_BYTES
    while any(places):
        # Some is left for the stacks that signals interrupted, however long the threads' are.
        wanted = bounded([place for place in places if place is not None], most, left * 3 // 4)
        new = [Region(place.start, core.bytes_of(place)) for place in wanted]
        left -= sum(len(stack.content) for stack in new)
        found = joined_regions(found + new)
        pointers = {pointer for stack in new for pointer in interrupted_pointers(stack.content)}
        places = [stack_above(core, pointer, None) for pointer in pointers if not is_held(pointer, found)]
    return found


def is_held(address: int, stacks: list[Region]) -> bool:
    """Whether one of the stacks, which ascend, holds an address."""
    index = bisect.bisect_right(stacks, address, key=lambda stack: stack.start) - 1
    return index >= 0 and address < stacks[index].end


def say_missing(threads: list[Thread], places: list[Range | None]) -> None:
    """Says of how many threads the stacks are missing."""
    missing = [thread.rsp for thread, place in zip(threads, places) if place is None]
    if missing:
        say(f"of {len(missing)} of {len(threads)} threads the stack isn't in the core, of the first that at {missing[0]:#x}")


# ---- modules


def page_of(number: int) -> int:
    """The page's begin."""
    return number // PAGE * PAGE


def loaded_segments(image: ElfImage) -> list[Segment]:
    """The segments of a file that are mapped from it."""
    return [segment for segment in image.segments if segment.kind == SEGMENT_LOADED and segment.size > 0]


def biases_of(image: ElfImage, parts: list[Mapped]) -> list[int]:
    """How far above its own addresses a file is loaded, each time that it is: most of its segments are mapped there."""
    mapped = {(part.place.start, part.offset) for part in parts}
    segments = loaded_segments(image)
    found: dict[int, int] = {}
    for segment in segments:
        for start, offset in mapped:
            if offset == page_of(segment.offset):
                bias = (start - page_of(segment.address)) % WORD
                found[bias] = sum(
                    ((page_of(one.address) + bias) % WORD, page_of(one.offset)) in mapped for one in segments
                )
    most = max(found.values(), default=0)
    if most == 0:
        places = ", ".join(f"{part.place} from {part.offset:#x} on" for part in parts)
        raise Refused(f"none of its segments is what was mapped ({places})")
    return sorted(bias for bias, count in found.items() if count == most)


def bytes_from(image: ElfImage, address: int) -> bytes:
    """What a file has from one of its own addresses on, up to the end of the segment."""
    for segment in loaded_segments(image):
        distance = address - segment.address
        if 0 <= distance < segment.size:
            return image.bytes_at(segment.offset + distance, segment.size - distance)
    return b""


def frame_table_by_header(image: ElfImage) -> Region | None:
    """The frame table of a file without sections: its header says where it begins, and it ends by itself."""
    for segment in image.segments:
        if segment.kind == SEGMENT_FRAME_HEADER:
            header = Table(segment.address, image.bytes_at(segment.offset, FRAME_HEADER_SIZE))
            start = frame_table_of_header(header)
            return Region(start, bytes_from(image, start))
    return None


def frame_table(image: ElfImage) -> Region:
    """A file's frame table, at its own address."""
    section = image.section(".eh_frame")
    found = frame_table_by_header(image) if section is None else Region(section.address, image.contents(section))
    if found is None or not found.content:
        raise WithoutTable("it has no .eh_frame")
    return found


def loaded_at(image: ElfImage, name: str, bias: int) -> Loaded:
    """What is taken of a file that is loaded at a place."""
    table = frame_table(image)
    start = (table.start + bias) % WORD
    place = Range(start, start + len(table.content))
    module = Module(name, bias, image.build_id(), image.code_ranges(bias), place, None, [], [])
    return Loaded(module, Region(start, table.content))


def check_same(core: Core, image: ElfImage, bias: int) -> None:
    """Refuses a file that isn't the one that was loaded, by the build id where the core has it."""
    section, place = image.section(".note.gnu.build-id"), image.section_range(".note.gnu.build-id", bias)
    if section is None or place is None:
        return
    loaded, own = core.bytes_of(place), image.contents(section)
    if len(loaded) == len(own) and loaded != own:
        ids = f"its build id is {build_id_of(own)}, and in the core at {place} is {build_id_of(loaded)}"
        raise Refused(f"it isn't the file that was loaded: {ids}")


def regular_file(path: str) -> BinaryIO:
    """A file. A device may be mapped, too, and to read one may never end."""
    if not stat.S_ISREG(os.stat(path).st_mode):
        raise Refused("it is no regular file")
    return open(path, "rb")


def opened_file(path: str) -> BinaryIO:
    """A file that was mapped. The system says so of one that was deleted, which may be there again."""
    try:
        return regular_file(path)
    except FileNotFoundError:
        if not path.endswith(" (deleted)"):
            raise
        return regular_file(path.removesuffix(" (deleted)"))


def modules_at(core: Core, path: str, name: str, parts: list[Mapped], wanted: Wanted) -> list[Loaded]:
    """The modules of a file, where they are wanted by the places of their code."""
    with opened_file(path) as stream:
        image = ElfImage(stream)
        found = []
        for bias in biases_of(image, parts):
            check_same(core, image, bias)
            if wanted.takes(image.code_ranges(bias)):
                found.append(loaded_at(image, name, bias))
        return found


def program_name(core: Core, mapped: list[Mapped]) -> str | None:
    """The name under which the program was mapped: its entry point lies there."""
    entry = core.auxiliary(AT_ENTRY)
    return next((part.name for part in mapped if entry is not None and part.place.contains(entry)), None)


def by_file(mapped: list[Mapped], program: str | None) -> dict[str, list[Mapped]]:
    """The mapped parts by their files, the program's first."""
    found: dict[str, list[Mapped]] = {program: []} if program is not None else {}
    for part in mapped:
        found.setdefault(part.name, []).append(part)
    return found


def has_code(core: Core, parts: list[Mapped]) -> bool:
    """Whether by the core's segments one of the parts could be run."""
    return any(memory.executable and part.place.contains(memory.address) for part in parts for memory in core.memories)


def file_modules(core: Core, source: Source, wanted: Wanted) -> Modules:
    """The modules of the files that were mapped, the program's first. Its own file has to be the one that was loaded."""
    mapped = core.mapped()
    program = program_name(core, mapped)
    found = Modules([], code_of_no_file(core, mapped))
    for name, parts in by_file([part for part in mapped if not OF_NO_FILE.match(part.name)], program).items():
        is_asked = name == program or wanted.points_into(part.place for part in parts)
        if not is_asked and not wanted.every:
            continue
        path = source.program if name == program else source.root + name
        shown = os.path.realpath(path) if name == program else name
        try:
            found.loaded.extend(modules_at(core, path, shown, parts, wanted))
        except WithoutTable as reason:
            if is_asked:
                say(f"leaves out {path}: {reason}")
                found.code.extend(code_of_file(path, shown, parts, name == program))
        except FAULTS as error:
            reason = error.strerror if isinstance(error, OSError) else error
            if name == program:
                raise Refused(f"{path} can't be taken as the program, which was {name}: {reason}")
            if is_asked or has_code(core, parts):
                say(f"leaves out {path}: {reason}")
    return found


# ---- code without tables


def range_object(place: Range) -> Object:
    """A range of addresses as a snapshot spells it."""
    return {"start": f"{place.start:#x}", "end": f"{place.end:#x}"}


def code_of_file(path: str, name: str, parts: list[Mapped], is_program: bool) -> Iterator[Object]:
    """What is said of the code of a file without a frame table."""
    with opened_file(path) as stream:
        image = ElfImage(stream)
        build_id = image.build_id()
        for bias in biases_of(image, parts):
            names = {"path": text_path(name), "bias": f"{bias:#x}"} | ({"build_id": build_id} if build_id else {})
            marks = {"program": True} if is_program else {}
            yield from (range_object(place) | names | marks for place in image.code_ranges(bias))


def code_of_no_file(core: Core, mapped: list[Mapped]) -> list[Object]:
    """What is said of executable memory that no file has, as compilers at run time make it. The system's own has a table."""
    supplied = core.auxiliary(AT_SYSINFO_EHDR)
    known = {part.place.start for part in mapped if not OF_NO_FILE.match(part.name)} | {supplied}
    return [
        range_object(Range(memory.address, memory.address + memory.size))
        for memory in core.memories if memory.executable and memory.address not in known
    ]


def program_by_entry(core: Core, source: Source, wanted: Wanted) -> Iterator[Loaded]:
    """The program's module where no note NT_FILE says what was mapped: by its entry point alone."""
    entry = core.auxiliary(AT_ENTRY)
    if entry is None:
        return
    with open(source.program, "rb") as stream:
        image = ElfImage(stream)
        bias = (entry - int.from_bytes(image.bytes_at(ENTRY_OFFSET, 8), "little")) % WORD
        if wanted.takes(image.code_ranges(bias)):
            check_same(core, image, bias)
            yield loaded_at(image, os.path.realpath(source.program), bias)


def system_image(core: Core) -> tuple[ElfImage, int] | None:
    """The file that the system maps into each process, and where it lies. The core itself has it."""
    address = core.auxiliary(AT_SYSINFO_EHDR)
    memory = core.memory_at(address) if address is not None else None
    if address is None or memory is None or not memory.place.contains(address):
        return None
    return ElfImage(io.BytesIO(core.bytes_of(Range(address, memory.place.end)))), address


def system_modules(core: Core, wanted: Wanted) -> Iterator[Loaded]:
    """The module that the system maps."""
    try:
        found = system_image(core)
        if found is not None:
            image, address = found
            bias = (address - loaded_segments(image)[0].address) % WORD
            if wanted.takes(image.code_ranges(bias)):
                yield loaded_at(image, f"system-supplied DSO at {address:#x}", bias)
    except FAULTS as error:
        say(f"leaves out what the system maps: {error}")


# ---- what stacks point into


def words_of(threads: Iterable[Thread], stacks: list[Region]) -> list[int]:
    """The words of registers and stacks, each once and by size: each return address of a walk is one of them."""
    found = {word for thread in threads for word in thread.words}
    for stack in stacks:
        content = stack.content[-stack.start % 8 :]
        words = array.array("Q", content[: len(content) // 8 * 8])
        if sys.byteorder == "big":
            words.byteswap()
        found.update(words)
    return sorted(found)


def within_size(loaded: list[Loaded], wanted: Wanted, stack_bytes: int) -> list[Loaded]:
    """The modules that a word points into and, while stacks and tables have no more bytes than are taken with all tables,
    the others in order."""
    pointed = [wanted.points_into(one.module.code) for one in loaded]
    size = stack_bytes + sum(len(one.table.content) for one, is_pointed in zip(loaded, pointed) if is_pointed)
    found, left_out = [], []
    for one, is_pointed in zip(loaded, pointed):
        if is_pointed or size + len(one.table.content) <= MOST_BYTES_WITH_ALL_TABLES:
            size += 0 if is_pointed else len(one.table.content)
            found.append(one)
        else:
            left_out.append(one.module.name)
    if left_out:
        say(f"leaves out the tables of modules that no stack points into, {len(left_out)}, first {left_out[0]}: {size} bytes are taken without")
    return found


# ---- the file


def taken_of(core: Core, source: Source, most: int | None, *, every_module: bool = False) -> Taken:
    """What is taken of a core: the tables of every module, or of those alone that walks can ask. Lines say what is missing."""
    threads = core.threads()
    cut = core.cut_line()
    if cut is not None:
        say(cut)
    stacks = stacks_of(core, threads, most)
    wanted = Wanted(words_of(threads, stacks), every_module)
    if core.mapped():
        loaded, code = file_modules(core, source, wanted)
    else:
        places = ", ".join(str(place) for place in core.note_ranges)
        say(f"its segments of notes ({places}) have no whole note NT_FILE, which says which files were mapped")
        loaded, code = list(program_by_entry(core, source, wanted)), []
    loaded += system_modules(core, wanted)
    size = sum(len(stack.content) for stack in stacks)
    return Taken(threads, stacks, within_size(loaded, wanted, size), code)


def text_path(path: str) -> str:
    """A path as a JSON text can have it."""
    return os.fsencode(path).decode("utf-8", "replace")


def thread_object(thread: Thread) -> Object:
    """A thread's number and where it stood, for the names: `unwind_cli` reads the note."""
    return {"id": thread.number, "rip": f"{thread.rip:#x}"}


def object_of(taken: Taken, limit: int) -> Object:
    """What `unwind_cli core` reads. It passes over `code`, `threads` and the names of modules."""
    modules = [entry for one in taken.loaded for entry in module_objects(one.module)]
    small = core_with(taken.threads, [(stack.start, stack.content) for stack in taken.stacks])
    return {
        "core": small.hex(),
        "regions": [region_object(one.table) for one in taken.loaded],
        "modules": [entry | {"path": text_path(entry["path"])} for entry in modules],
        "limit": limit,
        "code": list(taken.code),
        "threads": [thread_object(thread) for thread in taken.threads],
    }


def opened_core(path: str) -> Core:
    """A core. Refuses with its name."""
    try:
        return Core(open(path, "rb"))
    except OSError as error:
        raise Refused(f"{path} can't be read: {error.strerror}")
    except Refused as error:
        raise Refused(f"{path}: {error}")


def check_program(path: str) -> None:
    """Refuses a program that isn't there, or is no ELF file of x86-64."""
    try:
        with open(path, "rb") as stream:
            ElfImage(stream)
    except OSError as error:
        raise Refused(f"{path} can't be read: {error.strerror}")
    except Refused as error:
        raise Refused(f"{path}: {error}")


def main() -> None:
    """Reads a core, and writes the file."""
    import argparse  # which takes long to load, and core_backtrace.py has no need of it

    signal.signal(signal.SIGPIPE, signal.SIG_DFL)
    parser = argparse.ArgumentParser(prog="core.py", description="Make of a core what `unwind_cli core` reads.")
    parser.add_argument("program", metavar="PROGRAM")
    parser.add_argument("core", metavar="CORE")
    parser.add_argument("file", metavar="FILE", nargs="?", help="where it is written, else standard output")
    parser.add_argument("--limit", type=int, default=MOST_STATES, help="the most states of a walk")
    parser.add_argument("--stack-bytes", type=int, help="the most bytes of each stack")
    parser.add_argument("--root", default="", help="the folder of the machine that the core is of")
    options = parser.parse_args()
    if not 1 <= options.limit <= MOST_STATES:
        sys.exit(f"core: the limit is from 1 to {MOST_STATES}")
    try:
        core = opened_core(options.core)
        check_program(options.program)
        taken = taken_of(core, Source(options.program, options.root), options.stack_bytes, every_module=True)
        for one in taken.loaded:
            say(f"{taken_line(one.module, '')}, build id {one.module.build_id}")
        say(f"{len(taken.threads)} threads, {sum(len(stack.content) for stack in taken.stacks)} bytes of stacks")
        text = text_of(object_of(taken, options.limit), advice="take less of each stack with --stack-bytes")
        if options.file is None:
            sys.stdout.write(text)
        else:
            write_whole(options.file, text)
    except (OSError, Refused) as error:
        sys.exit(f"core: {error}")


if __name__ == "__main__":
    main()
