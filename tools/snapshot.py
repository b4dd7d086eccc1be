"""A command of gdb that writes a snapshot of a stopped program, for `unwind_cli`.

    gdb -p PID -batch -ix tools/snapshot.py -ex "snapshot FILE"
    gdb PROGRAM CORE -batch -ix tools/snapshot.py -ex "snapshot FILE"
    gdb -p PID -batch -ix tools/snapshot.py -ex "snapshot DIR --threads"

(-ix reads the script before gdb stops the process; -x does as well, and the process waits meanwhile.)

    snapshot FILE [--called | --interrupted] [--stack-bytes N] [--limit N] [--module NAME]... [--frame-tables]
                  [--exception WORD] [--class WORD] [--resume PAD RETURN]... [--languages]
    snapshot DIR --threads [--stack-bytes N] [--limit N] [--module NAME]... [--frame-tables]

The registers are those of the selected thread's selected frame, which is its innermost one unless
gdb was told otherwise; with --threads, those of each thread's innermost frame. docs/FORMATS.md says
what a snapshot holds. A snapshot holds the stack, and so whatever stands there: what the program
keeps in its locals and, where the outermost frame isn't known, its arguments and its environment.

Wants gdb with Python (tried: 13.1), and nothing else.
"""
from __future__ import annotations

import argparse
import bisect
import contextlib
import io
import os
import re
import sys
from dataclasses import dataclass, field
from typing import BinaryIO, Iterator, NoReturn

import gdb

sys.path.insert(0, os.path.dirname(os.path.abspath(__file__)))

from elf_image import WORD, ElfImage, Range, Refused  # noqa: E402
from frame_table import Table, personality_cells  # noqa: E402
from loaded_module import SUPPLIED, Module, module_objects, places_of, taken_line  # noqa: E402
from named_files import Named, cut_of, fault_of, fault_of_program, named_by, present_memory  # noqa: E402
from process_status import why_no_process  # noqa: E402
from snapshot_file import (  # noqa: E402
    MOST_STATES, TABLES, Object, Region, region_object, text_of, without_overlaps, write_folder, write_whole,
)
from stacks import StackFrame, stack_front, stack_ranges  # noqa: E402
from thrown_types import LoadedTables, Names, Thrown, thrown_of  # noqa: E402

REGISTERS = "rip rsp rax rbx rcx rdx rsi rdi rbp r8 r9 r10 r11 r12 r13 r14 r15".split()

# So many of gdb's frames are asked where a thread's stacks lie: gdb looks each up among all inner ones,
# and the process waits. In a deeper stack the outermost frame isn't known, and it is taken whole.
MOST_FRAMES = 2048

USAGE = """snapshot FILE [--called | --interrupted] [--stack-bytes N] [--limit N] [--module NAME]... [--frame-tables]
                [--exception WORD] [--class WORD] [--resume PAD RETURN]... [--languages]
       snapshot DIR --threads [--stack-bytes N] [--limit N] [--module NAME]... [--frame-tables]"""


@dataclass(frozen=True)
class Mapping:
    """A mapping: its addresses, its permissions (empty where they aren't known) and its file's part."""

    place: Range
    permissions: str = ""
    offset: int = 0
    file: str = ""


@dataclass
class LoadedFiles:
    """What gdb's `info files` says: where sections of files lie, and what a core holds."""

    program: str | None = None
    core: str | None = None
    sections: dict[str, dict[str, int]] = field(default_factory=dict)
    core_ranges: list[Range] = field(default_factory=list)


@dataclass(frozen=True)
class Source:
    """A file that is loaded: its name, what is opened, and what tells where it lies."""

    name: str
    opened: str
    sections: dict[str, int]
    mapping: Mapping | None = None


@dataclass(frozen=True)
class Process:
    """What all threads share: what is loaded and what is mapped."""

    files: LoadedFiles
    mappings: list[Mapping]

    def stacks(self) -> list[Range]:
        """The mappings that may hold a stack: those that aren't known to be unreadable."""
        return [mapping.place for mapping in self.mappings if mapping.permissions[:1] in ("", "r")]


# ---- what gdb says


FILE_LINE = re.compile(r"^\t`(.+)', file type ")
SECTION_LINE = re.compile(r"^\t(0x[0-9a-f]+) - (0x[0-9a-f]+) is (\S+)(?: in (.+))?$")
MAPPING_LINE = re.compile(
    r"^\s*0x([0-9a-f]+)\s+0x([0-9a-f]+)\s+0x[0-9a-f]+\s+0x([0-9a-f]+)(?:\s+([-r][-w][-x][ps]))?\s*(.*)$"
)


def loaded_files() -> LoadedFiles:
    """Reads `info files`. The program's own sections carry no name of a file there."""
    found = LoadedFiles()
    in_core = False
    for line in gdb.execute("info files", to_string=True).splitlines():
        if line.startswith("Local "):
            in_core = line.startswith("Local core")
        file, section = FILE_LINE.match(line), SECTION_LINE.match(line)
        if file and in_core:
            found.core = file.group(1)
        elif file:
            found.program = file.group(1).removeprefix("target:")
        elif section and in_core:
            add_core_range(found, *section.groups())
        elif section:
            add_section(found, *section.groups())
    return found


def add_core_range(found: LoadedFiles, start: str, end: str, name: str, _file: str | None) -> None:
    """Adds what a core holds of memory. Its other sections are registers and notes."""
    if name.startswith("load"):
        found.core_ranges.append(Range(int(start, 16), int(end, 16)))


def add_section(found: LoadedFiles, start: str, _end: str, name: str, file: str | None) -> None:
    """Adds a file's section. Of several with one name the first counts."""
    holder = file.removeprefix("target:") if file else found.program
    if holder:
        found.sections.setdefault(holder, {}).setdefault(name, int(start, 16))


def is_core() -> bool:
    """Whether what is looked at is a core, and no process."""
    connection = gdb.selected_inferior().connection
    return connection is not None and connection.type == "core"


def process_mappings() -> list[Mapping]:
    """The mappings of a live process, by `info proc mappings`."""
    found = []
    for line in gdb.execute("info proc mappings", to_string=True).splitlines():
        match = MAPPING_LINE.match(line)
        if match:
            start, end, offset = (int(digits, 16) for digits in match.groups()[:3])
            found.append(Mapping(Range(start, end), match.group(4) or "", offset, match.group(5)))
    return found


def stopped_process() -> Process:
    """What is loaded and mapped: in a core, the parts that it holds."""
    files = loaded_files()
    mappings = [Mapping(place) for place in files.core_ranges] if is_core() else process_mappings()
    return Process(files, mappings)


def bytes_at(place: Range, what: str) -> bytes:
    """The memory of the process in a range."""
    try:
        return gdb.selected_inferior().read_memory(place.start, place.end - place.start).tobytes()
    except gdb.MemoryError:
        raise Refused(f"{what} ({place}) can't be read from memory")


def asked_of_gdb() -> Named:
    """What gdb's own words name."""
    with open("/proc/self/cmdline", encoding="utf-8", errors="surrogateescape") as stream:
        return named_by(stream.read().split("\0")[:-1])


def why_no_thread() -> str:
    """Why there is no thread to take."""
    named = asked_of_gdb()
    if named.process is not None:
        return why_no_process(named.process)
    if named.core is not None:
        return fault_of(named) or f"gdb finds no thread in {named.core}"
    running = f"{named.program} doesn't run: " if named.program is not None else ""
    return (named.program is not None and fault_of(named)) or (
        f"no thread is selected: {running}attach to a process (-p PID), or give a program and its core"
    )


def selected_frame() -> gdb.Frame:
    """The selected frame of an x86-64 thread."""
    if gdb.selected_thread() is None:
        raise Refused(why_no_thread())
    frame = gdb.selected_frame()
    machine = frame.architecture().name()
    if not machine.startswith("i386:x86-64"):
        raise Refused(f"the thread is of the machine {machine}, and a snapshot is of i386:x86-64")
    return frame


def registers_of(frame: gdb.Frame) -> dict[str, int]:
    """The general registers and the instruction pointer."""
    found = {}
    for name in REGISTERS:
        value = frame.read_register(name)
        try:
            found[name] = int(value) % WORD
        except gdb.error as error:
            if name in ("rip", "rsp"):
                raise Refused(f"the register {name} isn't known: {error}")
            print(f"without {name}: {error}")
    return found


def is_interrupted(frame: gdb.Frame) -> bool:
    """Whether a frame stands before its instruction: it is the innermost one, or it is outside of a
    signal's. A function that was inlined stands in its caller's frame."""
    newer = frame.newer()
    while newer is not None and newer.type() == gdb.INLINE_FRAME:
        newer = newer.newer()
    return newer is None or newer.type() == gdb.SIGTRAMP_FRAME


# ---- stacks


@contextlib.contextmanager
def frames_above_main() -> Iterator[None]:
    """Lets gdb go on to the frames above main and the entry point."""
    names = ("backtrace past-main", "backtrace past-entry")
    before = {name: gdb.parameter(name) for name in names}
    try:
        for name in names:
            gdb.execute(f"set {name} on")
        yield
    finally:
        for name, value in before.items():
            gdb.execute(f"set {name} {'on' if value else 'off'}")


OUTSIDE_LINE = re.compile(r"Previous frame's sp is (0x[0-9a-f]+)")


def pointer_outside(frame: gdb.Frame) -> int | None:
    """The stack pointer outside of the outermost frame, where the tables say that it has no caller."""
    if frame.unwind_stop_reason() != gdb.FRAME_UNWIND_OUTERMOST:
        return None
    selected = gdb.selected_frame()
    try:
        frame.select()
        match = OUTSIDE_LINE.search(gdb.execute("info frame", to_string=True))
    finally:
        selected.select()
    return int(match.group(1), 16) if match else None


def frames_from(frame: gdb.Frame) -> tuple[list[StackFrame], int | None]:
    """A frame and its callers, and the stack pointer outside of the outermost one, if it is known."""
    found: list[StackFrame] = []
    try:
        while len(found) < MOST_FRAMES:
            pointer = int(frame.read_register("rsp")) % WORD
            found.append(StackFrame(pointer, frame.type() == gdb.SIGTRAMP_FRAME))
            older = frame.older()
            if older is None:
                return found, pointer_outside(frame)
            frame = older
    except gdb.error as error:
        print(f"the frames of gdb end: {error}")
    return found, None


def present_parts(places: list[Range], process: Process) -> list[Range]:
    """What a core has of stacks: all, where it wasn't cut off."""
    cut = cut_of(process.files.core) if process.files.core else None
    if cut is None:
        return places
    present = present_memory(process.files.core)
    parts = [Range(max(place.start, there.start), min(place.end, there.end)) for place in places for there in present]
    found = [part for part in parts if part.start < part.end]
    lost = sum(place.end - place.start for place in places) - sum(part.end - part.start for part in found)
    print(f"{cut}; of the stack {lost} bytes aren't there")
    return found


def stacks_of(frame: gdb.Frame, process: Process, options: argparse.Namespace) -> list[Range]:
    """What is taken of the stacks that the frame and its callers stand on. A line says of each what is taken."""
    pointer = int(frame.read_register("rsp")) % WORD
    mapped = process.stacks()
    if options.stack_bytes is not None:
        found = [stack_front(pointer, options.stack_bytes, mapped)]
    else:
        with frames_above_main():
            frames, end = frames_from(frame)
        found = stack_ranges(frames or [StackFrame(pointer)], end, mapped)
    if is_core():
        found = present_parts(found, process)
    for place in found:
        above = " (rsp lies below it: the stack has overflowed)" if pointer < found[0].start else ""
        print(f"takes the stack {place}{above if place == found[0] else ''}")
    return found


# ---- modules


DELETED = " (deleted)"


def opened_file(name: str, mappings: list[Mapping]) -> BinaryIO:
    """The bytes of an ELF file: those on the disk, or what the system maps into each process."""
    supplied = SUPPLIED.match(name)
    if not supplied:
        try:
            return open(name, "rb")
        except OSError as error:
            raise Refused(f"its file can't be read: {error.strerror}")
    address = int(supplied.group(1), 16)
    for mapping in mappings:
        if mapping.place.contains(address):
            return io.BytesIO(bytes_at(Range(address, mapping.place.end), "it"))
    raise Refused("it isn't in memory")


def kept_file(mapping: Mapping) -> str:
    """Where the kernel keeps a mapped file: that of the program is everybody's who may trace it."""
    folder = f"/proc/{gdb.selected_inferior().pid}"
    try:
        if os.readlink(f"{folder}/exe") == mapping.file:
            return f"{folder}/exe"
    except OSError:
        pass
    if mapping.file.endswith(DELETED):
        return f"{folder}/map_files/{mapping.place.start:x}-{mapping.place.end:x}"
    return mapping.file


def has_address(place: Range, addresses: list[int]) -> bool:
    """Whether one of the addresses, which ascend, is in a place."""
    index = bisect.bisect_left(addresses, place.start)
    return index < len(addresses) and addresses[index] < place.end


def unlisted_sources(process: Process) -> Iterator[Source]:
    """The mapped files with code that gdb doesn't list: it leaves out those that were deleted, and
    without a program's file what the system maps."""
    addresses = sorted(address for sections in process.files.sections.values() for address in sections.values())
    listed = {mapping.file for mapping in process.mappings if has_address(mapping.place, addresses)}
    for mapping in process.mappings:
        if "x" not in mapping.permissions or mapping.file in listed:
            continue
        listed.add(mapping.file)
        if mapping.file == "[vdso]":
            name = f"system-supplied DSO at {mapping.place.start:#x}"
            yield Source(name, name, {}, mapping)
        elif mapping.file.startswith("/"):
            yield Source(mapping.file.removesuffix(DELETED), kept_file(mapping), {}, mapping)


def sources_of(process: Process) -> list[Source]:
    """The files that are loaded. Of a program that gdb doesn't find the name is that of its mapping."""
    found = [Source(name, name, sections) for name, sections in process.files.sections.items()]
    unlisted = list(unlisted_sources(process))
    if process.files.program is None:
        program = [source.name for source in unlisted if source.opened.endswith("/exe")]
        if not program:
            named = asked_of_gdb()
            fault = fault_of_program(named.program) if named.program is not None else None
            raise Refused(
                fault or "gdb knows no program file, and so no modules: name it before the core, or load it by `file`"
            )
        process.files.program = program[0]
    return found + unlisted


def check_same(elf: ElfImage, bias: int) -> None:
    """Refuses a file that isn't the one that was loaded: another program, or one built anew.

    The identity is compared or, where the linker gave none, the frame table.
    """
    for name in (".note.gnu.build-id", ".eh_frame"):
        section, place = elf.section(name), elf.section_range(name, bias)
        if section is None or place is None:
            continue
        try:
            loaded = bytes_at(place, name)
        except Refused as reason:
            raise Refused(f"its file may not be the one that was loaded: {reason}")
        if loaded != elf.contents(section):
            raise Refused(f"its file isn't the one that was loaded: {name} differs")
        return


class WithoutTable(Refused):
    """A file has no frame table, and so nothing that a walk could read. Its code can still be named."""

    def __init__(self, code: list[Object]) -> None:
        super().__init__("it has no .eh_frame")
        self.code = code


def code_objects(source: Source, elf: ElfImage, bias: int) -> list[Object]:
    """What a snapshot says of the code of a file without a frame table, for names."""
    names = {"path": source.name, "bias": f"{bias:#x}"}
    build_id = elf.build_id()
    if build_id is not None:
        names["build_id"] = build_id
    return [range_object(place) | names for place in elf.code_ranges(bias)]


def range_object(place: Range) -> Object:
    """A range of addresses as a snapshot spells it."""
    return {"start": f"{place.start:#x}", "end": f"{place.end:#x}"}


# What a mapping that no file has is called: nothing, or of a compiler at run time that maps its code twice so.
OF_NO_FILE = re.compile(r"^$|^/memfd:|^\[anon")


def code_of_no_file(process: Process) -> list[Object]:
    """What a snapshot says of executable memory that no file has, as compilers at run time make it."""
    return [
        range_object(mapping.place) for mapping in process.mappings
        if "x" in mapping.permissions and OF_NO_FILE.match(mapping.file)
    ]


def cells_of(table: Range) -> list[Range]:
    """The cells of personalities, and none where the table can't be read."""
    try:
        return personality_cells(Table(table.start, bytes_at(table, "its .eh_frame")))
    except Refused as error:
        print(f"  without the cells of personalities: {error}")
        return []


def bias_of(elf: ElfImage, source: Source) -> int:
    """How far above its own addresses a file is loaded."""
    if source.mapping is None:
        return elf.bias_of_sections(source.sections)
    return elf.bias_of_mapping(source.mapping.place.start, source.mapping.offset)


def module_of(source: Source, process: Process, options: argparse.Namespace) -> Module:
    """What a snapshot takes of a file. Only deliveries ask for cells of personalities."""
    with opened_file(source.opened, process.mappings) as stream:
        elf = ElfImage(stream)
        bias = bias_of(elf, source)
        check_same(elf, bias)
        code = elf.code_ranges(bias)
        frame_table = elf.section_range(".eh_frame", bias)
        if frame_table is None:
            raise WithoutTable(code_objects(source, elf, bias))
        header = None if options.frame_tables else elf.section_range(".eh_frame_hdr", bias)
        tables, build_id = elf.language_tables(bias), elf.build_id()
    cells = cells_of(frame_table) if options.exception is not None else []
    return Module(source.name, bias, build_id, code, frame_table, header, tables, cells)


def is_named(file: str, names: list[str]) -> bool:
    """Whether the names ask for the file, by its path or by the path's last part."""
    return not names or file in names or os.path.basename(file) in names


def check_names(names: list[str], sources: list[Source]) -> None:
    """Refuses a name that no loaded file has."""
    for name in names:
        if not any(is_named(source.name, [name]) for source in sources):
            loaded = ", ".join(os.path.basename(source.name) for source in sources)
            raise Refused(f"no module is named {name}; loaded are: {loaded}")


def is_needed(source: Source, process: Process, reason: Refused, names: list[str]) -> bool:
    """Whether there is no snapshot without the file: one that is named, or a program of another build."""
    is_program = source.name == process.files.program
    return bool(names) or is_program and not isinstance(reason, WithoutTable)


@dataclass
class Loaded:
    """The modules that are taken, and what a snapshot says of code of which none has a table."""

    modules: list[Module] = field(default_factory=list)
    code: list[Object] = field(default_factory=list)

    def objects(self) -> Object:
        """The members of a snapshot."""
        found: Object = {"modules": [entry for module in self.modules for entry in module_objects(module)]}
        return found | ({"code": self.code} if self.code else {})

    def places(self) -> list[Range]:
        """The memory that the tables take."""
        return [place for module in self.modules for place in places_of(module)]


def modules_of(process: Process, options: argparse.Namespace) -> Loaded:
    """The modules that are asked for. A line says of each what becomes of it."""
    sources = sources_of(process)
    check_names(options.module, sources)
    found = Loaded(code=[] if options.module else code_of_no_file(process))
    for source in sources:
        deleted = DELETED if source.mapping and source.mapping.file.endswith(DELETED) else ""
        if not is_named(source.name, options.module):
            print(f"leaves out {source.name}{deleted}: it isn't named")
            continue
        try:
            module = module_of(source, process, options)
        except Refused as reason:
            if is_needed(source, process, reason, options.module):
                raise Refused(f"{source.name}{deleted}: {reason}")
            print(f"leaves out {source.name}{deleted}: {reason}")
            if isinstance(reason, WithoutTable):
                is_program = {"program": True} if source.name == process.files.program else {}
                found.code += [entry | is_program for entry in reason.code]
            continue
        print(taken_line(module, deleted))
        found.modules.append(module)
    if not found.modules:
        raise Refused("there is no module to take")
    return found


# ---- the languages of functions


def memory_at(address: int, size: int) -> bytes:
    """Bytes of the process."""
    return bytes_at(Range(address, address + size), "memory")


def table_at(place: Range) -> Table:
    """A table of a module."""
    return Table(place.start, bytes_at(place, "a table"))


def symbol_at(address: int) -> str:
    """What gdb calls an address."""
    return gdb.execute(f"info symbol {address:#x}", to_string=True)


def has_symbol(name: str) -> bool:
    """Whether gdb knows a symbol."""
    try:
        gdb.execute(f"info address {name}", to_string=True)
        return True
    except gdb.error:
        return False


def calls_from(frame: gdb.Frame | None) -> set[int]:
    """The addresses at which the language tables of a frame and its callers are asked: those of their calls."""
    found = set()
    with frames_above_main():
        while frame is not None:
            found.add(frame.pc() - 1)
            frame = frame.older()
    return found


def exception_of(frame: gdb.Frame, loaded: Loaded, options: argparse.Namespace) -> Thrown:
    """What a snapshot says of an exception that a frame throws."""
    tables = [
        LoadedTables(table_at(module.frame_table), [table_at(place) for place in module.language_tables])
        for module in loaded.modules
    ]
    names = Names(symbol_at, has_symbol)
    return thrown_of(options.exception, getattr(options, "class"), tables, calls_from(frame), memory_at, names)


def thrown_object(thrown: Thrown) -> Object:
    """The members for `unwind_cli throw`."""
    words = {"types": thrown.types, "personalities": thrown.personalities}
    lists = {key: [f"{word:#x}" for word in found] for key, found in words.items()}
    return lists | {"foreign": thrown.is_foreign, "runtime": thrown.runtime}


# ---- the snapshot


def region_at(place: Range) -> Object:
    """A region of the snapshot."""
    return region_object(Region(place.start, bytes_at(place, "memory")))


def regions_at(places: list[Range]) -> list[Object]:
    """The regions of places that may share addresses."""
    return [region_at(place) for place in without_overlaps(places)]


def thread_object(thread: gdb.InferiorThread) -> Object:
    """A thread's number in the system, and its name where it is known."""
    name = {"name": thread.name} if thread.name else {}
    return {"id": thread.ptid[1] or thread.num} | name


def start_object(registers: dict[str, int]) -> Object:
    """The registers of a snapshot."""
    return {name: f"{value:#x}" for name, value in registers.items()}


def snapshot_object(options: argparse.Namespace) -> Object:
    """The snapshot of the selected frame."""
    frame = selected_frame()
    interrupted = is_interrupted(frame) if options.interrupted is None else options.interrupted
    registers = registers_of(frame)
    process = stopped_process()
    loaded = modules_of(process, options)
    stacks = stacks_of(frame, process, options)
    thrown = exception_of(frame, loaded, options) if options.languages else None
    cells = thrown.cells if thrown else []
    found: Object = {"regions": regions_at(stacks + loaded.places() + cells)} | loaded.objects() | {
        "start": start_object(registers),
        "limit": options.limit,
        "interrupted": interrupted,
        "thread": thread_object(gdb.selected_thread()),
    }
    for key in ("exception", "class"):
        if getattr(options, key) is not None:
            found[key] = f"{getattr(options, key):#x}"
    if options.resume:
        found["resumes"] = [[f"{pad:#x}", f"{back:#x}"] for pad, back in options.resume]
    return found | (thrown_object(thrown) if thrown else {})


# ---- all threads


def thread_part(thread: gdb.InferiorThread, process: Process, options: argparse.Namespace) -> Object:
    """The small file of a thread: its registers, stacks, name and number."""
    thread.switch()
    frame = gdb.newest_frame()
    frame.select()
    registers = registers_of(frame)
    return {
        "tables": TABLES,
        "thread": thread_object(thread),
        "regions": regions_at(stacks_of(frame, process, options)),
        "start": start_object(registers),
        "interrupted": True,
    }


def tables_object(loaded: Loaded, options: argparse.Namespace) -> Object:
    """The file that all threads refer to."""
    return {"regions": regions_at(loaded.places())} | loaded.objects() | {"limit": options.limit}


def thread_parts(process: Process, options: argparse.Namespace) -> dict[str, Object]:
    """The small files of all threads, by their names. The selected thread stays the selected one."""
    selected, frame = gdb.selected_thread(), gdb.selected_frame()
    found = {}
    try:
        for thread in sorted(gdb.selected_inferior().threads(), key=lambda thread: thread.num):
            number = thread.ptid[1] or thread.num
            print(f"thread {number}:")
            try:
                found[f"thread-{number}.json"] = thread_part(thread, process, options)
            except (Refused, gdb.error) as reason:
                print(f"leaves out the thread {number}: {reason}")
    finally:
        selected.switch()
        frame.select()
    if not found:
        raise Refused("there is no thread to take")
    return found


def write_threads(options: argparse.Namespace) -> None:
    """Writes the folder with all threads."""
    selected_frame()
    process = stopped_process()
    loaded = modules_of(process, options)
    parts = {TABLES: tables_object(loaded, options)} | thread_parts(process, options)
    write_folder(options.file, {name: text_of(part) for name, part in parts.items()})
    print(f"wrote {options.file}: {len(parts) - 1} threads")


# ---- the command


class Arguments(argparse.ArgumentParser):
    """A reader of the command's words that neither leaves gdb nor prints where it refuses."""

    def error(self, message: str) -> NoReturn:
        """Refuses the words, and says what the command takes."""
        raise Refused(f"{message}\nusage: {self.usage}")


def word(text: str) -> int:
    """A number from 0 to 2^64 - 1, in any of Python's spellings."""
    number = int(text, 0)
    if not 0 <= number < WORD:
        raise ValueError(text)
    return number


def states(text: str) -> int:
    """A limit of states."""
    if not text.isdecimal() or not 1 <= int(text) <= MOST_STATES:
        raise argparse.ArgumentTypeError(f"{text} isn't a number from 1 to {MOST_STATES}")
    return int(text)


def size(text: str) -> int:
    """A number of bytes."""
    if not text.isdecimal() or int(text) < 1:
        raise argparse.ArgumentTypeError(f"{text} isn't a number of bytes")
    return int(text)


def arguments() -> Arguments:
    """The words of the command."""
    parser = Arguments(prog="snapshot", usage=USAGE, add_help=False, allow_abbrev=False)
    parser.add_argument("file", metavar="FILE")
    marks = parser.add_mutually_exclusive_group()
    marks.add_argument("--interrupted", action="store_const", const=True)
    marks.add_argument("--called", dest="interrupted", action="store_const", const=False)
    parser.add_argument("--threads", action="store_true")
    parser.add_argument("--stack-bytes", type=size, metavar="N")
    parser.add_argument("--limit", type=states, default=MOST_STATES, metavar="N")
    parser.add_argument("--module", action="append", default=[], metavar="NAME")
    parser.add_argument("--frame-tables", action="store_true")
    parser.add_argument("--exception", type=word, metavar="WORD")
    parser.add_argument("--class", type=word, metavar="WORD")
    parser.add_argument("--resume", type=word, nargs=2, action="append", default=[], metavar=("PAD", "RETURN"))
    parser.add_argument("--languages", action="store_true")
    return parser


def check_threads(options: argparse.Namespace) -> None:
    """Refuses what is said of one frame where all threads are asked for."""
    for name in ("interrupted", "exception", "class"):
        if getattr(options, name) is not None or options.resume or options.languages:
            raise Refused("--threads takes each thread where it was stopped, and no delivery")


def check_languages(options: argparse.Namespace) -> None:
    """Refuses to say of no exception what languages ask of it."""
    if options.languages and None in (options.exception, getattr(options, "class")):
        raise Refused("--languages is of an exception: it wants --exception and --class")


def write_snapshot(text: str) -> None:
    """Does what the command's words ask."""
    options = arguments().parse_args(gdb.string_to_argv(text))
    if options.threads:
        check_threads(options)
        write_threads(options)
    else:
        check_languages(options)
        write_whole(options.file, text_of(snapshot_object(options)))
        print(f"wrote {options.file}")


class SnapshotCommand(gdb.Command):
    """Write a snapshot of the selected frame, or of all threads, for unwind_cli.

snapshot FILE [--called | --interrupted] [--stack-bytes N] [--limit N] [--module NAME]... [--frame-tables]
              [--exception WORD] [--class WORD] [--resume PAD RETURN]... [--languages]
snapshot DIR --threads [--stack-bytes N] [--limit N] [--module NAME]... [--frame-tables]

--threads      write a folder: tables.json, and thread-ID.json for each thread (tools/join.py)
--interrupted  the frame stands before its instruction; --called: it stands after a call. Without
               either it is found: gdb's innermost frame and the one outside of a signal's handler
               were interrupted
--stack-bytes N  take so many bytes of the stack alone, from its pointer on
--limit N      the most states of a walk (1048576)
--module NAME  take this module, by its path or its file's name; without it all are taken
--frame-tables let modules name their .eh_frame also where they have an .eh_frame_hdr
--exception, --class, --resume   what the snapshot says of a delivery
--languages    also by which types handlers of C++ take the exception, and which routines are C++'s
               and of which runtime, for unwind_cli throw"""

    def __init__(self) -> None:
        super().__init__("snapshot", gdb.COMMAND_DATA, gdb.COMPLETE_FILENAME)

    def invoke(self, argument: str, from_tty: bool) -> None:
        """Runs the command. An error has one line, and gdb -batch ends with status 1 then."""
        try:
            write_snapshot(argument)
        except (Refused, gdb.error) as error:
            raise gdb.GdbError(f"snapshot: {error}")


SnapshotCommand()
