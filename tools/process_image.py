"""Stops a process and reads it as a core file is read: its threads, its memory and what is mapped.

    with stopped(PID) as process: ..

ptrace(2) stops the threads (PTRACE_SEIZE, PTRACE_INTERRUPT) and says their registers, /proc/PID/mem has the memory,
/proc/PID/maps what is mapped, and /proc/PID/auxv the auxiliary vector (proc(5)). No signal is sent, and no other program is
asked. The process goes on where the block ends, and also where this program does.
"""
from __future__ import annotations

import bisect
import collections
import contextlib
import ctypes
import errno
import functools
import os
import re
import struct
import time
from typing import Iterator, NamedTuple

from core_image import NT_AUXV, NT_PRSTATUS, NUMBER_OFFSET, REGISTERS_OFFSET, Core, Mapped, Memory, Note, Thread, thread_of
from elf_image import Range, Refused
from process_status import why_no_process

# Requests of ptrace(2), and what waitpid(2) is told to wait for threads too.
PTRACE_DETACH, PTRACE_GETREGSET, PTRACE_SEIZE, PTRACE_INTERRUPT = 17, 0x4204, 0x4206, 0x4207
PTRACE_EVENT_STOP = 128
WAIT_FOR_ALL = 0x40000000

# `struct user_regs_struct` of a thread of 64 bits, and `struct elf_prstatus` around it, as a core has it.
REGISTERS_SIZE, STATUS_SIZE = 216, 336

# So long a thread is waited for: one that waits in the kernel for a device, or for its vfork's child, doesn't stop before.
SECONDS_TO_STOP = 2.0

# A stack may be a small part of a mapping, as those that a runtime puts into its heap. So much is taken of one then, from its
# pointer on: of a mapping that is neither the first thread's stack nor has the own block of one thread. (Go has those of several
# threads in its heap.)
MOST_OF_A_HEAP = 2**18
FIRST_STACK = "[stack]"

MAPPING_LINE = re.compile(r"([0-9a-f]+)-([0-9a-f]+) ([-r])([-w])([-x])[ps] ([0-9a-f]+) \S+ \d+ *(.*)")
# How /proc/PID/maps ends the name of a deleted file; and mappings of the system whose memory isn't the process's to read.
DELETED = " (deleted)"
OF_SYSTEM = ("[vvar]", "[vvar_vclock]", "[vsyscall]")


class Mapping(NamedTuple):
    """A mapping: its addresses, whether it can be read and run, and its file's part."""

    place: Range
    readable: bool
    executable: bool
    offset: int
    file: str


class Vector(ctypes.Structure):
    """`struct iovec`."""

    _fields_ = [("base", ctypes.c_void_p), ("size", ctypes.c_size_t)]


@functools.lru_cache(maxsize=1)
def system_call() -> ctypes._NamedFuncPointer:
    """The C library's `ptrace`."""
    call = ctypes.CDLL(None, use_errno=True).ptrace
    call.argtypes = [ctypes.c_long, ctypes.c_long, ctypes.c_void_p, ctypes.c_void_p]
    call.restype = ctypes.c_long
    return call


def ptrace(request: int, thread: int, address: int = 0, data: int = 0) -> None:
    """Asks the system about a thread."""
    if system_call()(request, thread, address, data) == -1:
        number = ctypes.get_errno()
        raise OSError(number, os.strerror(number))


# ---- threads


def threads_of(process: int) -> list[int]:
    """The numbers of a process's threads, the first of which has the process's own."""
    try:
        return sorted(map(int, os.listdir(f"/proc/{process}/task")), key=lambda number: (number != process, number))
    except OSError:
        return []


def has_ended(process: int, thread: int) -> bool:
    """Whether a thread has ended, while the process has others."""
    try:
        with open(f"/proc/{process}/task/{thread}/stat", "rb") as stream:
            return stream.read().rpartition(b")")[2].split()[:1] in ([b"Z"], [b"X"])
    except OSError:
        return True


def thread_name(process: int, thread: int) -> str:
    """The name that a thread has given itself."""
    try:
        with open(f"/proc/{process}/task/{thread}/comm", encoding="utf-8", errors="replace") as stream:
            return stream.read().rstrip("\n")
    except OSError:
        return ""


class Tracer:
    """Stops the threads of a process, and lets them go on."""

    def __init__(self, process: int) -> None:
        """Nothing is stopped yet."""
        self.process = process
        self.signals: dict[int, int] = {}
        self.running: set[int] = set()

    def stop(self) -> None:
        """Stops all threads, those too that are started meanwhile."""
        while new := [thread for thread in threads_of(self.process) if thread not in self.signals.keys() | self.running]:
            seized = [thread for thread in new if self.seize(thread)]
            if not seized:
                break
            deadline = time.monotonic() + SECONDS_TO_STOP
            for thread in seized:
                self.wait(thread, deadline)
        if not self.signals and not self.running:
            raise Refused(why_no_process(self.process))
        if not self.signals:
            raise Refused(f"the process {self.process} doesn't stop: it waits in the kernel")

    def seize(self, thread: int) -> bool:
        """Begins to trace a thread, and answers whether it does."""
        try:
            ptrace(PTRACE_SEIZE, thread)
        except OSError as error:
            if error.errno == errno.ESRCH or has_ended(self.process, thread):
                return False
            raise Refused(why_no_process(self.process))
        try:
            ptrace(PTRACE_INTERRUPT, thread)
        except OSError:
            return False
        return True

    def wait(self, thread: int, deadline: float) -> None:
        """Waits until a thread has stopped, and notes the signal that it goes on with."""
        while True:
            try:
                found, status = os.waitpid(thread, WAIT_FOR_ALL | os.WNOHANG)
            except ChildProcessError:
                return
            if found == thread:
                break
            if time.monotonic() > deadline:
                self.running.add(thread)
                return
            time.sleep(0.0005)
        if os.WIFSTOPPED(status):
            self.signals[thread] = 0 if status >> 16 == PTRACE_EVENT_STOP else os.WSTOPSIG(status)

    def let_go(self) -> None:
        """Lets all threads go on, with the signals that had come to them. Those that didn't stop go on by themselves."""
        for thread, number in self.signals.items():
            with contextlib.suppress(OSError):
                ptrace(PTRACE_DETACH, thread, 0, number)

    def registers(self, thread: int) -> bytes:
        """The general registers of a thread, as `struct user_regs_struct` has them."""
        buffer = ctypes.create_string_buffer(REGISTERS_SIZE)
        vector = Vector(ctypes.addressof(buffer), REGISTERS_SIZE)
        ptrace(PTRACE_GETREGSET, thread, NT_PRSTATUS, ctypes.addressof(vector))
        if vector.size != REGISTERS_SIZE:
            raise Refused(f"the process {self.process} is of 32 bits, and a walk is of x86-64")
        return buffer.raw


def status_note(thread: int, registers: bytes) -> Note:
    """The note on a thread that a core would have."""
    head = bytes(NUMBER_OFFSET) + struct.pack("<i", thread)
    description = (head.ljust(REGISTERS_OFFSET, b"\0") + registers).ljust(STATUS_SIZE, b"\0")
    text = struct.pack("<III", 5, len(description), NT_PRSTATUS) + b"CORE\0\0\0\0" + description
    return Note(b"CORE", NT_PRSTATUS, description, text)


# ---- memory


def mapping_of(line: str) -> Mapping | None:
    """A line of /proc/PID/maps. It spells the end of a line in a file's name by its number."""
    match = MAPPING_LINE.fullmatch(line)
    if match is None:
        return None
    start, end, readable, _writable, executable, offset, file = match.groups()
    place = Range(int(start, 16), int(end, 16))
    return Mapping(place, readable == "r", executable == "x", int(offset, 16), file.replace("\\012", "\n"))


def is_file(name: str) -> bool:
    """Whether a mapping's name is that of a file on a disk."""
    return name.startswith("/") and not name.startswith("/memfd:")


def mappings_of(process: int) -> list[Mapping]:
    """What is mapped in a process."""
    with open(f"/proc/{process}/maps", encoding="utf-8", errors="surrogateescape") as stream:
        return [mapping for line in stream if (mapping := mapping_of(line.rstrip("\n"))) is not None]


def stack_starts(mappings: list[Mapping], blocks: list[int]) -> set[int]:
    """Where mappings begin that are a stack as a whole, by where the threads' own blocks are. The mappings ascend."""
    starts = [mapping.place.start for mapping in mappings]
    holders = [bisect.bisect_right(starts, block) - 1 for block in blocks]
    counts = collections.Counter(holders)
    found = {
        starts[index] for index, block in zip(holders, blocks)
        if index >= 0 and counts[index] == 1 and mappings[index].place.contains(block)
    }
    return found | {mapping.place.start for mapping in mappings if mapping.file == FIRST_STACK}


class Process(Core):
    """A stopped process, with all that a core says. Its memory is that of the process, read where it is asked."""

    def __init__(self, number: int, tracer: Tracer) -> None:
        """Reads what is mapped, and the registers. (There is no file, and so no header to read.) The system says it by the
        number of a thread that is there: the first may have ended."""
        numbers = sorted_threads(number, tracer)
        number = self.number = numbers[0]
        self.mappings = mappings_of(number)
        self.memories = [
            Memory(place.start, place.start, size, size, size, mapping.executable)
            for mapping in self.mappings if mapping.readable and mapping.file not in OF_SYSTEM
            if (place := mapping.place) and (size := place.end - place.start)
        ]
        self.starts = [memory.address for memory in self.memories]
        self.note_ranges: list[Range] = []
        self.notes = [auxiliary_note(number)]
        self.notes += [status_note(thread, tracer.registers(thread)) for thread in numbers]
        self.stack_starts = stack_starts(self.mappings, [thread.fs_base or 0 for thread in self.threads()])
        self.size = self.end = 0
        self.memory = os.open(f"/proc/{number}/mem", os.O_RDONLY | os.O_CLOEXEC)

    def bytes_at(self, offset: int, size: int) -> bytes:
        """The memory at an address, fewer bytes where it can't be read."""
        parts, left = [], size
        while left > 0:
            try:
                part = os.pread(self.memory, min(left, 2**30), offset + size - left)
            except OSError:
                break
            if not part:
                break
            parts.append(part)
            left -= len(part)
        return b"".join(parts)

    def memory_from(self, address: int) -> Memory | None:
        """The memory above a stack pointer: no more than a part of what may be a heap."""
        found = super().memory_from(address)
        if found is None or found.address in self.stack_starts:
            return found
        size = min(found.present, max(address - found.address, 0) + MOST_OF_A_HEAP)
        return Memory(found.address, found.offset, size, size, size)

    def mapped(self) -> list[Mapped]:
        """The parts of files that are mapped, of those with code."""
        with_code = {mapping.file for mapping in self.mappings if mapping.executable and is_file(mapping.file)}
        return [
            Mapped(mapping.place, mapping.offset, mapping.file) for mapping in self.mappings if mapping.file in with_code
        ]

    def threads(self) -> list[Thread]:
        """The threads, that with the process's number first."""
        return [thread_of(note) for note in self.notes if note.kind == NT_PRSTATUS]

    def missing_at(self, address: int) -> str:
        """Why a walk finds no memory at an address."""
        memory = self.memory_at(address)
        return "nothing is mapped there" if memory is None else "which wasn't taken"

    def close(self) -> None:
        """Reads no more."""
        os.close(self.memory)


def sorted_threads(process: int, tracer: Tracer) -> list[int]:
    """The threads that have stopped, in the order in which they are printed."""
    return sorted(tracer.signals, key=lambda number: (number != process, number))


def auxiliary_note(process: int) -> Note:
    """The auxiliary vector, as a core has it."""
    with open(f"/proc/{process}/auxv", "rb") as stream:
        return Note(b"CORE", NT_AUXV, stream.read(), b"")


@contextlib.contextmanager
def stopped(number: int) -> Iterator[Process]:
    """A process that stands still meanwhile."""
    tracer = Tracer(number)
    try:
        tracer.stop()
        process = Process(number, tracer)
        try:
            yield process
        finally:
            process.close()
    except PermissionError:
        raise Refused(why_no_process(number))
    except ProcessLookupError:
        raise Refused(f"the process {number} has ended meanwhile")
    finally:
        tracer.let_go()
