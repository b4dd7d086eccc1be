"""Divides a perf.data file by the programs whose samples it has.

`profile` walks the samples of a file over one set of tables. So the samples of each program that ran, with those of processes
that it forked and that run it too, are a part of their own, with the mappings of that program. Where a file's code takes the place
of another's, which was let go, the samples from there on are a part of their own, too. A part is a perf.data file with
all records of the other kinds, which name the threads. Its records come in the order of their times: perf writes them by the
processors that they come from, so that in its file a sample may stand before the start of its program.
"""
from __future__ import annotations

import struct
import sys
from collections import defaultdict
from typing import Iterator, NamedTuple

from elf_image import Range
from perf_tables import (
    BY_EXEC, COMM, MMAP2, PROTECTION_CODE, SAMPLE, Mapping, mapping_of, record_places, thread_place, with_mapping,
)

FORK = 7
FIRST_OF_PERF = 64

# Bits of `sample_type`, and the flag that says that the other records end with the same words as a sample has.
IDENTIFIER, IP, THREAD, TIME, ID, STREAM, PROCESSOR = 0x10000, 0x1, 0x2, 0x4, 0x40, 0x200, 0x80
ALL_HAVE_WORDS = 1 << 18

# Where a header says how long the section of the records is, and which sections of features follow it.
SIZE_OF_RECORDS, FEATURES, SIZE_OF_FEATURES = 48, 72, 32


def is_code_of_file(mapping: Mapping) -> bool:
    """Whether a mapping is of the code of a file."""
    return bool(mapping.protection & PROTECTION_CODE) and mapping.path.startswith("/") and not mapping.path.startswith("//")


def takes_place(new: Mapping, old: Mapping) -> bool:
    """Whether a mapping of a file's code takes the place of another file's."""
    is_over = new.start < old.start + old.size and old.start < new.start + new.size
    return is_over and new.path != old.path and is_code_of_file(new) and is_code_of_file(old)


class Part(NamedTuple):
    """The samples of a program: its mappings, how many samples there are, and perf.data files with these."""

    mappings: list[Mapping]
    samples: int
    files: list[bytes]


class Times:
    """When records of a file were made, where its first attribute says that they tell it."""

    def __init__(self, content: bytes) -> None:
        """Finds the word of a sample's time, and how far before the end it stands in other records."""
        self.content = content
        attribute = struct.unpack_from("<Q", content, 24)[0]
        kinds, _format, flags = struct.unpack_from("<QQQ", content, attribute + 24)
        self.known = bool(kinds & TIME and flags & ALL_HAVE_WORDS)
        self.from_start = 8 + 8 * sum(bool(kinds & bit) for bit in (IDENTIFIER, IP, THREAD))
        self.from_end = 8 + 8 * sum(bool(kinds & bit) for bit in (ID, STREAM, PROCESSOR, IDENTIFIER))

    def of(self, place: Range) -> int:
        """The time of a record, 0 for one that perf made itself."""
        (kind,) = struct.unpack_from("<I", self.content, place.start)
        if not self.known or kind >= FIRST_OF_PERF:
            return 0
        at = place.start + self.from_start if kind == SAMPLE else place.end - self.from_end
        time: int = struct.unpack_from("<Q", self.content, at)[0]
        return time


class Programs:
    """The programs that ran in the processes of a file: of each the mappings, and where its samples are."""

    def __init__(self, content: bytes) -> None:
        """Reads the records in the order of their times."""
        self.content, self.thread = content, thread_place(content)
        self.running: dict[int, int] = {}
        self.count = 0
        self.mappings: dict[int, list[Mapping]] = defaultdict(list)
        self.samples: dict[int, list[Range]] = defaultdict(list)
        self.others: list[Range] = []
        self.records = sorted(record_places(content), key=Times(content).of)
        for place in self.records:
            self._read(place)

    def _program(self, process: int) -> int:
        """The number of the program that a process runs."""
        if process not in self.running:
            self._begin(process)
        return self.running[process]

    def _begin(self, process: int) -> None:
        """A process runs a program of its own."""
        self.running[process] = self.count
        self.count += 1

    def _map(self, process: int, new: Mapping) -> None:
        """A process maps a part of a file. Where it takes the place of code in which samples may stand, the samples so far keep
        the mappings so far."""
        program = self._program(process)
        mappings = self.mappings[program]
        if self.samples.get(program) and any(takes_place(new, old) for old in mappings):
            self._begin(process)
        self.mappings[self.running[process]] = with_mapping(mappings, new)

    def _read(self, place: Range) -> None:
        """Reads a record."""
        kind, misc = struct.unpack_from("<IH", self.content, place.start)
        body = place.start + 8
        if kind == SAMPLE:
            (process,) = struct.unpack_from("<I", self.content, body + self.thread)
            self.samples[self._program(process)].append(place)
            return
        self.others.append(place)
        if kind == FORK:
            process, parent = struct.unpack_from("<II", self.content, body)
            if process != parent:
                self.running[process] = self._program(parent)
        elif kind == COMM and misc & BY_EXEC:
            self._begin(struct.unpack_from("<I", self.content, body)[0])
        elif kind == MMAP2:
            (process,) = struct.unpack_from("<I", self.content, body)
            self._map(process, mapping_of(self.content[body : place.end]))

    def files(self, program: int, most: int) -> Iterator[bytes]:
        """perf.data files of at most so many bytes with the samples of a program, where one sample fits."""
        fixed = struct.unpack_from("<Q", self.content, 40)[0] + sum(place.end - place.start for place in self.others)
        taken, size = list[Range](), fixed
        for place in self.samples[program]:
            if taken and size + place.end - place.start > most:
                yield self._file(taken)
                taken, size = [], fixed
            taken.append(place)
            size += place.end - place.start
        yield self._file(taken)

    def _file(self, samples: list[Range]) -> bytes:
        """A file with these samples and all records of the other kinds, by their times, and without features."""
        taken = {*self.others, *samples}
        records = b"".join(self.content[place.start : place.end] for place in self.records if place in taken)
        head = bytearray(self.content[: struct.unpack_from("<Q", self.content, 40)[0]])
        struct.pack_into("<Q", head, SIZE_OF_RECORDS, len(records))
        head[FEATURES : FEATURES + SIZE_OF_FEATURES] = bytes(SIZE_OF_FEATURES)
        return bytes(head) + records


def parts_of(content: bytes, most: int = sys.maxsize) -> list[Part]:
    """The parts of a file, that with the most samples first."""
    programs = Programs(content)
    found = [
        Part(programs.mappings[number], len(samples), list(programs.files(number, most)))
        for number, samples in programs.samples.items()
    ]
    return sorted(found, key=lambda part: -part.samples)
