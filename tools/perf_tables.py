#!/usr/bin/env python3
"""The tables that `profile` reads, from a perf.data file and the files that it names.

    perf_tables.py PERF.DATA > TABLES.json
    perf_tables.py --process PID PERF.DATA > TABLES.json

Of the process PID, or of the program with the most samples, each file that it mapped as code is read where
the mapping says: its frame table and the header of this. The process PID has the mappings of its last program
alone. What can't be taken is said on standard error. The vdso, which the system maps and no file has, is
taken from the memory of this program, where the profile is of the same release of the kernel.

The process is the one whose samples `profile` is to be given: see `perf script --pid`, and
`perf record --pid`.
"""
from __future__ import annotations

import argparse
import collections
import io
import os
import struct
import sys
from typing import BinaryIO, Iterator, NamedTuple

from elf_image import ElfImage, Range, Refused
from loaded_module import Module, module_objects
from snapshot_file import MOST_STATES_OF_A_SAMPLE, Object, Region, region_object, text_of
from symbols import SUPPLIED, supplied_image

# perf's types of records, and the bits of `misc` and of protections that are asked here.
COMM, SAMPLE, MMAP2 = 3, 9, 10
COMPRESSED = (81, 83)
BY_EXEC = 0x2000
PROTECTION_CODE = 4

# the bits of `sample_type` of the words that stand before a sample's thread
IDENTIFIER, IP = 0x10000, 0x1

# The size of a header, where it says which features follow the records, and the feature that is the kernel's release.
SIZE_OF_HEADER, FEATURES, KERNEL_RELEASE = 104, 72, 4

# What a header says of its own size where perf wrote to a pipe.
SIZE_FOR_PIPE = 16


class Mapping(NamedTuple):
    """A part of a file at addresses of a process."""

    start: int
    size: int
    offset: int
    protection: int
    path: str


class Profile(NamedTuple):
    """What is asked of a perf.data file: of each process how many samples and which mappings."""

    samples: collections.Counter[int]
    mappings: dict[int, list[Mapping]]


def records_of(content: bytes) -> Iterator[tuple[int, int, bytes]]:
    """The records' types, `misc` and bodies."""
    for place in record_places(content):
        kind, misc = struct.unpack_from("<IH", content, place.start)
        yield kind, misc, content[place.start + 8 : place.end]


def check_header(content: bytes) -> None:
    """Refuses what doesn't begin as a perf.data file of this byte order does."""
    if content[:8] == b"PERFILE2" and content[8:16] == struct.pack("<Q", SIZE_FOR_PIPE):
        raise Refused("it was written to a pipe")
    if content[:8] != b"PERFILE2" or len(content) < SIZE_OF_HEADER:
        raise Refused("it is no perf.data file of this byte order")


def record_places(content: bytes) -> Iterator[Range]:
    """Where the records are."""
    check_header(content)
    offset, size = struct.unpack_from("<QQ", content, 40)
    if size == 0:
        raise Refused("its recording didn't end")
    place, end = offset, min(offset + size, len(content))
    while place + 8 <= end:
        kind, _misc, length = struct.unpack_from("<IHH", content, place)
        if length < 8 or place + length > end:
            raise Refused(f"the record at byte {place} is cut off")
        if kind in COMPRESSED:
            raise Refused(f"the record at byte {place} is compressed")
        yield Range(place, place + length)
        place += length


def thread_place(content: bytes) -> int:
    """Where a sample's thread stands in its body, by the first attribute."""
    check_header(content)
    attributes = struct.unpack_from("<Q", content, 24)[0]
    kinds = struct.unpack_from("<Q", content, attributes + 24)[0]
    return 8 * bool(kinds & IDENTIFIER) + 8 * bool(kinds & IP)


def mapping_of(body: bytes) -> Mapping:
    """What a record of a mapping says."""
    start, size, offset = struct.unpack_from("<QQQ", body, 8)
    protection = struct.unpack_from("<I", body, 56)[0]
    return Mapping(start, size, offset, protection, os.fsdecode(body[64 : body.index(0, 64)]))


def left_of(old: Mapping, new: Mapping) -> Iterator[Mapping]:
    """What is left of a mapping where another is made: what lies below the new one, and what lies above it."""
    end, start = old.start + old.size, max(old.start, new.start + new.size)
    if old.start < new.start:
        yield old._replace(size=min(old.size, new.start - old.start))
    if start < end:
        yield old._replace(start=start, size=end - start, offset=old.offset + start - old.start)


def with_mapping(mappings: list[Mapping], new: Mapping) -> list[Mapping]:
    """The mappings with another, in place of what was there."""
    return [*(left for old in mappings for left in left_of(old, new)), new]


def read_profile(content: bytes) -> Profile:
    """The samples and the mappings of each process. A new program begins without mappings."""
    profile = Profile(collections.Counter(), collections.defaultdict(list))
    place = thread_place(content)
    for kind, misc, body in records_of(content):
        if kind == SAMPLE:
            profile.samples[struct.unpack_from("<I", body, place)[0]] += 1
        elif kind == COMM and misc & BY_EXEC:
            profile.mappings[struct.unpack_from("<I", body, 0)[0]].clear()
        elif kind == MMAP2:
            (process,) = struct.unpack_from("<I", body, 0)
            profile.mappings[process] = with_mapping(profile.mappings[process], mapping_of(body))
    return profile


def release_of(content: bytes) -> str | None:
    """The release of the kernel that a perf.data file was recorded on, where it says it."""
    features = int.from_bytes(content[FEATURES : FEATURES + 8], "little")
    if not features >> KERNEL_RELEASE & 1:
        return None
    sections = sum(struct.unpack_from("<QQ", content, 40))
    before = (features & ((1 << KERNEL_RELEASE) - 1)).bit_count()
    offset, size = struct.unpack_from("<QQ", content, sections + 16 * before)
    return os.fsdecode(content[offset + 4 : offset + size].split(b"\0")[0])


def vdso_of(content: bytes) -> bytes | None:
    """The vdso of a profile's processes, where they ran over the kernel that runs here."""
    return supplied_image() if release_of(content) == os.uname().release else None


def taken_module(stream: BinaryIO, mapping: Mapping) -> tuple[Module, list[Region]]:
    """What is taken of the file of a mapping."""
    image = ElfImage(stream)
    bias = image.bias_of_mapping(mapping.start, mapping.offset)
    places = {name: image.section_range(name, bias) for name in (".eh_frame", ".eh_frame_hdr")}
    table = places[".eh_frame"]
    if table is None:
        raise Refused("it has no frame table")
    regions = []
    for name, place in places.items():
        section = image.section(name)
        if section is not None and place is not None:
            regions.append(Region(place.start, image.contents(section)))
    code = [Range(mapping.start, mapping.start + mapping.size)]
    module = Module(mapping.path, bias, image.build_id(), code, table, places[".eh_frame_hdr"], [], [])
    return module, regions


def opened_file(mapping: Mapping, vdso: bytes | None) -> BinaryIO | None:
    """The file of a mapping as code, None where it has none."""
    if mapping.path == SUPPLIED and vdso is not None and len(vdso) == mapping.size:
        return io.BytesIO(vdso)
    if mapping.protection & PROTECTION_CODE and mapping.path.startswith("/"):
        return open(mapping.path, "rb")
    return None


def tables_of(mappings: list[Mapping], vdso: bytes | None = None) -> Object:
    """The snapshot of the files that are mapped as code, whose start isn't used."""
    regions: dict[int, Region] = {}
    modules: list[Object] = []
    for mapping in mappings:
        try:
            file = opened_file(mapping, vdso)
            if file is None:
                continue
            with file as stream:
                module, found = taken_module(stream, mapping)
        except (Refused, OSError) as error:
            print(f"passes over {mapping.path}: {error}", file=sys.stderr)
            continue
        modules += module_objects(module)
        regions.update((region.start, region) for region in found)
    return {
        "regions": [region_object(region) for _, region in sorted(regions.items())],
        "modules": modules,
        "start": {"rip": "0x0", "rsp": "0x0"},
        "limit": MOST_STATES_OF_A_SAMPLE,
    }


def program_mappings(content: bytes) -> list[Mapping]:
    """The mappings of the program with the most samples. Records stand in a file by the processor that wrote them, so the one that says
    that a program began may come after those of what it mapped; the parts of a recording go by the records' times."""
    from perf_parts import parts_of  # it reads records by this module

    parts = [part for part in parts_of(content) if part.samples]
    if not parts:
        raise Refused("it has no samples")
    return parts[0].mappings


def main() -> None:
    parser = argparse.ArgumentParser(description="the tables that `profile` reads")
    parser.add_argument("--process", type=int, metavar="PID")
    parser.add_argument("file", metavar="PERF.DATA")
    words = parser.parse_args()
    try:
        with open(words.file, "rb") as stream:
            content = stream.read()
        if words.process is not None:
            mappings = read_profile(content).mappings[words.process]
        else:
            mappings = program_mappings(content)
        print(text_of(tables_of(mappings, vdso_of(content)), most=None))
    except (Refused, OSError) as error:
        sys.exit(f"{words.file}: {error}")
    except (struct.error, ValueError, OverflowError):
        sys.exit(f"{words.file}: it is cut or damaged")


if __name__ == "__main__":
    main()
