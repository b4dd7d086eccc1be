#!/usr/bin/env python3
"""Whether `profile` gives the frames that `perf script` gives of the samples of perf.data files.

    compare_profile.py [--show] [--all] PROFILE PERF.DATA ..

PROFILE is the built program. Of each file the samples of the program with the most of them, with --all those of every
program, as perf_parts.py divides it, are compared one by one, by their threads and times: the name of the thread, and each
frame's file and its place in it. A line says how many have the same, and how the others differ; with --show each of these is
printed, too. perf prints a caller by the byte before its return address, but for one that a signal interrupted; frames of
the kernel are left out.
"""
from __future__ import annotations

import argparse
import collections
import os
import re
import struct
import subprocess
import tempfile
from typing import Iterator, NamedTuple

from elf_image import Range
from perf_parts import Part, Times, parts_of
from perf_tables import SAMPLE, Mapping, record_places, tables_of, thread_place, vdso_of
from snapshot_file import text_of
from symbols import SUPPLIED

KERNEL = 2**63
MOST_FRAMES = 1024

# Where an attribute says which words a sample has and how much of a stack is copied, and the words that may come after the copy.
KINDS, SIZE_OF_COPIES = 24, 88
WEIGHT, DATA_SOURCE, TRANSACTION = 0x4000, 0x8000, 0x20000

HEAD = re.compile(r"\s*(.*?)\s+\d+/(\d+)\s+(\d+\.\d+):")
FRAME = re.compile(r"\t\s*(?:0x)?([0-9a-f]+) .*?\((.*)\)$")
REASON = re.compile(r"\t0x0 (\[.*\]) ")
# where a program writes the symbols of code that it makes: perf names such code by it
SYMBOL_MAP = re.compile(r"perf-\d+\.map")

Frame = tuple[str, int]
Key = tuple[int, int]


class Sample(NamedTuple):
    """The name of a sample's thread, its frames from the innermost outwards, and what is said beside them."""

    name: str
    frames: tuple[Frame, ...]
    marks: tuple[str, ...] = ()


class Places:
    """Where the files of a program are mapped."""

    def __init__(self, mappings: list[Mapping]) -> None:
        self.mappings = mappings

    def of(self, address: int) -> Frame:
        """The file that holds an address, and the address's place in it as perf prints that."""
        for mapping in self.mappings:
            if mapping.start <= address < mapping.start + mapping.size:
                if mapping.path == SUPPLIED:
                    return mapping.path, address - mapping.start
                if mapping.path.startswith("/") and not mapping.path.startswith("//"):
                    return os.path.basename(mapping.path), address - mapping.start + mapping.offset
        return "", address


def blocks_of(text: str) -> Iterator[tuple[Key, str, list[str]]]:
    """The samples of a text as `perf script` writes it: thread and time, the thread's name, and the lines of frames."""
    for block in text.split("\n\n"):
        lines = [line for line in block.split("\n") if line.strip()]
        head = HEAD.match(lines[0]) if lines else None
        if head is not None:
            yield (int(head[2]), int(head[3].replace(".", ""))), re.sub(r"[\x00- ;]", "_", head[1]), lines[1:]


def samples_of_program(program: str, part: Part, vdso: bytes | None) -> dict[Key, Sample]:
    """The program's samples."""
    places, samples = Places(part.mappings), dict[Key, Sample]()
    with tempfile.NamedTemporaryFile("w", suffix=".json") as tables:
        tables.write(text_of(tables_of(part.mappings, vdso), most=None))
        tables.flush()
        words = [program, "--script", tables.name]
        text = subprocess.run(words, input=part.files[0], check=True, capture_output=True).stdout.decode(errors="replace")
    for key, name, lines in blocks_of(text):
        marks = [(line, REASON.match(line)) for line in lines]
        frames = [FRAME.match(line) for line, mark in marks if mark is None]
        found = tuple(places.of(int(frame[1], 16)) for frame in frames if frame is not None)
        samples[key] = Sample(name, found, tuple(mark[1] for _, mark in marks if mark is not None))
    return samples


def frame_of_perf(address: int, path: str) -> Frame:
    """A frame by perf's line."""
    if path == SUPPLIED:
        return path, address
    name = os.path.basename(path)
    is_file = path.startswith("/") and not path.startswith("//") and not SYMBOL_MAP.fullmatch(name)
    return name if is_file else "", address


def samples_of_perf(path: str) -> dict[Key, Sample]:
    """perf's samples, without the frames of the kernel."""
    words = ["perf", "script", "-i", path, "--ns", "--no-inline", "--max-stack", str(MOST_FRAMES), "-F", "comm,pid,tid,time,ip,dso"]
    text = subprocess.run(words, check=True, capture_output=True).stdout.decode(errors="replace")
    samples = dict[Key, Sample]()
    for key, name, lines in blocks_of(text):
        frames = [(int(frame[1], 16), frame[2]) for frame in map(FRAME.match, lines) if frame is not None]
        samples[key] = Sample(name, tuple(frame_of_perf(*frame) for frame in frames if frame[0] < KERNEL))
    return samples


class Copies:
    """The copies of stacks in the samples of a file."""

    def __init__(self, content: bytes) -> None:
        """Finds how long they are, and how far before a sample's end."""
        self.content = content
        (attribute,) = struct.unpack_from("<Q", content, 24)
        (kinds,) = struct.unpack_from("<Q", content, attribute + KINDS)
        (self.size,) = struct.unpack_from("<I", content, attribute + SIZE_OF_COPIES)
        self.after = 8 * sum(bool(kinds & bit) for bit in (WEIGHT, DATA_SOURCE, TRANSACTION))

    def last_word(self, place: Range) -> int | None:
        """The last word of a sample's copy, None where it has none."""
        end = place.end - self.after - 8
        start = end - self.size
        if start - 8 < place.start or struct.unpack_from("<Q", self.content, start - 8)[0] != self.size:
            return None
        (copied,) = struct.unpack_from("<Q", self.content, end)
        if not 8 <= copied <= self.size:
            return None
        word: int = struct.unpack_from("<Q", self.content, start + copied - 8)[0]
        return word


def last_words(content: bytes) -> dict[Key, int]:
    """Of each sample the last word of the copy of its stack."""
    copies, times, thread, words = Copies(content), Times(content), thread_place(content), dict[Key, int]()
    for place in record_places(content):
        if struct.unpack_from("<I", content, place.start)[0] == SAMPLE:
            word = copies.last_word(place)
            if word is not None:
                words[struct.unpack_from("<I", content, place.start + 12 + thread)[0], times.of(place)] = word
    return words


def difference(ours: Sample, theirs: Sample, is_last_word: bool) -> str:
    """How two samples differ, empty where they don't."""
    a, b = ours.frames, theirs.frames
    if a == b:
        return "" if ours.name == theirs.name else "another name"
    if a[: len(b)] == b:
        short = "perf ends one frame before, whose return address is the copy's last word"
        return short if len(a) == len(b) + 1 and is_last_word else "perf ends before"
    if b[: len(a)] == a:
        return "perf goes on after " + "".join(ours.marks or ("the outermost",))
    return "other frames after " + "".join(ours.marks or ("the outermost",))


def show(key: Key, kind: str, samples: tuple[Sample, Sample]) -> None:
    """Prints two samples."""
    print(f"thread {key[0]} at {key[1]}: {kind}")
    for who, sample in zip(("profile", "perf"), samples):
        print(f"  {who}: {sample.name} {' '.join(sample.marks)}")
        print("".join(f"    {name}+{place:#x}\n" for name, place in sample.frames), end="")


def compared(part: Part, ours: dict[Key, Sample], theirs: dict[Key, Sample]) -> Iterator[tuple[Key, str]]:
    """How the samples of a part differ, empty where they don't."""
    places, words = Places(part.mappings), last_words(part.files[0])
    for key, sample in ours.items():
        is_last = bool(sample.frames) and key in words and sample.frames[-1] == places.of(words[key] - 1)
        yield key, difference(sample, theirs[key], is_last) if key in theirs else "not in perf's text"


def compare(program: str, path: str, is_shown: bool, is_all: bool) -> None:
    """Prints how many samples have the same frames, and how the others differ."""
    with open(path, "rb") as stream:
        content = stream.read()
    theirs, samples = samples_of_perf(path), list[Sample]()
    kinds: collections.Counter[str] = collections.Counter()
    for part in parts_of(content)[: None if is_all else 1]:
        ours = samples_of_program(program, part, vdso_of(content))
        samples += ours.values()
        for key, kind in compared(part, ours, theirs):
            kinds[kind] += 1
            if kind and is_shown:
                show(key, kind, (ours[key], theirs.get(key, Sample("", ()))))
    marks = collections.Counter(mark for sample in samples for mark in sample.marks)
    frames = sum(len(sample.frames) for sample in samples)
    print(f"{path}: {len(samples):,} samples, {frames:,} frames, same: {kinds.pop('', 0):,}", end="")
    print("".join(f", {kind}: {count:,}" for kind, count in sorted(kinds.items())), end="; ")
    print(", ".join(f"{mark} {count:,}" for mark, count in sorted(marks.items())))


def main() -> None:
    parser = argparse.ArgumentParser(description="compares the frames of `profile` with those of perf")
    parser.add_argument("--show", action="store_true")
    parser.add_argument("--all", action="store_true")
    parser.add_argument("program", metavar="PROFILE")
    parser.add_argument("files", metavar="PERF.DATA", nargs="+")
    words = parser.parse_args()
    for file in words.files:
        compare(words.program, file, words.show, words.all)


if __name__ == "__main__":
    main()
