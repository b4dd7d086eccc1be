#!/usr/bin/env python3
"""Whether `profile` folds the samples of perf.data files by the functions of their frames.

    compare_functions.py [--show] [--all] PROFILE PERF.DATA ..

PROFILE is the built program. Of each file the samples of the program with the most of them are taken, with --all those of
every program, as compare_profile.py does. Their frames by `profile --script` are folded here: a frame is where the
description begins that `readelf` prints for its address, or the address where it prints none, and the root is the name of
the process, by the records of its thread. A line says whether those are the lines of `profile`, with the same counts, and
whether the frames of `profile --script` have these functions, and how far past their beginnings they lie. Then each frame of the samples whose frames are perf's is held against the function that `perf script` names there: whether its
symbol begins where the description does. With --show the lines and the functions that differ are printed.
"""
from __future__ import annotations

import argparse
import bisect
import collections
import os
import re
import struct
import subprocess
import tempfile
from typing import Iterator, NamedTuple

from compare_profile import KERNEL, MOST_FRAMES, REASON, Frame, Key, Places, blocks_of, frame_of_perf
from elf_image import WORD
from names import modules_of
from perf_parts import FORK, Part, parts_of
from perf_tables import COMM, SAMPLE, records_of, tables_of, thread_place, vdso_of
from snapshot_file import Object, text_of
from symbols import SUPPLIED, module_at

DESCRIPTION = re.compile(r"[0-9a-f]+ [0-9a-f]+ [0-9a-f]+ FDE cie=[0-9a-f]+ pc=([0-9a-f]+)\.\.([0-9a-f]+)")
WRITTEN = re.compile(r"\t0x([0-9a-f]+) (.*) \((.*)\)$")
NAMED = re.compile(r"\t\s*([0-9a-f]+) (.*) \((.*)\)$")
SYMBOL = re.compile(r"(.*)\+0x([0-9a-f]+)$")


class Descriptions:
    """The functions that the frame table of a file describes, by readelf."""

    def __init__(self, text: str) -> None:
        """Reads what readelf prints."""
        found = filter(None, map(DESCRIPTION.match, text.splitlines()))
        self.places = sorted({(int(line[1], 16), int(line[2], 16)) for line in found})

    @classmethod
    def of_file(cls, path: str) -> Descriptions:
        """Those of the file at a path."""
        answer = subprocess.run(["readelf", "-W", "--debug-dump=frames", path], check=False, capture_output=True)
        return cls(answer.stdout.decode(errors="replace"))

    def start(self, address: int) -> int | None:
        """Where the function begins that is described at an address."""
        place = bisect.bisect_right(self.places, (address, 2**64)) - 1
        if place < 0 or address >= self.places[place][1]:
            return None
        return self.places[place][0]


class Functions:
    """The functions of a program's files."""

    def __init__(self, tables: Object, vdso: bytes | None) -> None:
        """Asks readelf of each file."""
        self.modules = modules_of(tables)
        self.descriptions = {path: descriptions_at(path, vdso) for path in {module.path for module in self.modules}}

    def start(self, address: int) -> int | None:
        """Where the function begins that is described at an address."""
        module = module_at(self.modules, address)
        if module is None:
            return None
        start = self.descriptions[module.path].start((address - module.bias) % WORD)
        return None if start is None else (start + module.bias) % WORD

    def text(self, address: int) -> str:
        """How a frame is written that is asked at an address."""
        module, start = module_at(self.modules, address), self.start(address)
        place = address if start is None else start
        return f"{place:#x}" if module is None else f"{os.path.basename(module.path)}+{(place - module.bias) % WORD:#x}"

    def script_text(self, address: int) -> str:
        """How it is written among the samples one after another."""
        if module_at(self.modules, address) is None:
            return "[unknown]"
        start = self.start(address)
        return f"{self.text(address)}+{address - (address if start is None else start):#x}"


def descriptions_at(path: str, vdso: bytes | None) -> Descriptions:
    """The descriptions of a file, or of what the system supplies."""
    if path != SUPPLIED or vdso is None:
        return Descriptions.of_file(path)
    with tempfile.NamedTemporaryFile() as stream:
        stream.write(vdso)
        stream.flush()
        return Descriptions.of_file(stream.name)


class Sample(NamedTuple):
    """The addresses asked of a sample's frames, from the innermost outwards, how each is written, and what is said beside
    them."""

    addresses: tuple[int, ...]
    texts: tuple[str, ...]
    marks: tuple[str, ...]


def written(program: str, words: list[str], part: Part, tables: Object) -> str:
    """What `profile` writes of a part."""
    with tempfile.NamedTemporaryFile("w", suffix=".json") as stream:
        stream.write(text_of(tables, most=None))
        stream.flush()
        answer = subprocess.run([program, *words, stream.name], input=part.files[0], check=True, capture_output=True)
    return answer.stdout.decode(errors="replace")


def samples_in(text: str) -> Iterator[tuple[Key, str, Sample]]:
    """The samples of the program's text: their keys, threads' names and frames."""
    for key, name, lines in blocks_of(text):
        reasons = [(line, REASON.match(line)) for line in lines]
        found = [WRITTEN.match(line) for line, reason in reasons if reason is None]
        frames = [frame for frame in found if frame is not None]
        marks = tuple(reason[1] for _, reason in reasons if reason is not None)
        yield key, name, Sample(tuple(int(frame[1], 16) for frame in frames), tuple(frame[2] for frame in frames), marks)


def folded(name: str, sample: Sample, functions: Functions) -> str:
    """A sample's line without its count."""
    ends = [mark for mark in sample.marks if mark != "[popped]"]
    popped = [mark for mark in sample.marks if mark == "[popped]"]
    return ";".join([name, *ends, *map(functions.text, reversed(sample.addresses)), *popped])


class Named(NamedTuple):
    """A frame of perf: its file, its place there, the symbol and how far the frame is in it; None where perf names none."""

    frame: Frame
    symbol: str | None
    offset: int


def named_frame(line: str) -> Named | None:
    """A frame by perf's line, None of the kernel's."""
    found = NAMED.match(line)
    if found is None or int(found[1], 16) >= KERNEL:
        return None
    frame, symbol = frame_of_perf(int(found[1], 16), found[3]), SYMBOL.match(found[2])
    return Named(frame, None, 0) if symbol is None else Named(frame, symbol[1], int(symbol[2], 16))


def process_names(content: bytes) -> Iterator[str]:
    """Of each sample of a file the name of its process: the last one of the thread that has the process's number, which a thread
    that it starts begins with."""
    names, place = dict[int, str](), thread_place(content)
    for kind, _, body in records_of(content):
        if kind == COMM:
            (thread,) = struct.unpack_from("<I", body, 4)
            names[thread] = re.sub(r"[\x00- ;]", "_", body[8 : body.index(0, 8)].decode(errors="replace"))
        elif kind == FORK:
            _, _, thread, parent = struct.unpack_from("<IIII", body, 0)
            names[thread] = names.get(parent, "[unknown]")
        elif kind == SAMPLE:
            process, thread = struct.unpack_from("<II", body, place)
            yield names.get(process, names.get(thread, "[unknown]"))


def frames_of_perf(path: str) -> dict[Key, list[Named]]:
    """perf's samples with the functions that it names."""
    words = ["perf", "script", "-i", path, "--ns", "--no-inline", "--max-stack", str(MOST_FRAMES)]
    words += ["-F", "comm,pid,tid,time,ip,sym,symoff,dso"]
    text = subprocess.run(words, check=True, capture_output=True).stdout.decode(errors="replace")
    return {key: [frame for frame in map(named_frame, lines) if frame is not None] for key, _, lines in blocks_of(text)}


def relation(start: Frame | None, named: Named) -> str:
    """How perf's symbol stands to the description at a frame."""
    if start is None:
        return "no description"
    if named.symbol is None:
        return "no symbol"
    begins = named.frame[1] - named.offset
    if begins == start[1]:
        return "same"
    return "symbol inside" if begins > start[1] else "symbol before"


class Tally:
    """What the samples of a file show."""

    def __init__(self) -> None:
        """Nothing so far."""
        self.ours, self.lines = collections.Counter[str](), collections.Counter[str]()
        self.stacks, self.symbols = set[object](), set[object]()
        self.kinds, self.differing = collections.Counter[str](), collections.Counter[str]()
        self.texts, self.written = 0, collections.Counter[str]()

    def note_lines(self, text: str) -> None:
        """Takes the lines of `profile`."""
        for line in text.splitlines():
            stack, count = line.rsplit(" ", 1)
            self.ours[stack] += int(count)

    def note_sample(self, process: str, name: str, sample: Sample, functions: Functions, frames: list[Named]) -> None:
        """Takes a sample of a process and a thread with these names, and perf's frames of it."""
        self.lines[folded(process, sample, functions)] += 1
        self.stacks.add((name, sample))
        self.symbols.add((process, sample.marks, tuple((frame.frame[0], frame.symbol or frame.frame[1]) for frame in frames)))
        self.texts += len(sample.texts)
        due = map(functions.script_text, sample.addresses)
        self.written.update(f"{text} for {other}" for text, other in zip(sample.texts, due, strict=True) if text != other)

    def note_frames(self, sample: Sample, functions: Functions, places: Places, frames: list[Named]) -> None:
        """Takes how perf's functions stand to a sample's, where its frames are perf's."""
        if [frame.frame for frame in frames] != [places.of(address) for address in sample.addresses]:
            self.kinds["(samples left out)"] += 1
            return
        for address, frame in zip(sample.addresses, frames):
            start = functions.start(address)
            kind = relation(None if start is None else places.of(start), frame)
            self.kinds[kind] += 1
            if kind not in ("same", "no symbol"):
                self.differing[f"{kind}: {frame.symbol} in {functions.text(address)}"] += 1

    def show(self) -> None:
        """Prints what differs."""
        for line in sorted((self.ours - self.lines) | (self.lines - self.ours)):
            print(f"  {'profile' if line in self.ours else 'here'}: {line}")
        for text, count in (self.differing + self.written).most_common():
            print(f"  {count:,} {text}")

    def __str__(self) -> str:
        """What is counted."""
        fewer, more = ((one - other).total() for one, other in ((self.lines, self.ours), (self.ours, self.lines)))
        told = f"other lines: {fewer} and {more} samples" if fewer or more else "same lines"
        frames = ", ".join(f"{kind} {count:,}" for kind, count in sorted(self.kinds.items()))
        script = f"{self.written.total():,} of {self.texts:,} frames of --script written otherwise"
        return (f"{self.ours.total():,} samples in {len(self.ours):,} lines, {told}; {script}; {len(self.stacks):,} by addresses, "
                f"{len(self.symbols):,} by perf's names; frames: {frames}")


def note_part(program: str, part: Part, vdso: bytes | None, theirs: dict[Key, list[Named]], tally: Tally) -> None:
    """Takes the samples of a part."""
    tables = tables_of(part.mappings, vdso)
    functions, places = Functions(tables, vdso), Places(part.mappings)
    samples = samples_in(written(program, ["--script"], part, tables))
    for process, (key, name, sample) in zip(process_names(part.files[0]), samples, strict=True):
        frames = theirs.get(key, [])
        tally.note_sample(process, name, sample, functions, frames)
        tally.note_frames(sample, functions, places, frames)
    tally.note_lines(written(program, [], part, tables))


def compare(program: str, path: str, is_shown: bool, is_all: bool) -> None:
    """Prints how a file's lines and frames compare."""
    with open(path, "rb") as stream:
        content = stream.read()
    theirs, tally = frames_of_perf(path), Tally()
    for part in parts_of(content)[: None if is_all else 1]:
        note_part(program, part, vdso_of(content), theirs, tally)
    print(f"{path}: {tally}", flush=True)
    if is_shown:
        tally.show()


def main() -> None:
    parser = argparse.ArgumentParser(description="compares the folded stacks of `profile` with descriptions and perf's functions")
    parser.add_argument("--show", action="store_true")
    parser.add_argument("--all", action="store_true")
    parser.add_argument("program", metavar="PROFILE")
    parser.add_argument("files", metavar="PERF.DATA", nargs="+")
    words = parser.parse_args()
    for file in words.files:
        compare(words.program, file, words.show, words.all)


if __name__ == "__main__":
    main()
