#!/usr/bin/env python3
"""Gives the stacks that `unwind_cli fold` prints names, and draws them.

    flamegraph.py REPORT SAMPLES [REPORT SAMPLES]... [--svg FILE] [--title TEXT] [--width N] [--addresses] [--file FILE]...

REPORT is what `unwind_cli fold` prints of SAMPLES; one of them may be -, for standard input. Of several pairs, as of one
process that was stopped several times, the counts are added. The modules of SAMPLES name the files, whose symbols and debug
information give the names, as `names.py` says. It prints a line for each stack, in the order of the names, as flamegraph.pl,
inferno and speedscope read them: the functions from the outermost inwards with semicolons between them, a space and
the number of samples.

    _start;__libc_start_main;main;countdown;inner 17

A function that was inlined has a name of its own, and comes after the one that it was inlined into. A function without a
name is its module's file and where it begins in it, as the frame table says, so that all samples of one function have one
name. Where no table has it, it is its file in brackets or, in no module, `[unknown]`. With --addresses the innermost name
is followed by its address, so that samples in one function stay apart. Samples without addresses are `[end]`, and refused
ones `[refused]`. In a name a semicolon is a colon, and of a number at its end the space before is `_`, since those tools
would take it for a count.

With --svg the same is drawn (`flame_picture.py`).

The addresses in a report don't say which of them a thread was interrupted at. The innermost one is taken for such where a
sample that was interrupted starts there, and the one outside of a signal's frame; each other one stands after a call, and
is named by the byte before.
"""
from __future__ import annotations

import argparse
import bisect
import functools
import json
import os
import re
import signal
import sys
from dataclasses import dataclass
from typing import Iterator

from elf_image import WORD, Range, Refused
from flame_picture import END, REFUSED, Counts, Drawing, Name, picture_of
from frame_table import Table, common_entries, encoded_pointer, encoded_size, entries, frame_table_of_header
from names import Module, ReportedFrame, Symbols, all_symbols, demangled, function_at, module_at, modules_of
from names import plain_name, table_from, trampolines_of
from snapshot_file import Object, read_object, regions_of

LINE = re.compile(r"((?:0x[0-9a-f]+;)*0x[0-9a-f]+|\[end\]) ([1-9]\d*)")
REFUSED_LINE = re.compile(r"refused (\d+)")
SECOND_COUNT = re.compile(r"\s+(\d+(?:\.\d*)?)$")


@dataclass(frozen=True)
class Stack:
    """A line of a report: the addresses from the outermost inwards, and the number of samples."""

    addresses: tuple[int, ...]
    count: int


@dataclass(frozen=True)
class Moment:
    """What was folded, and its report."""

    samples: Object
    stacks: list[Stack]
    refused: int


# ---- the report


def stacks_of(report: str) -> tuple[list[Stack], int]:
    """The stacks of a report, and how many samples were refused."""
    *lines, last = report.splitlines() or [""]
    refused = REFUSED_LINE.fullmatch(last)
    if refused is None:
        raise Refused("that is no report of fold: its last line isn't the number of refused samples")
    stacks = []
    for number, line in enumerate(lines, 1):
        found = LINE.fullmatch(line)
        if found is None:
            raise Refused(f"that is no report of fold: its line {number} is no stack with a count")
        words = () if found.group(1) == "[end]" else tuple(int(word, 16) for word in found.group(1).split(";"))
        stacks.append(Stack(words, int(found.group(2))))
    return stacks, int(refused.group(1))


def moment_of(report: str, samples: Object) -> Moment:
    """A report with its samples. Refuses one of other samples, as far as the counts say so."""
    stacks, refused = stacks_of(report)
    counted, given = sum(stack.count for stack in stacks) + refused, len(samples["samples"])
    if counted != given:
        raise Refused(f"the report counts {counted} samples, and there are {given}")
    return Moment(samples, stacks, refused)


def interrupted_starts(samples: Object) -> set[int]:
    """The addresses at which samples were interrupted."""
    return {int(sample["start"]["rip"], 16) for sample in samples["samples"] if sample.get("interrupted", False)}


class Frames:
    """The frames of stacks in one process, each address of a kind once, since most come in many stacks."""

    def __init__(self, trampolines: list[tuple[int, int]]) -> None:
        """Takes the functions that handlers of signals return to."""
        self.trampolines = trampolines
        self.known: dict[tuple[int, bool], ReportedFrame] = {}

    def frame(self, counter: int, interrupted: bool) -> ReportedFrame:
        """The frame at an address, with the address that says which function it is of."""
        found = self.known.get((counter, interrupted))
        if found is None:
            address = counter if interrupted else counter - 1
            is_signal = any(start <= address < end for start, end in self.trampolines)
            found = self.known[counter, interrupted] = ReportedFrame(counter, address, is_signal)
        return found

    def of(self, stack: Stack, starts: set[int]) -> list[ReportedFrame]:
        """The frames of a stack, from the outermost inwards, by where samples were interrupted."""
        frames, interrupted = [], bool(stack.addresses) and stack.addresses[-1] in starts
        for counter in reversed(stack.addresses):
            frame = self.frame(counter, interrupted)
            frames.append(frame)
            interrupted = frame.is_signal
        return frames[::-1]


# ---- names


def clean(name: str) -> str:
    """A name without what those who read lines take for something else."""
    name = " ".join(name.replace(";", ":").split())
    return SECOND_COUNT.sub(r"_\1", name)


def described_ranges(table: Table) -> Iterator[Range]:
    """The addresses that a frame table's descriptions are of, as far as it can be read."""
    common = common_entries(table)
    for entry in entries(table):
        about = common.get(entry.identity_offset - entry.identity) if entry.identity else None
        if about is None:
            continue
        offset, encoding = entry.identity_offset + 4, about.address_encoding
        try:
            start = encoded_pointer(table, offset, encoding)
            size = encoded_pointer(table, offset + encoded_size(encoding), encoding & 0x0F)
        except Refused:
            continue
        yield Range(start, start + size)


def described_functions(samples: Object) -> list[Range]:
    """The functions that the frame tables of samples describe, by address."""
    regions, found = regions_of(samples), set()
    for module in samples["modules"]:
        try:
            address = int(module["eh_frame"], 16) if "eh_frame" in module else None
            header = table_from(regions, int(module["eh_frame_hdr"], 16)) if address is None else None
            address = frame_table_of_header(header) if header is not None else address
            table = table_from(regions, address) if address is not None else None
            found |= set(described_ranges(table)) if table is not None else set()
        except (KeyError, Refused):
            continue
    return sorted(found)


class Names:
    """The names of frames over one list of modules. Each frame is looked up once."""

    def __init__(self, samples: Object, frames: set[ReportedFrame], files: list[str]) -> None:
        """Asks the modules' files."""
        self.samples, self.modules = samples, modules_of(samples)
        self.symbols: dict[str, Symbols] = all_symbols(sorted(frames, key=lambda f: f.counter), self.modules, files)
        self.known: dict[ReportedFrame, list[Name]] = {}

    @functools.cached_property
    def functions(self) -> list[Range]:
        """The functions that the frame tables describe. They are read where a symbol is missing."""
        return described_functions(self.samples)

    def of(self, frame: ReportedFrame) -> list[Name]:
        """The functions of a frame, the outer one first where one was inlined into another."""
        found = self.known.get(frame)
        if found is None:
            module = module_at(self.modules, frame.address)
            file = clean(os.path.basename(module.path)) if module is not None else ""
            found = self.known[frame] = [Name(clean(text), file) for text in self.texts(frame, module)]
        return found

    def texts(self, frame: ReportedFrame, module: Module | None) -> list[str]:
        """The same, without their module."""
        if frame.is_signal:
            return ["<signal handler called>"]
        if module is None:
            return [self.without_symbol(frame, None)]
        symbols, address = self.symbols[module.path], (frame.address - module.bias) % WORD
        places = [place.function for place in symbols.places.get(address, []) if place.function != "??"]
        if places:
            return places[::-1]
        name = function_at(symbols.functions, address)
        return [self.without_symbol(frame, module) if name is None else plain_name(demangled(name).strip())]

    def without_symbol(self, frame: ReportedFrame, module: Module | None) -> str:
        """What stands for a name: where the function begins, if a table says so."""
        index = bisect.bisect_right(self.functions, frame.address, key=lambda function: function.start) - 1
        here = self.functions[index] if index >= 0 and self.functions[index].contains(frame.address) else None
        if module is None:
            return f"{here.start:#x}" if here is not None else "[unknown]"
        file = os.path.basename(module.path)
        return f"{file}+{(here.start - module.bias) % WORD:#x}" if here is not None else f"[{file}]"


# ---- counts


def by_modules(moments: list[Moment]) -> Iterator[list[Moment]]:
    """The moments of each process, since those have the same modules at the same addresses."""
    found: dict[str, list[Moment]] = {}
    for moment in moments:
        found.setdefault(json.dumps(moment.samples["modules"], sort_keys=True), []).append(moment)
    yield from found.values()


def framed_stacks(moments: list[Moment]) -> list[tuple[list[ReportedFrame], int]]:
    """The frames of the stacks of one process, with the numbers of samples."""
    frames, found = Frames(trampolines_of(moments[0].samples)), []
    for moment in moments:
        starts = interrupted_starts(moment.samples)
        found += [(frames.of(stack, starts), stack.count) for stack in moment.stacks]
    return found


def named_counts(moments: list[Moment], files: list[str], with_addresses: bool) -> Counts:
    """The samples of each stack of names, those that have one in the end, and those that were refused."""
    refused = sum(moment.refused for moment in moments)
    counts: Counts = {(REFUSED,): refused} if refused else {}
    for same in by_modules(moments):
        framed = framed_stacks(same)
        names = Names(same[0].samples, {frame for frames, _ in framed for frame in frames}, files)
        for frames, count in framed:
            key = tuple(name for frame in frames for name in names.of(frame)) or (END,)
            if with_addresses and frames:
                key = (*key[:-1], Name(f"{key[-1].text} {frames[-1].counter:#x}", key[-1].module))
            counts[key] = counts.get(key, 0) + count
    return counts


def named_lines(counts: Counts) -> list[str]:
    """The lines that flamegraph.pl, inferno and speedscope read. Modules don't stand in them."""
    found: dict[tuple[str, ...], int] = {}
    for names, count in counts.items():
        texts = tuple(name.text for name in names)
        found[texts] = found.get(texts, 0) + count
    return [f"{';'.join(texts)} {count}" for texts, count in sorted(found.items())]


# ---- the program


def read_moments(words: list[str]) -> list[Moment]:
    """The pairs of a report and its samples."""
    moments = []
    for report, samples in zip(words[::2], words[1::2]):
        try:
            with sys.stdin if report == "-" else open(report, encoding="ascii") as stream:
                moments.append(moment_of(stream.read(), read_object(samples)))
        except (KeyError, UnicodeDecodeError):
            raise Refused(f"{report} and {samples} are no report of fold and its samples")
        except Refused as error:
            raise Refused(f"{report}: {error}")
    return moments


def program_of(moments: list[Moment]) -> str:
    """The file of the first module, which is the program's."""
    modules = [module for moment in moments for module in modules_of(moment.samples)[:1]]
    return clean(os.path.basename(modules[0].path)) if modules else ""


def options_of(words: list[str]) -> argparse.Namespace:
    """What the words ask for."""
    parser = argparse.ArgumentParser(description="Gives the stacks that `unwind_cli fold` prints names, and draws them.")
    parser.add_argument("pairs", metavar="REPORT SAMPLES", nargs="+", help="what `unwind_cli fold` prints (- is standard input) of what")
    parser.add_argument("--svg", metavar="FILE", help="where the picture goes")
    parser.add_argument("--title", metavar="TEXT", help="the picture's title, in place of the program's name")
    parser.add_argument("--width", metavar="N", type=int, default=Drawing.width, help="the picture's width in pixels (1200)")
    parser.add_argument("--addresses", action="store_true", help="the innermost name with its address")
    parser.add_argument("--file", metavar="FILE", action="append", default=[], help="in place of a file that is gone")
    options = parser.parse_args(words)
    if len(options.pairs) % 2 or options.pairs[::2].count("-") > 1:
        parser.error("reports and samples come in pairs, and one report may be -")
    if not 400 <= options.width <= 10_000:
        parser.error("the width is from 400 to 10000")
    return options


def main() -> None:
    """Runs the program."""
    options = options_of(sys.argv[1:])
    signal.signal(signal.SIGPIPE, signal.SIG_DFL)
    try:
        moments = read_moments(options.pairs)
        counts = named_counts(moments, options.file, options.addresses)
        if options.svg:
            program = program_of(moments)
            drawing = Drawing(options.title or program or Drawing.title, options.width, program)
            with open(options.svg, "w", encoding="utf-8") as stream:
                stream.write(picture_of(counts, drawing))
        sys.stdout.writelines(f"{line}\n" for line in named_lines(counts))
    except (Refused, OSError) as error:
        sys.exit(f"flamegraph.py: {error}")


if __name__ == "__main__":
    main()
