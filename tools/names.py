#!/usr/bin/env python3
"""Gives the frames of a backtrace, or of the report of a walk, names.

    names.py REPORT SNAPSHOT [FILE]...        REPORT may be -, for standard input

REPORT is what `backtrace`, `unwind_cli walk` or `unwind_cli core` prints, or several such after one another, each after a line
that begins with `thread` or `Thread`. SNAPSHOT is what it was made of: a snapshot, a thread's file of `snapshot DIR --threads`,
for several threads the `tables.json` beside it, samples, or what `tools/core.py` makes. Its modules name the files, whose
symbols and debug information give the names: by `llvm-symbolizer` or, where there is none, by `addr2line` (Debian: llvm,
binutils), with debug information that lies apart in /usr/lib/debug; without either by the symbols alone. A file whose build id
isn't that of the snapshot is not asked; a FILE that has it is, where the module's own is gone (/proc/PID/exe, while the process
lives).

    #0 0x401137 in inner at nested.c:12     a function with debug information
    #1 caller at nested.c:20                one that the function above was inlined into
    #2 0x7f5c01234567 in read from /lib/x86_64-linux-gnu/libc.so.6     a symbol of a library
    #3 0x7f5c01234567 in libplain.so+0x1567    no symbol
    #4 <signal handler called>

The last line is why there are no more frames, unless the last one is the outermost. Other tools ask `names_of`.
"""
from __future__ import annotations

import os
import re
import signal
import sys
from typing import Iterator, NamedTuple

from elf_image import WORD, Refused
from frame_table import Table, frame_table_of_header, signal_trampolines
from plain_names import plain_name
from snapshot_file import TABLES, Object, Region, read_snapshot, regions_of
from symbols import (
    SUPPLIED, Module, Place, Symbols, demangled, function_at, has_lines, has_symbolizer, known_line, module_at, names_of,
    places_of, symbols_at,
)

# What other tools take from here.
__all__ = [
    "Module", "Place", "ReportedFrame", "Symbols", "all_symbols", "backtrace", "demangled", "function_at", "has_lines",
    "known_line", "last_line", "module_at", "modules_of", "names_of", "parts_of", "places_of", "plain_name", "reported_frames",
    "texts_of", "trampolines_of",
]

# A frame of a backtrace, with what is said of it; or of a walk, where that outside of the outermost one returns to 0.
FRAME_LINE = re.compile(
    r"^#\d+ +(0x[0-9a-f]+)\b.*?( \(.*\))?(?: sp=0x[0-9a-f]+(?: \w+=0x[0-9a-f]+)*)?$|^frame \d+ ra=(?!0x0 )(0x[0-9a-f]+) "
)
THREAD_LINE = re.compile(r"^[Tt]hread ")
OUTERMOST = ("end: the outermost frame, which returns to 0", "end")
GUESSED = " (return address on the stack)"
KEPT = " (popped registers kept)"


class ReportedFrame(NamedTuple):
    """A frame of a report. `address` lies in the call where the frame stands after one. `note` is what the report says of it."""

    counter: int
    address: int
    is_signal: bool = False
    note: str = ""


class Part(NamedTuple):
    """What a report says of one thread, and the line before it, where there is one."""

    head: str | None
    text: str


# ---- report and snapshot


def module_from(entry: Object) -> Module | None:
    """A module or a piece of code of a snapshot, where it says which file it is of."""
    if "path" not in entry or "bias" not in entry:
        return None
    start = int(entry["start" if "start" in entry else "base"], 16)
    end = int(entry["end"], 16) if "end" in entry else start + int(entry["size"], 16)
    return Module(entry["path"], int(entry["bias"], 16), start, end, entry.get("build_id"))


def modules_of(found: Object) -> list[Module]:
    """The modules of a snapshot that say which file they are of, and then such files without tables."""
    entries = [*found["modules"], *found.get("code", [])]
    return [module for entry in entries if (module := module_from(entry)) is not None]


def table_from(regions: list[Region], address: int) -> Table | None:
    """The bytes from an address to the end of its region."""
    for region in regions:
        if region.start <= address < region.end:
            return Table(address, region.content[address - region.start :])
    return None


def trampolines_of(found: Object) -> list[tuple[int, int]]:
    """The functions that handlers of signals return to, by the snapshot's frame tables."""
    regions, trampolines = regions_of(found), []
    for module in found["modules"]:
        try:
            address = int(module["eh_frame"], 16) if "eh_frame" in module else None
            header = None if address is not None else table_from(regions, int(module["eh_frame_hdr"], 16))
            if header is not None:
                address = frame_table_of_header(header)
            table = None if address is None else table_from(regions, address)
            if table is not None:
                trampolines += signal_trampolines(table)
        except (KeyError, Refused):
            continue
    return [(place.start, place.end) for place in trampolines]


def parts_of(report: str) -> list[Part]:
    """A report by its threads. One without lines on threads is one part."""
    parts: list[Part] = []
    for line in report.splitlines():
        if THREAD_LINE.match(line):
            parts.append(Part(line, ""))
        elif line or parts:
            last = parts.pop() if parts else Part(None, "")
            parts.append(Part(last.head, f"{last.text}{line}\n" if line else last.text))
    return parts


def starts_interrupted(found: Object, index: int) -> bool:
    """Whether a thread of a report begins before its instruction: those of a core, and all where a process was taken whole."""
    if "samples" in found:
        samples = found["samples"]
        return index < len(samples) and bool(samples[index].get("interrupted", False))
    return bool(found.get("interrupted", "start" not in found))


def reported_frames(report: str, interrupted: bool, trampolines: list[tuple[int, int]]) -> list[ReportedFrame]:
    """The frames of a report. That after the outermost one, which has no address, is none.

    A frame is interrupted where the snapshot says it of the first one, and outside of a trampoline.
    """
    found = []
    for line in report.splitlines():
        match = FRAME_LINE.match(line)
        if match is None:
            continue
        counter = int(match.group(1) or match.group(3), 16)
        address = counter if interrupted else counter - 1
        is_signal = any(start <= address < end for start, end in trampolines)
        found.append(ReportedFrame(counter, address, is_signal, match.group(2) or ""))
        interrupted = is_signal
    return found


def last_line(report: str) -> str | None:
    """Why a report has no more frames, unless the last one is the outermost."""
    lines = report.splitlines()
    return lines[-1] if lines and not lines[-1].startswith(("#", "frame ")) and lines[-1] not in OUTERMOST else None


# ---- the backtrace


def all_symbols(frames: list[ReportedFrame], modules: list[Module], files: list[str]) -> dict[str, Symbols]:
    """What is known of all frames, by the paths of modules. Each is asked once. Of a module
    without a build id no other file is known to be the same."""
    return symbols_at([frame.address for frame in frames], modules, files)


def texts_of(frame: ReportedFrame, modules: list[Module], symbols: dict[str, Symbols], program: str) -> list[str]:
    """A frame's lines without their numbers: one for each function, those that were inlined first."""
    if frame.is_signal:
        return ["<signal handler called>"]
    module = module_at(modules, frame.address)
    if module is None:
        return [f"{frame.counter:#x} in ??{frame.note}"]
    known, address = symbols[module.path], (frame.address - module.bias) % WORD
    if has_lines(known, address):
        texts = [f"{place.function} at {place.line}" for place in known.places[address]]
    else:
        texts = [text_without_line(frame, module, known.named.get(address), program)]
    return [f"{frame.counter:#x} in {texts[0]}{frame.note}", *texts[1:]]


def text_without_line(frame: ReportedFrame, module: Module, name: str | None, program: str) -> str:
    """A symbol and its library or, where there is no symbol, the module and the offset in it."""
    if name is None:
        return f"{os.path.basename(module.path)}+{(frame.counter - module.bias) % WORD:#x}"
    return name + ("" if module.path in (program, SUPPLIED) else f" from {module.path}")


def program_of(found: Object, modules: list[Module]) -> str:
    """The path of the program's own file: that of the first module or, where the program has no table, as the snapshot says."""
    without_table = [entry["path"] for entry in found.get("code", []) if "program" in entry]
    return without_table[0] if without_table else modules[0].path if modules else ""


def backtraces(
    report: str, found: Object, files: list[str], trampolines: list[tuple[int, int]] | None = None
) -> Iterator[list[str]]:
    """The lines of each thread's backtrace. All names are asked for at once. Trampolines are those of the snapshot's tables, unless
    they are given."""
    modules, trampolines = modules_of(found), trampolines_of(found) if trampolines is None else trampolines
    parts = parts_of(report)
    framed = [
        reported_frames(part.text, starts_interrupted(found, index), trampolines) for index, part in enumerate(parts)
    ]
    symbols = all_symbols([frame for frames in framed for frame in frames], modules, files)
    program = program_of(found, modules)
    for part, frames in zip(parts, framed):
        texts = [text for frame in frames for text in texts_of(frame, modules, symbols, program)]
        last = last_line(part.text)
        head = [] if part.head is None else [part.head]
        yield head + [f"#{level} {text}" for level, text in enumerate(texts)] + ([last] if last else [])


def backtrace(report: str, found: Object, files: list[str], trampolines: list[tuple[int, int]] | None = None) -> list[str]:
    """The lines of a backtrace, and of several with an empty line between."""
    lines: list[str] = []
    for part in backtraces(report, found, files, trampolines):
        lines += ([""] if lines else []) + part
    return lines


def read_tables(file: str) -> Object:
    """A snapshot, or what all threads of a folder share."""
    return read_snapshot(os.path.join(file, TABLES) if os.path.isdir(file) else file)


def main() -> None:
    """Runs the program."""
    if len(sys.argv) < 3:
        sys.exit("usage: names.py REPORT SNAPSHOT [FILE]...")
    signal.signal(signal.SIGPIPE, signal.SIG_DFL)
    sys.stdout.reconfigure(errors="surrogateescape")
    try:
        found = read_tables(sys.argv[2])
        with open(0 if sys.argv[1] == "-" else sys.argv[1], encoding="utf-8", errors="surrogateescape") as stream:
            report = stream.read()
        if not has_symbolizer():
            print("names.py: without lines: there is no llvm-symbolizer and no addr2line (Debian: llvm, binutils)", file=sys.stderr)
        print("\n".join(backtrace(report, found, sys.argv[3:])))
    except (Refused, OSError) as error:
        sys.exit(f"names.py: {error}")
    except (KeyError, TypeError, ValueError) as error:
        sys.exit(f"names.py: {sys.argv[2]} isn't what a snapshot has to be ({error}); tools/check_schema.py FILE says where")


if __name__ == "__main__":
    main()
