#!/usr/bin/env python3
"""Prints the backtraces of a process: of one thread, or of all of them.

    process_backtrace.py PID [--threads] [--frame-pointers] [--backtrace PROGRAM] [--unwind-cli PROGRAM]

The process is stopped (process_image.py) while its stacks are read, and goes on while they are walked and named. All threads
are walked in one run of each built program (thread_reports.py), and all frames are named at once. With --frame-pointers a
backtrace that ends in code without a table, or in a function that its file's table doesn't describe, goes on from there by RBP.

PID is a process, or one of its threads. Lines on standard error say what is missing.
"""
from __future__ import annotations

import signal
import sys
from typing import NamedTuple

from core import (
    FAULTS, Modules, Taken, Wanted, WithoutTable, by_file, code_of_file, code_of_no_file, modules_at, program_name,
    stacks_of, system_modules, words_of,
)
from core_image import Mapped, Thread
from elf_image import Refused
from frame_table import Table, signal_trampolines
from names import backtrace
from process_image import DELETED, Process, stopped, thread_name
from programs import built_path
from snapshot_file import Object
from symbols import has_symbolizer
from thread_reports import Programs, built_programs, module_entries, reports_of

USAGE = "usage: process_backtrace.py PID [--threads] [--frame-pointers] [--backtrace PROGRAM] [--unwind-cli PROGRAM]"


def say(line: str) -> None:
    """A line for the reader."""
    print(f"backtrace: {line}", file=sys.stderr)


# ---- files


def opened_path(process: Process, part: Mapped) -> str:
    """Where a mapped file can be read: as the process sees it or, where it was deleted, where the kernel keeps it."""
    if part.name.endswith(DELETED):
        return f"/proc/{process.number}/map_files/{part.place.start:x}-{part.place.end:x}"
    return f"/proc/{process.number}/root{part.name}"


def modules_of(process: Process, wanted: Wanted) -> Modules:
    """The modules that are wanted, the program's first. A line says of each what is left out."""
    mapped = process.mapped()
    program = program_name(process, mapped)
    found = Modules([], code_of_no_file(process, mapped))
    for name, parts in by_file(mapped, program).items():
        if not wanted.takes(part.place for part in parts):
            continue
        path = f"/proc/{process.number}/exe" if name == program else opened_path(process, parts[0])
        shown = name.removesuffix(DELETED)
        try:
            found.loaded.extend(modules_at(process, path, shown, parts, wanted))
        except WithoutTable:
            found.code.extend(code_of_file(path, shown, parts, name == program))
        except FAULTS as error:
            say(f"leaves out {name}: {error.strerror if isinstance(error, OSError) else error}")
    found.loaded.extend(system_modules(process, wanted))
    return found


# ---- the backtraces


def named_object(taken: Taken) -> Object:
    """What the frames are named by."""
    return {"modules": module_entries(taken), "code": list(taken.code)}


def trampolines_of(taken: Taken) -> list[tuple[int, int]]:
    """The functions that handlers of signals return to, by the frame tables."""
    tables = [Table(one.table.start, one.table.content) for one in taken.loaded]
    return [(place.start, place.end) for table in tables for place in signal_trampolines(table)]


def asked_threads(process: Process, number: int, all_threads: bool) -> list[Thread]:
    """All threads, or the one that is named."""
    threads = process.threads()
    if all_threads or len(threads) == 1:
        return threads
    chosen = next((thread for thread in threads if thread.number == number), threads[0])
    index = threads.index(chosen) + 1
    say(f"thread {index} of {len(threads)} ({chosen.number} {thread_name(process.number, chosen.number)}); --threads prints all")
    return [chosen]


def taken_of(process: Process, threads: list[Thread]) -> Taken:
    """What is taken of a process that stands still."""
    stacks = stacks_of(process, threads, None)
    modules = modules_of(process, Wanted(words_of(threads, stacks)))
    if not modules.loaded and not modules.code:
        raise Refused("none of its files can be read")
    return Taken(threads, stacks, *modules)


def process_of(number: int) -> int:
    """The process that a number names, by itself or by one of its threads."""
    try:
        with open(f"/proc/{number}/status", encoding="utf-8", errors="replace") as stream:
            return next(int(line.split()[1]) for line in stream if line.startswith("Tgid:"))
    except (OSError, StopIteration):
        return number


def printed(number: int, all_threads: bool, frame_pointers: bool, programs: Programs) -> str:
    """The backtraces."""
    with stopped(process_of(number)) as process:
        threads = asked_threads(process, number, all_threads)
        heads = [f"Thread {thread.number} {thread_name(process.number, thread.number)}:" for thread in threads]
        taken = taken_of(process, threads)
    reports = reports_of(taken, programs, frame_pointers)
    if all_threads:
        reports = [f"{head}\n{report}" for head, report in zip(heads, reports)]
    if not has_symbolizer():
        say("without lines: there is no llvm-symbolizer and no addr2line (Debian: llvm, binutils)")
    return "\n".join(backtrace("".join(reports), named_object(taken), [f"/proc/{process.number}/exe"], trampolines_of(taken)))


class Options(NamedTuple):
    """What the words ask for: a process or a thread, whether all threads, whether frame pointers count, and which programs."""

    number: int
    all_threads: bool
    frame_pointers: bool
    programs: Programs


def read_words(words: list[str]) -> Options:
    """The words. (`argparse` takes as long to load as all the rest.)"""
    left = [word for word in words if word not in ("--threads", "--frame-pointers")]
    paths = {name: built_path(name) for name in Programs._fields}
    for name in Programs._fields:
        option = f"--{name.replace('_', '-')}"
        if option in left[:-1]:
            index = left.index(option)
            paths[name] = left[index + 1]
            del left[index : index + 2]
    if len(left) != 1 or not left[0].isdecimal():
        sys.exit(USAGE)
    return Options(int(left[0]), "--threads" in words, "--frame-pointers" in words, built_programs(paths))


def main() -> None:
    """Runs the program."""
    sys.stdout.reconfigure(errors="surrogateescape")
    try:
        lines = printed(*read_words(sys.argv[1:]))
    except (Refused, OSError) as error:
        sys.exit(f"backtrace: {error}")
    # A program that is run may end before it has read its text: only here may a closed pipe end this one.
    signal.signal(signal.SIGPIPE, signal.SIG_DFL)
    print(lines)


if __name__ == "__main__":
    main()
