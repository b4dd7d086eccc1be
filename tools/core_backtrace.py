#!/usr/bin/env python3
"""Prints the backtraces of a core: of its first thread, or of all of them.

    core_backtrace.py PROGRAM CORE [--threads] [--backtrace PROGRAM] [--unwind-cli PROGRAM] [--root DIR]

It does what core.py, `unwind_cli core` and core_names.py do one by one, without files. Threads whose walks don't come to the
outermost frame are walked once more, by `backtrace`, which has the frames up to there: all of them in one run
(thread_reports.py). The first thread of a core is the one that got the signal. Lines on standard error say what is missing.
"""
from __future__ import annotations

import signal
import sys
from typing import NamedTuple, NoReturn

from core import FAULTS, Source, Taken, check_program, opened_core, system_image, taken_of
from core_image import Core
from core_names import Loaded, ThreadStart, Walk, thread_lines, titled, walk_of
from elf_image import Refused
from snapshot_file import Object
from symbols import has_symbolizer
from programs import built_path
from thread_reports import Programs, built_programs, module_entries, reports_of

SYSTEM_PATH = "[vdso]"
USAGE = "usage: core_backtrace.py PROGRAM CORE [--threads] [--backtrace PROGRAM] [--unwind-cli PROGRAM] [--root DIR]"


class Options(NamedTuple):
    """What the words ask for."""

    program: str
    core: str
    threads: bool
    programs: dict[str, str]
    root: str


def usage() -> NoReturn:
    """Ends the program with its words."""
    print(USAGE, file=sys.stderr)
    sys.exit(2)


def read_words(words: list[str]) -> Options:
    """The words. (`argparse` would do, and takes a quarter of the time in which all else is loaded.)"""
    left = [word for word in words if word != "--threads"]
    values = {f"--{name.replace('_', '-')}": built_path(name) for name in Programs._fields}
    values["--root"] = ""
    for option in values.keys() & set(left):
        index = left.index(option)
        if index + 1 == len(left):
            usage()
        values[option] = left[index + 1]
        del left[index : index + 2]
    if len(left) != 2 or any(word.startswith("--") for word in left):
        usage()
    programs = {name: values[f"--{name.replace('_', '-')}"] for name in Programs._fields}
    return Options(left[0], left[1], "--threads" in words, programs, values["--root"])


def walks_of(taken: Taken, programs: Programs) -> list[Walk]:
    """What the programs report of each thread. A report of one line says why there is none."""
    reports = reports_of(taken, programs)
    return [walk_of(f"\n{report}") if "\n" in report.rstrip("\n") else Walk([], report.rstrip("\n")) for report in reports]


def loaded_of(core: Core, found: Object) -> Loaded:
    """What names are made of; the core itself has the file that the system maps."""
    loaded = Loaded(found)
    try:
        system = system_image(core)
    except FAULTS:
        system = None
    if system is not None:
        loaded.images[SYSTEM_PATH] = system[0]
    return loaded


def asked_threads(taken: Taken, all_threads: bool) -> Taken:
    """All threads of a core, or the first one."""
    if all_threads or len(taken.threads) == 1:
        return taken
    first = taken.threads[0]
    print(f"core: thread 1 of {len(taken.threads)} (LWP {first.number}); --threads prints all", file=sys.stderr)
    return taken._replace(threads=[first])


def printed(options: Options) -> str:
    """The backtraces."""
    core = opened_core(options.core)
    check_program(options.program)
    taken = asked_threads(taken_of(core, Source(options.program, options.root), None), options.threads)
    starts = [ThreadStart(thread.number, thread.rip) for thread in taken.threads]
    if not has_symbolizer():
        print("core: without lines: there is no llvm-symbolizer and no addr2line (Debian: llvm, binutils)", file=sys.stderr)
    walks = walks_of(taken, built_programs(options.programs))
    found = {"modules": module_entries(taken), "code": list(taken.code)}
    lines = thread_lines(walks, starts, loaded_of(core, found), core.missing_at)
    return titled(lines, starts) if options.threads else "\n".join(lines[0])


def main() -> None:
    """Runs the program."""
    signal.signal(signal.SIGPIPE, signal.SIG_DFL)
    try:
        print(printed(read_words(sys.argv[1:])))
    except (Refused, OSError) as error:
        sys.exit(f"core: {error}")


if __name__ == "__main__":
    main()
