#!/usr/bin/env python3
"""Writes the threads of a process as samples over one memory, as `unwind_cli fold` reads them, on standard output.

    process_samples.py PID

The process is stopped while its stacks are read (process_image.py), by ptrace(2) and without a debugger, and goes on before
anything is written. Of its files the frame tables are taken, as process_backtrace.py takes them. PID is a process, or one of
its threads. Lines on standard error say what is missing.
"""
from __future__ import annotations

import signal
import sys

from core import Taken
from core_image import Thread
from elf_image import Refused
from process_backtrace import process_of, taken_of
from process_image import stopped, thread_name
from snapshot_file import MOST_STATES_OF_A_SAMPLE, Object, region_object
from thread_reports import module_entries, short_text

# So many threads at most are samples of one text.
MOST_SAMPLES = 65_536


def sample_object(thread: Thread, name: str) -> Object:
    """A thread as a sample, which stands before its instruction."""
    start = {register: f"{value:#x}" for register, value in thread.registers.items()}
    return {"start": start, "interrupted": True, "thread": {"id": thread.number} | ({"name": name} if name else {})}


def taken_samples(number: int) -> tuple[Taken, list[Object]]:
    """What is taken of a process at one moment, and its threads as samples."""
    with stopped(process_of(number)) as process:
        threads = process.threads()
        if len(threads) > MOST_SAMPLES:
            raise Refused(f"it has {len(threads)} threads, and {MOST_SAMPLES} samples are taken")
        samples = [sample_object(thread, thread_name(process.number, thread.number)) for thread in threads]
        taken = taken_of(process, threads)
    return taken, samples


def samples_object(taken: Taken, samples: list[Object]) -> Object:
    """What `unwind_cli fold` reads."""
    tables = [region_object(one.table) for one in taken.loaded]
    return {
        "regions": [*tables, *map(region_object, taken.stacks)],
        "modules": module_entries(taken),
        "samples": samples,
        "limit": MOST_STATES_OF_A_SAMPLE,
    }


def main() -> None:
    """Runs the program."""
    if len(sys.argv) != 2 or not sys.argv[1].isdecimal():
        print("usage: process_samples.py PID", file=sys.stderr)
        sys.exit(2)
    try:
        text = short_text(samples_object(*taken_samples(int(sys.argv[1]))))
    except (Refused, OSError) as error:
        sys.exit(f"process_samples.py: {error}")
    signal.signal(signal.SIGPIPE, signal.SIG_DFL)
    sys.stdout.buffer.write(text + b"\n")


if __name__ == "__main__":
    main()
