#!/usr/bin/env python3
"""Stops a thread that runs again and again, and counts the backtraces that come to its outermost frame.

    frame_pointers.py TID [STOPS [COMPARED]]

Each stop (100) is by a signal, a random moment after the one before, so that eu-stack meets the same frames. A backtrace is
taken by tables alone and, where that doesn't come to the outermost frame, with frame pointers. Prints how many come there by
tables, how many of the others by frame pointers, how many of the first of these (20) have the frames that eu-stack has, which takes
frame pointers too (all of them, or up to its end where it has fewer), and why the rest ends. TID is a process or one of its
threads. Wants eu-stack (Debian: elfutils) and the built programs (BACKTRACE, UNWIND_CLI).
"""
from __future__ import annotations

import collections
import os
import random
import re
import signal
import subprocess
import sys
import time
from pathlib import Path

sys.path.insert(0, str(Path(__file__).resolve().parent.parent / "tools"))

from process_backtrace import process_of, taken_of  # noqa: E402
from process_image import stopped  # noqa: E402
from thread_reports import Programs, built_path, built_programs, reports_of  # noqa: E402

OUTERMOST = re.compile(r"^end: the outermost frame, which returns to 0\n\Z|^frame \d+ ra=0x0 .*\nend\n\Z", re.MULTILINE)
ADDRESS = re.compile(r"^#\d+ +0x([0-9a-f]+)", re.MULTILINE)


def programs() -> Programs:
    """The built programs."""
    return built_programs({name: built_path(name) for name in Programs._fields})


def reports(number: int, built: Programs) -> list[str]:
    """The report of a thread by tables and, where that isn't whole, the one with frame pointers."""
    with stopped(process_of(number)) as process:
        threads = [thread for thread in process.threads() if thread.number == number]
        taken = taken_of(process, threads)
    found = reports_of(taken, built)
    return found if OUTERMOST.search(found[0]) else found + reports_of(taken, built, True)


def addresses_of(text: str) -> list[int]:
    """The addresses of frames."""
    return [int(digits, 16) for digits in ADDRESS.findall(text)]


def by_eu_stack(number: int) -> list[int]:
    """The addresses of eu-stack."""
    done = subprocess.run(["eu-stack", "-1", "-n", "0", "-p", str(number)], capture_output=True, text=True, check=False)
    return addresses_of(done.stdout)


def main() -> None:
    """Stops it, and prints the counts."""
    number, count = int(sys.argv[1]), int(sys.argv[2]) if len(sys.argv) > 2 else 100
    compared = int(sys.argv[3]) if len(sys.argv) > 3 else 20
    built, process = programs(), process_of(number)
    found: collections.Counter[str] = collections.Counter()
    ends: collections.Counter[str] = collections.Counter()
    for _ in range(count):
        time.sleep(random.uniform(0.005, 0.05))
        os.kill(process, signal.SIGSTOP)
        time.sleep(0.01)
        try:
            by_tables, *by_pointers = reports(number, built)
            if not by_pointers:
                found["by tables"] += 1
                continue
            whole = OUTERMOST.search(by_pointers[0]) is not None
            found["by frame pointers" if whole else "not"] += 1
            if whole and found["by frame pointers"] <= compared:
                ours, others = addresses_of(by_pointers[0]), by_eu_stack(number)
                found["as eu-stack" if ours == others else "front" if ours[: len(others)] == others else "other"] += 1
            if not whole:
                ends[re.sub(r"0x[0-9a-f]+", "N", by_pointers[0].splitlines()[-1])] += 1
        finally:
            os.kill(process, signal.SIGCONT)
    rest = found["by frame pointers"] + found["not"]
    print(f"{count} stops: {found['by tables']} come to the outermost frame by tables, {found['by frame pointers']} of the other {rest}")
    print(f"  by frame pointers: {found['as eu-stack']} with eu-stack's frames, {found['front']} where it has fewer, {found['other']} with "
          "others")
    for end, times in ends.most_common():
        print(f"  {times} times {end}")


main()
