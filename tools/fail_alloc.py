#!/usr/bin/env python3
"""Runs the built program with each of its allocations, reads and writes failing in turn.

    fail_alloc.py [--program PATH] [FILE WORDS]...

Each FILE is a snapshot, given to the command WORDS, of which spaces part one from the next; `-` stands for
no file, where a command reads nothing. Without one they are the stored run, the delivery and walk of a C++
program, the delivery over a generated chain of 1,000 calls, a fold and a core. tools/fail_alloc.c is preloaded
and lets the Nth allocation fail, from the first to the last that the run makes, once that one alone and once it
and all later ones; then the same with reads and writes. docs/FORMATS.md says what has to come: status 9 and nothing written where memory ran out, 3
and nothing written after a failed read, 4 and a prefix of what was due after a failed write. A run in which a
failing call changes nothing has to write all that is due. Reports what came otherwise, with status 1.

Wants gcc, and the program linked against the C library (`rt run < stdin` in crates/unwind_cli makes it).
"""
from __future__ import annotations

import argparse
import os
import subprocess
import sys
import tempfile
from dataclasses import dataclass
from typing import Iterator

HERE = os.path.dirname(os.path.abspath(__file__))
REPOSITORY = os.path.join(HERE, "..")
PROGRAM = os.path.join(REPOSITORY, "crates", "unwind_cli", "out", "unwind_cli")
SAMPLES = os.path.join(REPOSITORY, "crates", "real_samples", "data")
# What stands for no file.
NO_FILE = "-"
TRIED = [
    (os.path.join(REPOSITORY, "crates", "unwind_cli", "stdin"), "deliver"),
    (os.path.join(SAMPLES, "cleanups-gcc-O2-by-header.json"), "deliver"),
    (os.path.join(SAMPLES, "cleanups-gcc-O2.json"), "walk"),
    (NO_FILE, "generate 1000 7"),
    (os.path.join(REPOSITORY, "examples", "pushed_rbx_samples.json"), "fold"),
    (os.path.join(REPOSITORY, "examples", "pushed_rbx_core.json"), "core"),
]

# The status that each kind of failing call gives.
CALLS = {"alloc": 9, "read": 3, "write": 4}
# No run here makes more calls than this.
MOST_CALLS = 100_000


@dataclass(frozen=True)
class Ended:
    """How a run ended, and how many calls of the kind it made."""

    status: int
    output: bytes
    calls: int


@dataclass(frozen=True)
class Trial:
    """A program, its words, what it reads if it reads anything, and the library that makes calls fail."""

    program: str
    words: tuple[str, ...]
    text: bytes | None
    library: str
    folder: str

    def run(self, call: str, number: int, later: bool) -> Ended:
        """Runs the program with a call failing; with the number 0 none does."""
        count = os.path.join(self.folder, "count")
        asked = {"LD_PRELOAD": self.library, "FAIL_CALL": call, "FAIL_AT": str(number), "FAIL_COUNT": count}
        if later:
            asked["FAIL_ON"] = "1"
        done = subprocess.run(
            [self.program, *self.words], input=self.text or b"", capture_output=True, env=asked, check=False,
            timeout=600,
        )
        if not os.path.exists(count):
            return Ended(done.returncode, done.stdout, 0)
        with open(count, encoding="ascii") as file:
            calls = dict(zip(CALLS, map(int, file.read().split())))
        os.remove(count)
        return Ended(done.returncode, done.stdout, calls[call])


def fault_of(call: str, due: Ended, ended: Ended) -> str | None:
    """What is wrong with a run in which a call failed."""
    if (ended.status, ended.output) == (due.status, due.output):
        return None  # a call that the run does without, as that of a buffer of the C library
    if ended.status != CALLS[call]:
        return f"status {ended.status}"
    wanted = due.output if call == "write" else b""
    if not wanted.startswith(ended.output):
        return f"output {ended.output[-80:]!r}"
    return None


def faults_of(trial: Trial, call: str) -> Iterator[str]:
    """Each fault of the runs in which calls of a kind fail in turn; last how many runs there were."""
    due = trial.run(call, 0, False)
    if call == "read" and trial.text is None:
        if due.calls:
            yield f"{due.calls} calls of read were seen where nothing is to be read"
        return
    if due.calls == 0 or due.calls > MOST_CALLS:
        yield f"{due.calls} calls of {call} were seen; is the program linked against the C library?"
        return
    kept = 0
    for later in (False, True):
        for number in range(1, due.calls + 1):
            ended = trial.run(call, number, later)
            fault = fault_of(call, due, ended)
            kept += ended.status == due.status
            if fault:
                yield f"{call} {number}{' and later' if later else ''} failing: {fault}"
    print(f"  {call}: {due.calls} calls, {2 * due.calls} runs, of which {kept} were as without a failing call")


def text_of(path: str) -> bytes | None:
    """What a file holds, None where there is none."""
    if path == NO_FILE:
        return None
    with open(path, "rb") as file:
        return file.read()


def main() -> None:
    """Runs the program."""
    words = argparse.ArgumentParser(description="Runs the built program with each call failing in turn.")
    words.add_argument("--program", default=PROGRAM)
    words.add_argument("tried", nargs="*", metavar="FILE WORDS")
    options = words.parse_args()
    tried = list(zip(options.tried[::2], options.tried[1::2])) or TRIED
    failed = False
    with tempfile.TemporaryDirectory() as folder:
        library = os.path.join(folder, "fail_alloc.so")
        source = os.path.join(HERE, "fail_alloc.c")
        subprocess.run(["gcc", "-shared", "-fPIC", "-O2", source, "-o", library, "-ldl"], check=True)
        for path, asked in tried:
            print(asked if path == NO_FILE else f"{asked} < {os.path.relpath(path)}")
            trial = Trial(options.program, tuple(asked.split()), text_of(path), library, folder)
            for call in CALLS:
                for fault in faults_of(trial, call):
                    failed = True
                    print(f"  {fault}")
    sys.exit(failed)


if __name__ == "__main__":
    main()
