#!/usr/bin/env python3
"""Prints the backtrace of a stored snapshot, and says what is wrong where there is none.

    snapshot_backtrace.py FILE [--strict] [--backtrace PROGRAM]

FILE is a snapshot, a thread's file of `snapshot DIR --threads`, or samples, whose threads are printed one after another. The built
program `backtrace` finds the frames of all in one run, and names.py names them. Where the program refuses a snapshot, or ends for another reason,
lines on standard error say why: of a text that is no JSON the line and the column, of a field that is faulty the place in it
by docs/snapshot.schema.json, and of each other status what it means. With --strict a member that the schema doesn't name is
refused, with the nearest name that it does: a name that was misspelt changes the answer otherwise.
"""
from __future__ import annotations

import signal
import sys
from typing import Iterator, NamedTuple

from check_schema import faults_of
from elf_image import Refused
from names import backtraces
from programs import built_path, run_program
from thread_reports import short_text
from snapshot_file import MOST_BYTES, Object, read_snapshot

USAGE = "usage: snapshot_backtrace.py FILE [--strict] [--backtrace PROGRAM]"

# What the statuses of `backtrace` mean, where it writes no line that says it.
MEANINGS = {
    3: "its input can't be read", 4: "its report can't be written", 5: f"the text has more than {MOST_BYTES} bytes", 9: "out of memory",
}


class Options(NamedTuple):
    """What the words ask for."""

    file: str
    strict: bool
    program: str


class Stopped(NamedTuple):
    """A thread of a file: the line before its frames, where there are several, and its snapshot."""

    head: str | None
    snapshot: Object


def threads_of(found: Object) -> Iterator[Stopped]:
    """The threads of a snapshot or of samples."""
    if "samples" not in found:
        yield Stopped(None, found)
        return
    shared = {name: value for name, value in found.items() if name != "samples"}
    for index, sample in enumerate(found["samples"]):
        thread = sample.get("thread", {})
        head = " ".join(["Thread", str(thread.get("id", index)), *([thread["name"]] if "name" in thread else [])])
        yield Stopped(f"{head}:", shared | sample)


def said_of(status: int, printed: str, found: Object) -> list[str]:
    """Why a program printed no backtrace."""
    if status < 0:
        return [f"it was ended by the signal {-status}"]
    lines = [MEANINGS.get(status) or printed.strip() or f"it ended with status {status}"]
    field = printed.strip().removeprefix("bad snapshot: ")
    if status == 7:
        faults = faults_of(found)
        lines += [fault for fault in faults if fault.startswith(field)] or faults
    return lines


def lines_of(found: Object, threads: list[Stopped], options: Options) -> Iterator[list[str]]:
    """The lines of each thread. Refuses where the program does."""
    words = ["--samples"] if "samples" in found else []
    try:
        done = run_program([options.program, *words], short_text(found))
    except OSError:
        raise Refused(f"{options.program} isn't built: run `rt run < stdin` in crates/backtrace")
    printed = done.output.decode("ascii", "replace")
    if done.status != 0:
        raise Refused("\n".join(said_of(done.status, printed, found)))
    for stopped, lines in zip(threads, backtraces(printed, found, [])):
        yield [stopped.head, *lines[1:]] if stopped.head else lines


def printed(options: Options) -> str:
    """The backtraces of a file."""
    found = read_snapshot(options.file)
    threads = list(threads_of(found))
    if options.strict:
        faults = faults_of(found)
        if faults:
            raise Refused("\n".join(faults))
    return "\n\n".join("\n".join(lines) for lines in lines_of(found, threads, options))


def read_words(words: list[str]) -> Options:
    """The words."""
    program = built_path("backtrace")
    left = [word for word in words if word != "--strict"]
    if "--backtrace" in left[:-1]:
        index = left.index("--backtrace")
        program = left[index + 1]
        del left[index : index + 2]
    if len(left) != 1 or left[0].startswith("--"):
        print(USAGE, file=sys.stderr)
        sys.exit(2)
    return Options(left[0], "--strict" in words, program)


def main() -> None:
    """Runs the program."""
    sys.stdout.reconfigure(errors="surrogateescape")
    options = read_words(sys.argv[1:])
    try:
        lines = printed(options)
    except (Refused, OSError) as error:
        sys.exit("\n".join(f"backtrace: {options.file}: {line}" for line in str(error).splitlines()))
    except (KeyError, TypeError, ValueError, AttributeError) as error:
        sys.exit(f"backtrace: {options.file} isn't what a snapshot has to be ({error}); tools/check_schema.py FILE says where")
    signal.signal(signal.SIGPIPE, signal.SIG_DFL)
    print(lines)


if __name__ == "__main__":
    main()
