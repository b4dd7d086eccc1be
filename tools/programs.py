"""Runs a program on a text, and reads what it prints.

`subprocess` does the same, and takes longer to load than all else that a short backtrace does. Text and answers are files in
memory (memfd_create(2)): neither side waits for the other, however long they are, and a program may end before it has read
its text.
"""
from __future__ import annotations

import os
import signal
from typing import NamedTuple, Sequence


CRATES = os.path.join(os.path.dirname(os.path.realpath(__file__)), "..", "crates")


class Done(NamedTuple):
    """What a program has printed, and its status: where a signal ended it, less than 0 by the signal's number."""

    status: int
    output: bytes
    errors: bytes


def which(name: str) -> str | None:
    """A program on the PATH. (`shutil.which` is the same; loading shutil takes long.)"""
    paths = (os.path.join(folder, name) for folder in os.get_exec_path())
    return next((path for path in paths if os.path.isfile(path) and os.access(path, os.X_OK)), None)


def built_path(name: str) -> str:
    """A built program of this repository: that which a variable names, as BACKTRACE does `backtrace`; else the one that is built
    here, else one on the PATH, else where it would be built."""
    built = os.path.normpath(os.path.join(CRATES, name, "out", name))
    return os.environ.get(name.upper()) or (None if os.access(built, os.X_OK) else which(name)) or built


def run_program(words: Sequence[str], text: bytes) -> Done:
    """Runs a program, which is found on the PATH where its name has no folder. `OSError` where it can't be run."""
    files = [os.memfd_create(name) for name in ("text", "output", "errors")]
    try:
        write_all(files[0], text)
        streams = [(os.POSIX_SPAWN_DUP2, file, number) for number, file in enumerate(files)]
        process = os.posix_spawnp(words[0], words, os.environ, file_actions=streams, setsigdef=[signal.SIGPIPE])
        status = os.waitstatus_to_exitcode(os.waitpid(process, 0)[1])
        return Done(status, content_of(files[1]), content_of(files[2]))
    finally:
        for file in files:
            os.close(file)


def write_all(file: int, text: bytes) -> None:
    """Writes a text, and goes back to its begin."""
    view = memoryview(text)
    while view:
        view = view[os.write(file, view) :]
    os.lseek(file, 0, os.SEEK_SET)


def content_of(file: int) -> bytes:
    """All that stands in a file."""
    parts, place, size = [], 0, os.fstat(file).st_size
    while part := os.pread(file, min(size - place, 2**30), place):
        parts.append(part)
        place += len(part)
    return b"".join(parts)
