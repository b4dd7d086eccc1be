#!/usr/bin/env python3
"""Joins what `snapshot DIR --threads` wrote to a snapshot, on standard output.

    join.py DIR/thread-ID.json              the snapshot of one thread, for `unwind_cli walk`
    join.py --samples DIR/thread-*.json     all threads as samples over one memory
    join.py --bare FILE                     without the members that `unwind_cli` passes over

A snapshot that is whole already is taken as it is. Samples have the members `regions` and `modules`
of a snapshot, `samples`, an array of objects with `start`, `interrupted` and the thread, and
`limit`, at most 1024.
"""
from __future__ import annotations

import argparse
import os
import signal
import sys

from elf_image import Refused
from snapshot_file import Object, joined_samples, read_object, read_snapshot, text_of

# What only tells names: of a module, of a snapshot, and of code without a table.
NAMES_OF_MODULES = ("path", "bias", "build_id")
NAMES_OF_SNAPSHOTS = ("thread",)
NAMES_OF_CODE = (*NAMES_OF_MODULES, "program")


def samples_of(files: list[str]) -> Object:
    """All threads of files that refer to the same tables."""
    threads = [read_object(file) for file in files]
    for file, thread in zip(files, threads):
        if "tables" not in thread:
            raise Refused(f"{file} is no thread's file: it refers to no tables")
    tables = {os.path.join(os.path.dirname(file), thread["tables"]) for file, thread in zip(files, threads)}
    if len(tables) != 1:
        raise Refused("the threads refer to different tables")
    return joined_samples(read_object(tables.pop()), threads)


def without(entry: Object, names: tuple[str, ...]) -> Object:
    """An object without some of its members."""
    return {key: value for key, value in entry.items() if key not in names}


def without_names(found: Object) -> Object:
    """A snapshot without the members that only tell names."""
    ranges = {name: [without(entry, NAMES_OF_CODE) for entry in found[name]] for name in ("modules", "code") if name in found}
    return without(found, NAMES_OF_SNAPSHOTS) | ranges


def joined(options: argparse.Namespace) -> Object:
    """What the words ask for."""
    if not options.samples and len(options.files) != 1:
        raise Refused("several files make a snapshot with --samples alone")
    found = samples_of(options.files) if options.samples else read_snapshot(options.files[0])
    return without_names(found) if options.bare else found


def main() -> None:
    """Runs the program."""
    parser = argparse.ArgumentParser(prog="join.py", description="Join a thread's file and its tables.")
    parser.add_argument("files", nargs="+", metavar="FILE")
    parser.add_argument("--samples", action="store_true", help="all threads, for the command fold")
    parser.add_argument("--bare", action="store_true", help="without names of modules, threads and code")
    signal.signal(signal.SIGPIPE, signal.SIG_DFL)
    try:
        sys.stdout.write(text_of(joined(parser.parse_args())))
    except (Refused, KeyError) as error:
        sys.exit(f"join.py: {error}")


if __name__ == "__main__":
    main()
