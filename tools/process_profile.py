#!/usr/bin/env python3
"""Takes a profile of a process: stops it several times, folds the stacks of all its threads each time, and prints each stack
by names with the number of times that it was seen, as flamegraph.pl, inferno and speedscope read it.

    process_profile.py PID [MOMENTS] [--svg FILE] [--every MILLISECONDS] [--unwind-cli PROGRAM]

MOMENTS is 10 unless given. Between two moments the process goes on for 50 milliseconds, or for as long as it takes to fold
the first one's stacks. At each moment it stands still for some milliseconds, while its stacks are read (process_samples.py).
All threads count, also those that wait. With --svg the same is drawn (flame_picture.py).

Two moments can't be one text of samples, since a thread's stack has other bytes at the same addresses then: each is folded
by itself, without its memory kept, and the counts of names are added. All names are asked for at the end. Where the process
ends before the last moment, the profile is that of the moments before, and a line says so.
"""
from __future__ import annotations

import argparse
import os
import signal
import sys
import time
from typing import NamedTuple

from core import Loaded, Taken
from elf_image import Refused
from flame_picture import Drawing, picture_of
from flamegraph import Moment, moment_of, named_counts, named_lines, program_of
from thread_reports import built_path, module_entries, run, short_text
from process_samples import samples_object, taken_samples
from snapshot_file import Object, region_object


class Seen(NamedTuple):
    """What is kept of a moment: its modules, its samples without their memory, and what `unwind_cli fold` printed."""

    loaded: list[Loaded]
    samples: list[Object]
    report: str


def say(line: str) -> None:
    """A line for the reader."""
    print(f"profile.sh: {line}", file=sys.stderr)


# ---- moments


def seen_of(number: int, unwind_cli: str) -> Seen:
    """A moment of a process."""
    taken, samples = taken_samples(number)
    answer = run([unwind_cli, "fold"], short_text(samples_object(taken, samples)))
    if answer.fault is not None:
        raise Refused(answer.fault)
    return Seen(taken.loaded, samples, answer.text)


def all_seen(options: argparse.Namespace) -> list[Seen]:
    """The moments of a process, as many as are asked or as there are."""
    found: list[Seen] = []
    for _ in range(options.moments):
        begin = time.monotonic()
        try:
            found.append(seen_of(options.number, options.unwind_cli))
        except Refused as reason:
            if not found:
                raise
            say(f"{len(found)} of {options.moments} moments: {reason}")
            break
        if len(found) < options.moments:
            time.sleep(max(0.0, options.every / 1000 - (time.monotonic() - begin)))
    return found


# ---- names


def groups_of(found: list[Seen]) -> list[list[Seen]]:
    """The moments, those together whose modules could be loaded at once: a file that was let go may have left its place to
    another one, and an address has one name in a group."""
    groups: list[list[Seen]] = []
    for seen in found:
        group = next((group for group in groups if fit_together([*group, seen])), None)
        if group is None:
            groups.append([seen])
        else:
            group.append(seen)
    return groups


def fit_together(group: list[Seen]) -> bool:
    """Whether no two modules of some moments share an address."""
    places = sorted(place for one in union_of(group) for place in one.module.code)
    return all(place.end <= after.start for place, after in zip(places, places[1:]))


def union_of(group: list[Seen]) -> list[Loaded]:
    """The modules of some moments, each once and the program's first."""
    found = {(one.module.name, one.module.bias): one for seen in group for one in seen.loaded}
    return list(found.values())


def moments_of(group: list[Seen]) -> list[Moment]:
    """The moments of a group, with the modules of all of it."""
    loaded = union_of(group)
    shared = {
        "regions": [region_object(one.table) for one in loaded],
        "modules": module_entries(Taken([], [], loaded)),
    }
    return [moment_of(seen.report, shared | {"samples": seen.samples}) for seen in group]


# ---- the program


def options_of(words: list[str]) -> argparse.Namespace:
    """What the words ask for."""
    parser = argparse.ArgumentParser(prog="profile.sh", description="Takes a profile of a process.")
    parser.add_argument("number", metavar="PID", type=natural, help="a process")
    parser.add_argument("moments", metavar="MOMENTS", type=natural, nargs="?", default=10, help="how often it is stopped (10)")
    parser.add_argument("--svg", metavar="FILE", help="where the picture goes")
    parser.add_argument("--every", metavar="MILLISECONDS", type=natural, default=50, help="from one moment to the next (50)")
    default = built_path("unwind_cli")
    parser.add_argument("--unwind-cli", metavar="PROGRAM", default=default, help="the built program")
    return parser.parse_args(words)


def natural(word: str) -> int:
    """A number of a word, at least 1."""
    if not word.isdecimal() or int(word) == 0:
        raise argparse.ArgumentTypeError(f"{word} is no number from 1 on")
    return int(word)


def profile(options: argparse.Namespace) -> str:
    """The lines of a profile. The picture is written."""
    if not os.access(options.unwind_cli, os.X_OK):
        raise Refused(f"{options.unwind_cli} isn't built: run `rt run < stdin` in crates/unwind_cli")
    moments = [moment for group in groups_of(all_seen(options)) for moment in moments_of(group)]
    counts = named_counts(moments, [f"/proc/{options.number}/exe"], False)
    if options.svg:
        program = program_of(moments)
        with open(options.svg, "w", encoding="utf-8") as stream:
            stream.write(picture_of(counts, Drawing(program or Drawing.title, Drawing.width, program)))
    return "".join(f"{line}\n" for line in named_lines(counts))


def main() -> None:
    """Runs the program."""
    try:
        lines = profile(options_of(sys.argv[1:]))
    except (Refused, OSError) as error:
        sys.exit(f"profile.sh: {error}")
    signal.signal(signal.SIGPIPE, signal.SIG_DFL)
    sys.stdout.write(lines)


if __name__ == "__main__":
    main()
