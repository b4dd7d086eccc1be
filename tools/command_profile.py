#!/usr/bin/env python3
"""Takes a profile of a command: records it with perf, finds the stack of each sample, names the frames, and draws them.

    command_profile.py [--svg FILE] [--folded FILE] [--script FILE] [--frequency N] [--profile PROGRAM] COMMAND [WORD]...

The picture goes to FILE (profile.svg), by flame_picture.py. With --folded the same stacks are written as flamegraph.pl, inferno
and speedscope read them: the process's name, why a stack ends early where it does, the functions from the outermost inwards, and
`[popped]` where registers were kept that were popped in the innermost one, with semicolons between them, a space and the number
of samples. With --script the samples are written one after another in the text form of `perf script`, which Firefox Profiler
reads, too: with their times, and the innermost frame first. There a function that was inlined has a frame of its own; in the
picture and the stacks it doesn't. The files are written when all is there, and else not at all. The command has its own
standard streams; lines on standard error say how far the profile is.

perf takes N samples a second (499) of each thread that runs, with 8 KB of its stack. The processes that the command begins
count, too: the samples of each program are walked over that program's tables, by the built program `profile`, in parts where it
maps a file's code in place of another file's. It wants perf (Debian: linux-perf).
"""
from __future__ import annotations

import argparse
import os
import re
import shlex
import shutil
import signal
import subprocess
import sys
import tempfile
from collections import Counter
from typing import NamedTuple

from elf_image import WORD, Refused
from flame_picture import Counts, Drawing, Name, picture_of
from flamegraph import Frames, Names, Stack, clean, named_lines
from names import ReportedFrame, trampolines_of
from perf_parts import Part, parts_of
from perf_tables import tables_of, vdso_of
from thread_reports import built_path, run
from process_profile import natural
from snapshot_file import Object, text_of

LINE = re.compile(r"(.*) ([1-9]\d*)$")
FRAME = re.compile(r"(?:(.*)\+)?0x([0-9a-f]+)$")
PLACE = re.compile(r"\t0x([1-9a-f][0-9a-f]*) (.*) \((.*)\)")
OFFSET = re.compile(r"\+0x[0-9a-f]+$")
STACK_BYTES = 8192


class Line(NamedTuple):
    """A line of `profile`: the process's name and why the stack ends early, where the functions of the frames begin, from the
    outermost inwards, with the number of samples, and what is said after the innermost one."""

    heads: tuple[str, ...]
    stack: Stack
    marks: tuple[str, ...] = ()


def say(line: str) -> None:
    """A line for the reader."""
    print(f"profile.sh: {line}", file=sys.stderr, flush=True)


def counted(number: int, noun: str) -> str:
    """A number with its noun."""
    return f"{number:,} {noun}" + ("" if number == 1 else "s")


# ---- recording


def recorded(options: argparse.Namespace, path: str) -> bytes:
    """What perf records of the command. The command's own faults are said, and its samples count all the same."""
    perf = shutil.which("perf")
    if perf is None:
        raise Refused("there is no perf on the PATH (Debian: linux-perf)")
    if shutil.which(options.command[0]) is None:
        raise Refused(f"there is no command {options.command[0]}")
    words = [perf, "record", "-q", "-B", "-N", "-e", "cpu-clock", "-F", str(options.frequency)]
    words += ["--call-graph", f"dwarf,{STACK_BYTES}", "-o", path, "--", *options.command]
    # Those who interrupt the command mean it, and not its profile.
    signal.signal(signal.SIGINT, lambda _number, _frame: None)
    status = subprocess.run(words, check=False).returncode
    signal.signal(signal.SIGINT, signal.SIG_DFL)
    try:
        with open(path, "rb") as stream:
            content = stream.read()
    except OSError:
        raise Refused(f"perf record ended with status {status}, and wrote nothing")
    if not content:
        raise Refused(f"perf record ended with status {status}, and wrote nothing")
    if status:
        say(f"{options.command[0]} ended with status {status}")
    return content


# ---- stacks


def line_of(text: str, biases: dict[str, int]) -> Line:
    """What a line of `profile` says, with the addresses of the process."""
    found = LINE.fullmatch(text)
    if found is None:
        raise Refused(f"that is no line of profile: {text!r}")
    name, *rest = found[1].split(";")
    frames = [FRAME.fullmatch(part) for part in rest]
    addresses = [(int(frame[2], 16) + biases.get(frame[1], 0)) % WORD for frame in frames if frame is not None]
    inner = max((place + 1 for place, frame in enumerate(frames) if frame is not None), default=len(rest))
    reasons = [part for part, frame in zip(rest[:inner], frames) if frame is None]
    return Line((name, *reasons), Stack(tuple(addresses), int(found[2])), tuple(rest[inner:]))


def told(program: str, words: list[str], part: Part, tables: Object) -> list[str]:
    """The lines that `profile` writes of a part."""
    found = []
    with tempfile.NamedTemporaryFile("w", suffix=".json") as stream:
        stream.write(text_of(tables, most=None))
        stream.flush()
        for content in part.files:
            answer = run([program, *words, stream.name], content)
            if answer.fault is not None:
                raise Refused(answer.fault)
            found += answer.text.splitlines()
    return found


def lines_of(part: Part, tables: Object, program: str) -> list[Line]:
    """The stacks of a part."""
    biases = {os.path.basename(module["path"]): int(module["bias"], 16) for module in reversed(tables["modules"])}
    return [line_of(text, biases) for text in told(program, [], part, tables)]


def counts_of(tables: Object, lines: list[Line]) -> Counts:
    """The samples of each stack of names. A frame has the name of its function, or of the one that holds its address where no
    frame table describes it."""
    frames = Frames(trampolines_of(tables))
    framed: list[tuple[Line, list[ReportedFrame]]] = []
    for line in lines:
        framed.append((line, [frames.frame(address, True) for address in line.stack.addresses]))
    names = Names(tables, {frame for _line, of_line in framed for frame in of_line}, [])
    counts = Counter[tuple[Name, ...]]()
    for line, of_line in framed:
        heads, marks = (tuple(Name(clean(part)) for part in parts) for parts in (line.heads, line.marks))
        counts[(*heads, *(names.of(frame)[0] for frame in of_line), *marks)] += line.stack.count
    return dict(counts)


def script_frames(tables: Object, lines: list[str]) -> dict[int, ReportedFrame]:
    """The frames of lines of `profile --script`, by the lines' numbers. The first of a sample was interrupted, as are those that a
    handler of a signal returns to."""
    frames, found, interrupted = Frames(trampolines_of(tables)), {}, True
    for number, line in enumerate(lines):
        place = PLACE.fullmatch(line)
        if place is None:
            interrupted = True
        else:
            found[number] = frames.frame(int(place[1], 16) + (not interrupted), interrupted)
            interrupted = found[number].is_signal
    return found


def with_offset(name: str, place: str) -> str:
    """A name as it stands in a line. One that ends as a symbol with an offset does, as a frame without a name has its file and its
    function's place, has its own offset after it: readers of such texts take that off."""
    offset = OFFSET.search(place)
    return name + (offset[0] if offset is not None else "+0x0") if OFFSET.search(name) else name


def named_script(part: Part, tables: Object, program: str) -> list[str]:
    """The samples of a part one after another, in the text form of `perf script`, with the names of functions. One that was inlined
    has a line of its own, before that of the function which it stands in."""
    lines = told(program, ["--script"], part, tables)
    frames = script_frames(tables, lines)
    names = Names(tables, set(frames.values()), [])
    found = []
    for number, line in enumerate(lines):
        place = PLACE.fullmatch(line)
        if place is None:
            found.append(line)
        else:
            texts = [with_offset(name.text, place[2]) for name in names.of(frames[number])[::-1]]
            found += [f"\t{frames[number].address:x} {text} ({place[3]})" for text in texts]
    return found


def file_of(part: Part) -> str:
    """The program's file, which is what it mapped first."""
    return next((os.path.basename(mapping.path) for mapping in part.mappings if mapping.path.startswith("/")), "")


class Named(NamedTuple):
    """A profile with names: the samples of each stack, their lines one after another where these are asked for, and the file of the
    program with the most samples."""

    counts: Counts
    script: list[str]
    file: str


def named_profile(content: bytes, program: str, is_script: bool) -> Named:
    """What a perf.data file says, with names."""
    parts = parts_of(content)
    total = sum(part.samples for part in parts)
    if not total:
        raise Refused("perf took no sample: the command may have run for too short a time, or have waited")
    counts, script = Counter[tuple[Name, ...]](), []
    for number, part in enumerate(parts, 1):
        say(f"{counted(part.samples, 'sample')} of {file_of(part) or 'no file'}, part {number} of {len(parts)}")
        tables = tables_of(part.mappings, vdso_of(content))
        counts.update(counts_of(tables, lines_of(part, tables, program)))
        if is_script:
            script += named_script(part, tables, program)
    return Named(dict(counts), script, file_of(parts[0]))


# ---- the program


def options_of(words: list[str]) -> argparse.Namespace:
    """What the words ask for."""
    parser = argparse.ArgumentParser(prog="profile.sh", description="Takes a profile of a command.")
    parser.add_argument("--svg", metavar="FILE", default="profile.svg", help="where the picture goes (profile.svg)")
    parser.add_argument("--folded", metavar="FILE", help="where the stacks with their counts go")
    parser.add_argument("--script", metavar="FILE", help="where the samples go, one after another, as perf script writes them")
    parser.add_argument("--frequency", metavar="N", type=natural, default=499, help="samples a second (499)")
    default = built_path("profile")
    parser.add_argument("--profile", metavar="PROGRAM", default=default, help="the built program")
    parser.add_argument("command", metavar="COMMAND", nargs=argparse.REMAINDER, help="the command and its words")
    options = parser.parse_args(words)
    if options.command[:1] == ["--"]:
        options.command = options.command[1:]
    if not options.command:
        parser.error("there is no command")
    return options


def write_whole(path: str, text: str) -> None:
    """Writes a file, whole or not at all."""
    folder = os.path.dirname(path) or "."
    with tempfile.NamedTemporaryFile("w", dir=folder, encoding="utf-8", errors="surrogateescape", delete=False) as stream:
        try:
            stream.write(text)
            stream.flush()
            os.chmod(stream.name, 0o644)
            os.replace(stream.name, path)
        except OSError:
            os.unlink(stream.name)
            raise


def check_folders(paths: list[str]) -> None:
    """Refuses files that couldn't be written in the end."""
    for path in paths:
        folder = os.path.dirname(path) or "."
        if not os.path.isdir(folder) or not os.access(folder, os.W_OK) or os.path.isdir(path):
            raise Refused(f"{path} can't be written")


def profile(options: argparse.Namespace) -> None:
    """Takes a profile, and writes its files."""
    if not os.access(options.profile, os.X_OK):
        raise Refused(f"{options.profile} isn't built: run `rt run` in crates/profile")
    files = [options.svg, *(path for path in (options.folded, options.script) if path)]
    check_folders(files)
    with tempfile.TemporaryDirectory() as folder:
        say(f"records {shlex.join(options.command)}")
        content = recorded(options, os.path.join(folder, "perf.data"))
    counts, script, program = named_profile(content, options.profile, bool(options.script))
    title = shlex.join(options.command)
    if options.folded:
        write_whole(options.folded, "".join(f"{line}\n" for line in named_lines(counts)))
    if options.script:
        write_whole(options.script, "".join(f"{line}\n" for line in script))
    write_whole(options.svg, picture_of(counts, Drawing(title, Drawing.width, clean(program))))
    say(f"{counted(sum(counts.values()), 'sample')} in {counted(len(counts), 'stack')}: {' and '.join(files)}")


def main() -> None:
    """Runs the program."""
    try:
        profile(options_of(sys.argv[1:]))
    except (Refused, OSError) as error:
        sys.exit(f"profile.sh: {error}")


if __name__ == "__main__":
    main()
