#!/usr/bin/env python3
"""Gives the frames of all threads names, in the report of `unwind_cli core`.

    core_names.py REPORT FILE

FILE is what tools/core.py made, and REPORT what `unwind_cli core` printed of it. The names come as names.py has them;
each address is asked once, and all files in one run of the symbolizer.

    Thread 1 (LWP 29146):
    #0 0x7f31ee3d3eec in __pthread_kill_implementation at ./nptl/pthread_kill.c:44
    #1 0x7f31ee384fb2 in raise at ../sysdeps/posix/raise.c:26

Where a walk was refused the innermost frame is there, which the thread's registers say, and the line that says why. A report
of `backtrace` in a walk's place has the frames up to there.
"""
from __future__ import annotations

import os
import re
import signal
import struct
import sys
from typing import Callable, Iterator, NamedTuple

from elf_image import SEGMENT_LOADED, WORD, ElfImage, Refused
from names import GUESSED, KEPT, Module, ReportedFrame, Symbols, all_symbols, module_at, modules_of, program_of, texts_of
from snapshot_file import Object, read_object
from symbols import asked_addresses, name_without_lines

THREAD = "\nthread "
FRAME = re.compile(r"\n(?:frame \d+ ra=|#\d+ +)0x([0-9a-f]+)\b")
LAST = re.compile(r"end|refused: .*|end: .*")
UNMAPPED = re.compile(r"^(?:refused|end: no caller of .*): unmapped (0x[0-9a-f]+)$")
OUTERMOST = "end: the outermost frame, which returns to 0"
# What handlers of signals return to: `mov $15, %rax; syscall`, which is rt_sigreturn(2).
RESTORER = bytes.fromhex("48c7c00f0000000f05")


class Walk(NamedTuple):
    """A thread's walk in a report: return addresses from the start outwards, the line after them, whether the second was
    guessed, and whether popped registers were kept at the first."""

    addresses: list[int]
    last: str
    guessed: bool = False
    popped: bool = False


class ThreadStart(NamedTuple):
    """A thread's number in the system, and where it stood."""

    number: int
    rip: int


class Loaded:
    """What names are made of: what a snapshot says, its modules, the program's path, and files that aren't on disk by the paths
    of theirs."""

    def __init__(self, found: Object) -> None:
        self.found = found
        self.modules = modules_of(found)
        self.program = program_of(found, self.modules)
        self.images: dict[str, ElfImage] = {}


# ---- report


def walk_of(text: str) -> Walk:
    """The walk of a thread by its lines."""
    returns = FRAME.findall(text)
    known = {digits: int(digits, 16) for digits in set(returns)}
    last = text.rstrip("\n").rpartition("\n")[2]
    ending = last if LAST.fullmatch(last) else ""
    return Walk([known[digits] for digits in returns], ending, f"{GUESSED}\n" in text, f"{KEPT}\n" in text)


def walks_of(report: str) -> list[Walk]:
    """The walks of a report, in the order of the threads."""
    return [walk_of(text) for text in f"\n{report}".split(THREAD)[1:]]


def start_of(thread: Object) -> ThreadStart:
    """A thread as tools/core.py writes it."""
    return ThreadStart(thread["id"], int(thread["rip"], 16))


# ---- code


def code_at(image: ElfImage, address: int, size: int) -> bytes:
    """Bytes of a file by its own address."""
    for segment in image.segments:
        if segment.kind == SEGMENT_LOADED and segment.address <= address < segment.address + segment.size:
            return image.bytes_at(segment.offset + address - segment.address, size)
    return b""


def is_restorer(loaded: Loaded, address: int) -> bool:
    """Whether at an address stands what handlers of signals return to."""
    module = module_at(loaded.modules, address)
    if module is None:
        return False
    try:
        if module.path not in loaded.images:
            loaded.images[module.path] = ElfImage(open(module.path, "rb"))
        return code_at(loaded.images[module.path], (address - module.bias) % WORD, len(RESTORER)) == RESTORER
    except (OSError, Refused, struct.error):
        return False


def restorers_of(loaded: Loaded, walks: list[Walk]) -> set[int]:
    """The addresses in walks at which such code stands."""
    addresses = {address for walk in walks for address in walk.addresses}
    return {address for address in addresses if is_restorer(loaded, address)}


# ---- frames


def frames_of(walk: Walk, start: ThreadStart, restorers: set[int]) -> Iterator[ReportedFrame]:
    """The frames of a walk or, where it was refused, the innermost one. That which returns to 0 is no frame's. Of a function
    that calls itself the same frame comes again."""
    interrupted = True
    called: dict[int, ReportedFrame] = {}
    for level, address in enumerate(walk.addresses or [start.rip]):
        if address == 0 and level > 0:
            return
        is_signal = address in restorers
        if level == 1 and walk.guessed:
            yield ReportedFrame(address, address - 1, note=GUESSED)
        elif interrupted or is_signal:
            yield ReportedFrame(address, address, is_signal, KEPT if walk.popped and level == 0 else "")
        else:
            yield called.get(address) or called.setdefault(address, ReportedFrame(address, address - 1))
        interrupted = is_signal


def code_line(found: Object, address: int) -> str | None:
    """The line of `backtrace` where a walk comes to code without a table: `unwind_cli core` says that a walk ends, and not why."""
    for entry in found.get("code", []):
        if int(entry["start"], 16) <= address < int(entry["end"], 16):
            name = f" in {os.path.basename(entry['path'])}" if "path" in entry else ""
            return f"end: code without a table at {address:#018x}{name}"
    return None


def ending_of(walk: Walk, loaded: Loaded, missing: Callable[[int], str] | None) -> str | None:
    """Why a thread has no more frames, unless the last one is the outermost."""
    unmapped = UNMAPPED.match(walk.last)
    if unmapped and missing is not None:
        return f"{walk.last} ({missing(int(unmapped[1], 16))})"
    if walk.last != "end":
        return None if walk.last == OUTERMOST else walk.last or "the report ends here"
    counter = walk.addresses[-1] if walk.addresses else 0
    if counter == 0:
        return None
    address = counter if len(walk.addresses) == 1 else counter - 1
    module, without_table = module_at(loaded.modules, address), code_line(loaded.found, address)
    if module is None or without_table is not None:
        return without_table or f"end: no module holds {address:#018x}"
    return f"end: no description of {os.path.basename(module.path)}+{(address - module.bias) % WORD:#x}"


# ---- names


def symbols_of(frames: set[ReportedFrame], loaded: Loaded) -> dict[str, Symbols]:
    """What is known of frames, by the paths of modules: nothing where no symbolizer is installed."""
    asked = [frame for frame in frames if not frame.is_signal]
    try:
        found = all_symbols(asked, loaded.modules, [])
    except (Refused, OSError) as error:
        print(f"core: without names: {error}", file=sys.stderr)
        found = {module.path: Symbols() for module in loaded.modules}
    for (path, _), addresses in asked_addresses([frame.address for frame in asked], loaded.modules).items():
        if path in loaded.images and not os.path.exists(path):
            found[path].functions = loaded.images[path].functions()
            name_without_lines(found[path], addresses)
    return found


def names_of(frames: set[ReportedFrame], loaded: Loaded) -> dict[ReportedFrame, list[str]]:
    """The lines of each frame, without their numbers."""
    symbols = symbols_of(frames, loaded)
    return {frame: texts_of(frame, loaded.modules, symbols, loaded.program) for frame in frames}


def thread_lines(
    walks: list[Walk], starts: list[ThreadStart], loaded: Loaded, missing: Callable[[int], str] | None = None
) -> list[list[str]]:
    """The lines of each thread: its frames, and why there are no more."""
    if len(walks) != len(starts):
        raise Refused(f"the report has {len(walks)} threads, and the core {len(starts)}")
    restorers = restorers_of(loaded, walks)
    frames = [list(frames_of(walk, start, restorers)) for walk, start in zip(walks, starts)]
    names = names_of({frame for here in frames for frame in here}, loaded)
    found = []
    for walk, here in zip(walks, frames):
        texts = [text for frame in here for text in names[frame]]
        ending = ending_of(walk, loaded, missing)
        found.append([f"#{level} {text}" for level, text in enumerate(texts)] + ([ending] if ending else []))
    return found


def titled(threads: list[list[str]], starts: list[ThreadStart]) -> str:
    """The lines of all threads, each after its head."""
    parts = [
        "\n".join([f"Thread {index} (LWP {start.number}):", *lines])
        for index, (start, lines) in enumerate(zip(starts, threads), 1)
    ]
    return "\n\n".join(parts)


def main() -> None:
    """Runs the program."""
    if len(sys.argv) != 3:
        sys.exit("usage: core_names.py REPORT FILE")
    signal.signal(signal.SIGPIPE, signal.SIG_DFL)
    try:
        found = read_object(sys.argv[2])
        with open(sys.argv[1], encoding="ascii") as stream:
            report = stream.read()
        starts = [start_of(thread) for thread in found["threads"]]
        print(titled(thread_lines(walks_of(report), starts, Loaded(found)), starts))
    except (Refused, OSError, KeyError, UnicodeDecodeError) as error:
        sys.exit(f"core_names.py: {error}")


if __name__ == "__main__":
    main()
