"""Compares the backtraces of the threads of a core or a process: ours with those of gdb or of eu-stack.

    core_frames.py OURS THEIRS

OURS is what `tools/backtrace.sh PROGRAM CORE --threads`, `PID --threads` or `core_stacks [--names] CORE` printed. THEIRS is
what gdb printed by `thread apply all frames` (tools/frames.py), or what `eu-stack -n 0` printed. Each thread's return
addresses have to be the same, in order; where ours is a signal's frame, which has no address, each is the same. Of
core_stacks, which has no numbers of threads but their order, THEIRS is gdb's. Prints how many threads and frames are, and
the first thread that differs; the status is then 1.
"""
from __future__ import annotations

import pathlib
import re
import sys

# A head of gdb's or ours of a core, or of eu-stack's or ours of a process; an address of ours or eu-stack's, of gdb's or of
# core_stacks', and a signal's frame.
LINE = re.compile(
    r"^(?:Thread \d+ .*\(LWP (\d+)\)|(?:TID|Thread) (\d+)[: ].*|#\d+ +0x([0-9a-f]+)\b.*|frame \d+ ra=0x([0-9a-f]+) .*"
    r"|#\d+ (<signal handler called>))", re.MULTILINE,
)
# A head of core_stacks, and the state outside of the outermost frame, which no frame of the others is.
IN_ORDER = re.compile(r"^thread \d+$", re.MULTILINE)
OUTSIDE = re.compile(r"^frame [1-9]\d* ra=0x0 .*\n(?=end$)", re.MULTILINE)
# gdb's number of a thread of a core, which counts them in their order.
NUMBERED = re.compile(r"^Thread (\d+) .*\(LWP (\d+)\)", re.MULTILINE)
SIGNAL = -1


def with_heads(ours: str, theirs: str) -> str:
    """What core_stacks printed, with gdb's heads in place of its own."""
    heads = [f"Thread {place} (LWP {number})" for place, number in sorted((int(place), number) for place, number in NUMBERED.findall(theirs))]
    left = iter(heads)
    return IN_ORDER.sub(lambda head: next(left, "Thread 0 (LWP 0)"), OUTSIDE.sub("", ours))


def threads_of(text: str) -> dict[int, list[int]]:
    """The return addresses of each thread, by its number."""
    found: dict[int, list[int]] = {}
    here: list[int] = []
    for ours, theirs, address, of_gdb, of_signal in LINE.findall(text):
        if ours or theirs:
            here = found.setdefault(int(ours or theirs), [])
        elif of_signal:
            here.append(SIGNAL)
        else:
            here.append(int(address or of_gdb, 16))
    return found


def is_same(ours: list[int], theirs: list[int]) -> bool:
    """Whether two backtraces are the same."""
    return len(ours) == len(theirs) and all(own in (SIGNAL, other) for own, other in zip(ours, theirs))


def shown(addresses: list[int]) -> str:
    """The first addresses of a backtrace."""
    words = ["signal" if address == SIGNAL else f"{address:#x}" for address in addresses[:12]]
    return f"{len(addresses)} frames: {' '.join(words)}"


def main() -> None:
    """Compares."""
    own, other = (pathlib.Path(file).read_text(errors="replace") for file in sys.argv[1:3])
    ours, theirs = threads_of(with_heads(own, other) if IN_ORDER.search(own) else own), threads_of(other)
    same = [number for number in ours if is_same(ours[number], theirs.get(number, []))]
    frames = sum(len(ours[number]) for number in same)
    print(f"{len(same)} of {len(ours)} threads equal, {frames} frames")
    differs = next((number for number in ours if number not in same), None)
    if differs is not None:
        print(f"  LWP {differs}, ours   {shown(ours[differs])}")
        print(f"  LWP {differs}, theirs {shown(theirs.get(differs, []))}")
    sys.exit(0 if differs is None and len(theirs) == len(ours) else 1)


if __name__ == "__main__":
    main()
