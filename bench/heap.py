#!/usr/bin/env python3
"""Tells how much of the heap a part of a program takes at most, by the files of two runs under massif.

    heap.py BEFORE WHOLE   BEFORE is a run that ends where the part begins, WHOLE one with the part

The two runs are the same up to there (massif with --time-unit=i counts instructions), so what WHOLE has at most after that time,
less what BEFORE had there, is the part's. massif looks at times of its own, up to --max-snapshots, so what lasts shorter than
the time between two of them may be missed.
"""
import re
import sys


def snapshots(name: str) -> list[tuple[int, int]]:
    """The time and the size of each snapshot."""
    with open(name) as lines:
        text = lines.read()
    times, sizes = (re.findall(rf"^{word}=(\d+)$", text, re.M) for word in ("time", "mem_heap_B"))
    return [(int(time), int(size)) for time, size in zip(times, sizes)]


def main() -> None:
    if len(sys.argv) != 3:
        sys.exit(__doc__)
    before, whole = (snapshots(name) for name in sys.argv[1:])
    # the last snapshot of a run is of its end
    begin, held = before[-1]
    print(max(size for time, size in whole if time >= begin) - held)


main()
