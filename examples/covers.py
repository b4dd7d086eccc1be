#!/usr/bin/env python3
"""Tells whether a snapshot has the memory that a walk over gdb's frames asks for.

    covers.py SNAPSHOT FRAMES

FRAMES is what tools/frames.py prints. The stack pointer of each frame after the first has to lie in a
region, and the return address of each frame that gdb found by one has to stand below the caller's
stack pointer there.
"""
from __future__ import annotations

import os
import re
import sys

sys.path.insert(0, os.path.join(os.path.dirname(os.path.abspath(__file__)), "..", "tools"))

from snapshot_file import Region, read_snapshot, regions_of  # noqa: E402

FRAME = re.compile(r"^frame \d+ ra=(0x[0-9a-f]+) sp=(0x[0-9a-f]+) ")


def word_at(regions: list[Region], address: int) -> int | None:
    """The word at an address."""
    for region in regions:
        if region.start <= address and address + 8 <= region.end:
            return int.from_bytes(region.content[address - region.start :][:8], "little")
    return None


def main() -> None:
    """Prints how many return addresses are in the snapshot. The status is 1 where one is missing."""
    regions = regions_of(read_snapshot(sys.argv[1]))
    with open(sys.argv[2], encoding="ascii") as stream:
        frames = [match.groups() for match in map(FRAME.match, stream) if match]
    callers = [(int(address, 16), int(pointer, 16)) for address, pointer in frames[1:]]
    words = [word_at(regions, pointer - 8) for _, pointer in callers]
    missing = [f"{pointer:#x}" for (_, pointer), word in zip(callers, words) if word is None]
    equal = sum(word == address for (address, _), word in zip(callers, words))
    print(f"{equal} of {len(callers)} callers' addresses in the snapshot, {len(missing)} stack pointers missing")
    sys.exit(1 if missing else 0)


if __name__ == "__main__":
    main()
