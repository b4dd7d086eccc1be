"""Which memory a thread's stacks take, from what a debugger finds of its frames."""
from __future__ import annotations

from dataclasses import dataclass
from typing import Iterator

from elf_image import Range, Refused

# The psABI lets a function use the 128 bytes below its stack pointer (section 3.2.2), and an
# epilogue leaves the registers that it has restored there.
RED_ZONE = 128

# What the system puts on a stack for a signal's handler, up to the end of the registers and the
# signal's own information: a return address, a ucontext of 304 bytes, a siginfo of 128 bytes.
SIGNAL_FRAME = 512

# Where a frame stands on another stack than its callee, the registers that the callee has saved may
# lie this far below its stack pointer.
SAVED_REGISTERS = 4096


@dataclass(frozen=True)
class StackFrame:
    """A frame's stack pointer, and whether it is what the system made for a signal's handler."""

    pointer: int
    is_signal: bool = False


@dataclass(frozen=True)
class Placed:
    """A frame and the mapping that its stack pointer lies in."""

    frame: StackFrame
    mapping: Range


def mapping_of(pointer: int, mappings: list[Range]) -> Range | None:
    """The mapping that holds a stack pointer."""
    return next((mapping for mapping in mappings if mapping.contains(pointer)), None)


def innermost_mapping(pointer: int, mappings: list[Range]) -> Range:
    """The same or, where the stack has overflowed and nothing holds the pointer, the next one above."""
    above = [mapping for mapping in mappings if mapping.end > pointer]
    if not above:
        raise Refused(f"there is no stack: rsp is {pointer:#x}, and nothing is mapped there or above")
    return min(above)


def placed_frames(frames: list[StackFrame], mappings: list[Range]) -> Iterator[Placed]:
    """The frames with their mappings, up to the first that stands in none."""
    yield Placed(frames[0], innermost_mapping(frames[0].pointer, mappings))
    for frame in frames[1:]:
        mapping = mapping_of(frame.pointer, mappings)
        if mapping is None:
            return
        yield Placed(frame, mapping)


def lowest_address(placed: list[Placed], index: int) -> int:
    """From where on a frame's stack is taken."""
    entered = index > 0 and placed[index - 1].mapping != placed[index].mapping
    by_call = entered and not placed[index - 1].frame.is_signal
    return placed[index].frame.pointer - (SAVED_REGISTERS if by_call else RED_ZONE)


def highest_address(placed: list[Placed], index: int, end: int | None) -> int:
    """Up to where a frame's stack is taken, where its caller doesn't stand above on the same one."""
    here = placed[index]
    if index + 1 == len(placed):
        known = end is not None and here.frame.pointer < end <= here.mapping.end
        return end if known and end is not None else here.mapping.end
    if here.frame.is_signal:
        return here.frame.pointer + SIGNAL_FRAME
    return here.frame.pointer if placed[index + 1].mapping == here.mapping else here.mapping.end


def stack_ranges(frames: list[StackFrame], end: int | None, mappings: list[Range]) -> list[Range]:
    """The parts of stacks that a walk may ask for, that of the innermost frame first.

    `end` is the stack pointer outside of the outermost frame, where it is known that there is no
    further one: what lies above is no frame's, but arguments and environment. Where it isn't known
    the mapping is taken to its end.
    """
    placed = list(placed_frames(frames, mappings))
    if len(placed) < len(frames):
        end = None
    found: dict[Range, Range] = {}
    for index, here in enumerate(placed):
        low, high = lowest_address(placed, index), highest_address(placed, index, end)
        before = found.get(here.mapping, Range(low, high))
        low, high = min(low, before.start), max(high, before.end)
        found[here.mapping] = Range(max(low, here.mapping.start), min(high, here.mapping.end))
    return [place for place in found.values() if place.start < place.end]


def stack_front(pointer: int, size: int, mappings: list[Range]) -> Range:
    """The red zone and so many bytes from the stack pointer on, as profilers copy them."""
    mapping = innermost_mapping(pointer, mappings)
    start = max(pointer - RED_ZONE, mapping.start)
    return Range(start, min(max(pointer, mapping.start) + size, mapping.end))
