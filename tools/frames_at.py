"""A command of gdb that shows which caller gdb finds at the places where a file's rows are wrong, and which one there is.

    gdb -batch -x tools/frames_at.py -ex "frames-at FILE PLACES FOUND" --args COMMAND..

PLACES is what `tools/audit.sh FILE` prints, or lines that begin alike: `0xSTART-0xEND NAME`. COMMAND is run, and stopped where
it first comes to each place. A line of the file FOUND has what gdb takes for the caller there, and where that isn't the
caller, `not` and the caller, which is the one that gdb finds one instruction or more later, where the place ends. Where the
caller is right and a register of it is wrong, that register is shown so. The last line says how many of the places the
command didn't come to.
"""
from __future__ import annotations

import os
import re
import shlex
from typing import NamedTuple

import gdb

# gdb runs each script in one namespace, so these names differ from those of other scripts.
COMPARED_REGISTERS = "rip rbx rbp r12 r13 r14 r15".split()
MOST_STEPS = 20000
MOST_LETTERS = 80


class WrongPlace(NamedTuple):
    """Addresses of a file, from one up to another, and the function's name."""

    start: int
    end: int
    name: str


class Caller(NamedTuple):
    """A frame as gdb has it: its function, and its registers."""

    name: str
    registers: dict[str, int]


def places_read(path: str) -> list[WrongPlace]:
    """The places of a file of lines."""
    with open(path, encoding="utf-8") as stream:
        lines = [re.match(r"(0x[0-9a-f]+)-(0x[0-9a-f]+) (.*?)(?:: |$)", line.rstrip("\n")) for line in stream]
    return [WrongPlace(int(found[1], 16), int(found[2], 16), found[3]) for found in lines if found]


def load_base(path: str) -> int | None:
    """What was added to the addresses of a file where it is mapped. Files of position-independent code begin at 0."""
    process = gdb.selected_inferior().pid
    if not process:
        return None
    with open(f"/proc/{process}/maps", encoding="utf-8") as stream:
        starts = [int(line.partition("-")[0], 16) for line in stream if line.rstrip("\n").endswith(path)]
    return min(starts, default=None)


def frame_as_caller(frame: gdb.Frame | None) -> Caller:
    """What gdb has of a frame."""
    if frame is None:
        return Caller("no frame", {})
    registers = {name: int(frame.read_register(name)) & (1 << 64) - 1 for name in COMPARED_REGISTERS}
    return Caller(frame.name() or "??", registers)


def caller_now() -> Caller:
    """The caller that gdb finds for the innermost frame of the machine."""
    frame = gdb.newest_frame()
    while frame is not None and frame.type() in (gdb.INLINE_FRAME, gdb.TAILCALL_FRAME):
        frame = frame.older()
    try:
        return frame_as_caller(frame.older() if frame is not None else None)
    except gdb.error as fault:
        return Caller(str(fault), {})


def caller_after(start: int, end: int) -> Caller:
    """The caller that there is, once the code from one address up to another was left."""
    for _step in range(MOST_STEPS):
        counter = int(gdb.selected_frame().read_register("rip"))
        if not start <= counter < end:
            return caller_now()
        text = gdb.selected_frame().architecture().disassemble(counter)[0]["asm"]
        gdb.execute("stepi", to_string=True)
        if re.match(r"(?:repz )?ret", text):
            return frame_as_caller(gdb.newest_frame())
    return Caller("not known", {})


def shown(name: str, caller: Caller) -> str:
    """A register of a caller; of its counter also the function."""
    value = caller.registers.get(name)
    text = "none" if value is None else hex(value)
    called = caller.name if len(caller.name) <= MOST_LETTERS else f"{caller.name[: MOST_LETTERS - 2]}.."
    return f"{text} in {called}" if name == "rip" else f"{name} {text}"


class FramesAt(gdb.Command):
    """Shows the callers that gdb finds at the places where rows are wrong."""

    def __init__(self) -> None:
        super().__init__("frames-at", gdb.COMMAND_STACK)
        self.waiting: dict[int, tuple[WrongPlace, gdb.Breakpoint]] = {}
        self.lines: list[str] = []

    def set_breakpoints(self, path: str, places: list[WrongPlace]) -> None:
        """Stops at each place, once the file is mapped."""
        base = load_base(path)
        if base is None or self.waiting:
            return
        for place in places:
            self.waiting[base + place.start] = place, gdb.Breakpoint(f"*{base + place.start:#x}", internal=True)

    def show(self, address: int) -> None:
        """Prints what is found at a place, and goes on behind it."""
        place, stop = self.waiting.pop(address)
        stop.delete()
        found = caller_now()
        true = caller_after(address, address + place.end - place.start)
        wrong = [name for name in COMPARED_REGISTERS if found.registers.get(name) != true.registers.get(name)]
        name = "rip" if "rip" in wrong or not wrong else wrong[0]
        end = f", not {shown(name, true)}" if wrong else ""
        self.lines.append(f"{place.start:#x}-{place.end:#x} {place.name}: {shown(name, found)}{end}")

    def invoke(self, argument: str, from_tty: bool) -> None:
        """Runs the command."""
        path, listed, output = shlex.split(argument)
        path, places = os.path.realpath(path), places_read(listed)
        gdb.execute("set confirm off")
        gdb.execute("set pagination off")
        gdb.execute("set stop-on-solib-events 1")
        gdb.execute("run", to_string=True)
        while gdb.selected_inferior().pid:
            self.set_breakpoints(path, places)
            if self.waiting:
                gdb.execute("set stop-on-solib-events 0")
            counter = int(gdb.newest_frame().read_register("rip"))
            if counter in self.waiting:
                self.show(counter)
            else:
                gdb.execute("continue", to_string=True)
        self.lines.append(f"places {len(places)}, not come to {len(self.waiting)}")
        with open(output, "w", encoding="utf-8") as stream:
            stream.write("\n".join(self.lines) + "\n")


FramesAt()
