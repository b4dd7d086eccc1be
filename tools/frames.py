"""A command of gdb that prints the frames that gdb itself finds, in the form of a walk's report.

    gdb -p PID -batch -x tools/frames.py -ex "frames"

    frames [--program | --outside]

Each line holds what `info registers` shows in that frame. With --program they end with the first
frame that stands outside of the program's own file. With --outside they end with the state outside of
the outermost frame, for which gdb has no frame: where the tables say that a return address isn't
known, a walk goes on to the address 0 and ends there. Functions that were inlined and those that were
left by a tail call have no frame in the machine, and are left out. It is there to compare with: it
reads nothing that tools/snapshot.py or unwind_cli wrote.
"""
from __future__ import annotations

import re
from typing import Iterator

import gdb

# gdb runs each script in one namespace, so these names differ from those of tools/snapshot.py.
SHOWN_REGISTERS = "rbx rbp r12 r13 r14 r15".split()


# gdb makes these up from debug information: they share another frame's registers, or have none.
MADE_UP_FRAMES = (gdb.INLINE_FRAME, gdb.TAILCALL_FRAME)


def frames_outwards() -> Iterator[gdb.Frame]:
    """The selected thread's frames in the machine, those above main and the entry point too."""
    gdb.execute("set backtrace past-main on")
    gdb.execute("set backtrace past-entry on")
    frame = gdb.newest_frame()
    while frame is not None:
        if frame.type() not in MADE_UP_FRAMES:
            yield frame
        frame = frame.older()


def shown_word(frame: gdb.Frame, name: str) -> str:
    """A register as the report spells it, or a dash where gdb doesn't know it."""
    try:
        return f"{int(frame.read_register(name)) % 2**64:#x}"
    except gdb.error:
        return "-"


def frame_line(level: int, frame: gdb.Frame) -> str:
    """The line of a frame."""
    fields = [f"ra={shown_word(frame, 'rip')}", f"sp={shown_word(frame, 'rsp')}"]
    fields += [f"{name}={shown_word(frame, name)}" for name in SHOWN_REGISTERS]
    return f"frame {level} " + " ".join(fields)


POINTER_LINE = re.compile(r"Previous frame's sp is (0x[0-9a-f]+)$")


def outside_line(level: int, frame: gdb.Frame) -> str:
    """The line of the state outside of the outermost frame: its stack pointer is gdb's, and its other
    registers are those of the frame, as long as gdb says of none that it is saved."""
    frame.select()
    text = gdb.execute("info frame", to_string=True).rstrip()
    found = POINTER_LINE.search(text)
    if "Outermost frame: outermost" not in text or found is None:
        raise gdb.GdbError("frames: the outermost frame isn't the one where the tables end")
    fields = frame_line(level, frame).split()
    fields[2:4] = ["ra=0x0", f"sp={found[1]}"]
    return " ".join(fields)


def is_in_program(frame: gdb.Frame) -> bool:
    """Whether the frame stands in the program's own file, and not in a shared library."""
    return gdb.current_progspace().solib_name(frame.pc()) is None


class FramesCommand(gdb.Command):
    """Print each frame's registers in the form of a walk's report: frames [--program | --outside]"""

    def __init__(self) -> None:
        super().__init__("frames", gdb.COMMAND_STACK)

    def invoke(self, argument: str, from_tty: bool) -> None:
        """Prints them."""
        words = gdb.string_to_argv(argument)
        if words not in ([], ["--program"], ["--outside"]):
            raise gdb.GdbError("frames: usage: frames [--program | --outside]")
        if gdb.selected_thread() is None:
            raise gdb.GdbError("frames: no thread is selected")
        for level, frame in enumerate(frames_outwards()):
            print(frame_line(level, frame))
            if words == ["--program"] and not is_in_program(frame):
                break
        if words == ["--outside"]:
            print(outside_line(level + 1, frame))
        print("end")


FramesCommand()
