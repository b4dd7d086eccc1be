"""A command of gdb that prints the frames of threads with their names, for backtraces.py.

    gdb -p PID -batch -x bench/gdb_frames.py -ex "named_frames [all]"

Of each thread, or of the one that is selected, a line `TID NUMBER:`, and then a line for each frame: its kind, the address and
the function's name. The kind is `#` for a frame of the machine, `S` for a signal's, `I` for a function that was inlined into
the frame after it, and `T` for one that was left by a tail call: gdb makes the last two up from debug information.
"""
from __future__ import annotations

import gdb

KINDS = {gdb.INLINE_FRAME: "I", gdb.TAILCALL_FRAME: "T", gdb.SIGTRAMP_FRAME: "S"}


def print_thread(thread: gdb.InferiorThread) -> None:
    """Prints the frames of a thread, up to where gdb finds no caller."""
    thread.switch()
    print(f"TID {thread.ptid[1] or thread.ptid[0]}:")
    frame = gdb.newest_frame()
    try:
        while frame is not None:
            print(KINDS.get(frame.type(), "#"), f"{frame.pc():#x}", frame.name() or "??")
            frame = frame.older()
    except gdb.error as error:
        print(f"end: {error}")


class NamedFramesCommand(gdb.Command):
    """Print the frames of the selected thread, or of all: named_frames [all]"""

    def __init__(self) -> None:
        super().__init__("named_frames", gdb.COMMAND_STACK)

    def invoke(self, argument: str, from_tty: bool) -> None:
        """Prints them."""
        gdb.execute("set backtrace past-main on")
        gdb.execute("set backtrace past-entry on")
        chosen = gdb.selected_thread()
        for thread in reversed(gdb.selected_inferior().threads()) if argument == "all" else [chosen]:
            print_thread(thread)


NamedFramesCommand()
