"""A command of gdb that goes on instruction by instruction and takes a snapshot before each.

    gdb -p PID -batch -x ../tools/frames.py -x ../tools/snapshot.py -x steps.py -ex "steps COUNT FOLDER MODULE"

The process waits in `wait_here` (stopped.h). It goes through the ends of its functions and into new
calls, so that prologues and epilogues are met at each of their instructions. FOLDER gets, for each
place in the program itself, N.json and gdb's own frames in N.frames.
"""
from __future__ import annotations

import gdb


SYSTEM_CALL = b"\x0f\x05"


def step_on() -> None:
    """Goes on by one instruction. A system call is passed by, since it would wait again."""
    place = gdb.newest_frame().pc()
    if gdb.selected_inferior().read_memory(place, 2).tobytes() == SYSTEM_CALL:
        gdb.execute("set $rip = $rip + 2")
    else:
        gdb.execute("stepi", to_string=True)


class StepsCommand(gdb.Command):
    """Take a snapshot before each of COUNT instructions: steps COUNT FOLDER MODULE"""

    def __init__(self) -> None:
        super().__init__("steps", gdb.COMMAND_RUNNING)

    def invoke(self, argument: str, from_tty: bool) -> None:
        """Runs the command. Instructions outside of the program are passed by."""
        count, folder, module = gdb.string_to_argv(argument)
        gdb.execute("set $orig_rax = -1")
        for number in range(int(count)):
            if is_in_program(gdb.newest_frame()):
                file = f"{folder}/{number}"
                gdb.execute(f"snapshot {file}.json --limit 64 --frame-tables --module {module}", to_string=True)
                with open(f"{file}.frames", "w", encoding="ascii") as frames:
                    frames.write(gdb.execute("frames --program", to_string=True))
            step_on()
            if gdb.selected_thread() is None:
                break


StepsCommand()
