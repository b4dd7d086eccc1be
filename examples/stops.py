"""A command of gdb that stops a program of this folder inside a stub or a function of a library.

    gdb -p PID -batch -x ../tools/landings.py -x stops.py -ex "stop_after COUNT PLACE"

The process waits in `wait_here` (stopped.h). It goes on to PLACE, which gdb's `break` takes, and from there by
COUNT instructions.
"""
from __future__ import annotations

import gdb


class StopAfterCommand(gdb.Command):
    """Go on to a place, and from there by COUNT instructions: stop_after COUNT PLACE"""

    def __init__(self) -> None:
        super().__init__("stop_after", gdb.COMMAND_RUNNING)

    def invoke(self, argument: str, from_tty: bool) -> None:
        """Runs the command."""
        count, place = argument.split(maxsplit=1)
        leave_wait()
        go_on_to(place)
        for _ in range(int(count)):
            gdb.execute("stepi", to_string=True)


StopAfterCommand()
