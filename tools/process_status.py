"""Why a process can't be stopped and read, by what the system says of it in /proc/PID."""
from __future__ import annotations

import os
import pwd

# Why a process may not be traced, by its state in /proc/PID/status, where no memory is its own.
UNTRACED = {"zombie": "it has ended, and waits for its parent (zombie)", "kernel": "it is a thread of the kernel"}

# Where the system says which processes may trace which others (ptrace(2), "/proc/sys/kernel/yama/ptrace_scope").
TRACE_SCOPE = "/proc/sys/kernel/yama/ptrace_scope"
SCOPES = {
    "1": "the system lets a process trace its own children alone",
    "2": "the system lets administrators alone trace processes",
    "3": "the system lets nobody trace processes",
}


def why_no_process(process: int) -> str:
    """Why a process can't be traced."""
    try:
        owner, fields = os.stat(f"/proc/{process}").st_uid, status_of(process)
    except OSError:
        return f"there is no process {process}"
    reason = why_untraced(fields, owner)
    return f"the process {process} may not be traced" + (f": {reason}" if reason else "")


def why_untraced(fields: dict[str, str], owner: int) -> str | None:
    """The same, by the fields of its status and its owner."""
    tracer, state = int(fields.get("TracerPid", "0")), state_of(fields)
    if tracer != 0:
        return f"the process {tracer} traces it"
    if owner != os.geteuid() and os.geteuid() != 0:
        return f"it is {user_name(owner)}'s"
    return UNTRACED.get(state) or why_by_scope()


def why_by_scope() -> str | None:
    """Why nobody but some may trace a process here, where the system says so."""
    try:
        with open(TRACE_SCOPE, encoding="ascii") as stream:
            scope = stream.read().strip()
    except OSError:
        return None
    return f"{SCOPES[scope]} ({TRACE_SCOPE} is {scope})" if scope in SCOPES else None


def state_of(fields: dict[str, str]) -> str:
    """Whether a process has ended, or is the kernel's: such a one has no memory."""
    if fields.get("State", "").startswith("Z"):
        return "zombie"
    return "" if "VmSize" in fields else "kernel"


def status_of(process: int) -> dict[str, str]:
    """The fields of /proc/PID/status."""
    with open(f"/proc/{process}/status", encoding="utf-8", errors="replace") as stream:
        return dict(line.rstrip("\n").split(":\t", 1) for line in stream if ":\t" in line)


def user_name(user: int) -> str:
    """A user's name, or the number where it has none."""
    try:
        return pwd.getpwuid(user).pw_name
    except KeyError:
        return str(user)
