#!/usr/bin/env python3
"""Prints a row of a table: the backtraces of a process or a core by tools/backtrace.sh, gdb and eu-stack.

    backtraces.py NAME PID [--threads] [--frame-pointers] [--runs N] [--seconds N]
    backtraces.py NAME PROGRAM CORE [--threads] [--runs N] [--seconds N]

The columns are: frames of the machine by each of the three (without functions that were inlined or left by a tail call), whether
all are equal, how many names of functions are those of gdb at the same frame (those that were inlined too), how long the
process stood still by ours and by gdb, and the seconds of the clock and of the processor that each of the three took for its
whole command. A process stands still from the first to the last moment at which /proc/PID/status says that it is traced, looked
at every half millisecond. Each command runs once before, and then N times (3), one after the other in turn, so that all three
meet the same load; the times are medians. One that hasn't ended after so many seconds (60) is ended, and says so.

Lines on standard error tell the first frames that differ, and each name that does. Wants gdb, eu-stack (Debian:
elfutils) and the built programs.
"""
from __future__ import annotations

import os
import re
import signal
import statistics
import subprocess
import sys
import tempfile
import threading
import time
from pathlib import Path
from typing import NamedTuple

HERE = Path(__file__).resolve().parent
sys.path.insert(0, str(HERE.parent / "tools"))

from plain_names import plain_name  # noqa: E402

BACKTRACE = str(HERE.parent / "tools" / "backtrace.sh")
HEAD = re.compile(r"^(?:Thread \d+ \(LWP (\d+)\)|(?:TID|Thread) (\d+)\b)")
# A line of ours or of eu-stack: one with an address begins a frame, one without is of a function that was inlined into the next.
LINE = re.compile(r"^#\d+ +(?:0x([0-9a-f]+) ?(?:- [\d+x]+ )?)?(?:in )?(.*)$")
OF_GDB = re.compile(r"^([#SIT]) 0x([0-9a-f]+) (.*)$")
OF_SIGNAL = "<signal handler called>"
AFTER_NAME = re.compile(r" at \S+:\d+.*$| from /.*$| \(a guess.*$| \(return address.*$")


class Frame(NamedTuple):
    """A frame of the machine: its address, where it is known, and its functions, the innermost first."""

    address: int | None
    names: list[str]


class Run(NamedTuple):
    """What a command printed, the seconds of the clock and of the processor, and how long the process stood still."""

    text: str
    seconds: float
    processor: float
    standing: float
    ended: bool


class Options(NamedTuple):
    """What the words ask for."""

    name: str
    words: list[str]
    threads: bool
    more: list[str]
    runs: int
    seconds: float


# ---- commands


def is_traced(number: str) -> bool:
    """Whether a process is traced now."""
    try:
        with open(f"/proc/{number}/status", encoding="ascii", errors="replace") as stream:
            return any(line.startswith("TracerPid:") and line.split()[1] != "0" for line in stream)
    except OSError:
        return False


def waited(process: subprocess.Popen[bytes], seconds: float) -> tuple[bool, float]:
    """Waits for a command, and answers whether it ended by itself and how long the processor took for it and its own."""
    timer = threading.Timer(seconds, lambda: os.killpg(process.pid, signal.SIGKILL))
    timer.start()
    _, status, used = os.wait4(process.pid, 0)
    timer.cancel()
    process.returncode = status
    return not os.WIFSIGNALED(status), used.ru_utime + used.ru_stime


def timed(words: list[str], options: Options) -> Run:
    """Runs a command, and looks at the process meanwhile."""
    seen: list[float] = []
    ended = threading.Event()

    def look() -> None:
        while not ended.is_set():
            if is_traced(options.words[0]):
                seen.append(time.monotonic())
            time.sleep(0.0005)

    watcher = threading.Thread(target=look)
    if len(options.words) == 1:
        watcher.start()
    with tempfile.TemporaryFile() as printed:
        begin = time.monotonic()
        process = subprocess.Popen(
            words, stdout=printed, stderr=subprocess.DEVNULL, stdin=subprocess.DEVNULL, start_new_session=True
        )
        whole, processor = waited(process, options.seconds)
        seconds = time.monotonic() - begin
        printed.seek(0)
        text = printed.read().decode("utf-8", "replace")
    ended.set()
    if watcher.ident is not None:
        watcher.join()
    return Run(text, seconds, processor, seen[-1] - seen[0] if seen else 0.0, whole)


def commands(options: Options) -> list[list[str]]:
    """Ours, gdb's and eu-stack's."""
    is_core = len(options.words) == 2
    asked = ["--threads"] if options.threads else []
    past = ["-ex", "set backtrace past-main on", "-ex", "set backtrace past-entry on"]
    shown = ["-ex", "thread apply all bt" if options.threads else "bt"]
    of_eu = ["--core", options.words[1], "-e", options.words[0]] if is_core else ["-p", options.words[0]]
    one = [] if options.threads or is_core else ["-1"]
    return [
        [BACKTRACE, *options.words, *asked, *options.more],
        ["gdb", "-nx", "-batch", *past, *shown, *of_gdb(options)],
        ["eu-stack", "-n", "0", *one, *of_eu],
    ]


def of_gdb(options: Options) -> list[str]:
    """The words by which gdb takes the process or the core."""
    return options.words if len(options.words) == 2 else ["-p", options.words[0]]


# ---- frames


def threads_of(text: str) -> dict[int, list[Frame]]:
    """The frames of each thread that ours or eu-stack printed; 0 is the one without a head."""
    found: dict[int, list[Frame]] = {}
    number, inlined = 0, False
    for line in text.splitlines():
        head, match = HEAD.match(line), LINE.match(line)
        if head:
            number, inlined = int(head[1] or head[2]), False
            found[number] = []
        elif match:
            frames = found.setdefault(number, [])
            name = AFTER_NAME.sub("", match[2])
            if match[1] is None and name != OF_SIGNAL and frames:
                frames[-1].names.append(name)
            else:
                frames.append(Frame(int(match[1], 16) if match[1] else None, [name]))
    return found


def threads_by_gdb(text: str) -> dict[int, list[Frame]]:
    """The frames of each thread by `named_frames`."""
    found: dict[int, list[Frame]] = {}
    frames: list[Frame] = []
    inlined: list[str] = []
    for line in text.splitlines():
        head, match = HEAD.match(line), OF_GDB.match(line)
        if head:
            frames, inlined = found.setdefault(int(head[1] or head[2]), []), []
        elif match and match[1] == "I":
            inlined.append(match[3])
        elif match and match[1] in "#S":
            frames.append(Frame(int(match[2], 16), [*inlined, OF_SIGNAL if match[1] == "S" else match[3]]))
            inlined = []
    return found


def keyed(found: dict[int, list[Frame]], first: int) -> dict[int, list[Frame]]:
    """The threads by their numbers: one without a head is the first."""
    return {number or first: frames for number, frames in found.items()}


def difference(ours: list[Frame], theirs: list[Frame]) -> int | None:
    """The first frame that two backtraces don't share. Ours of a signal has no address."""
    for index in range(max(len(ours), len(theirs))):
        own = ours[index] if index < len(ours) else None
        other = theirs[index] if index < len(theirs) else None
        if own is None or other is None or (own.address is not None and own.address != other.address):
            return index
    return None


def shown(frames: list[Frame], index: int) -> str:
    """A frame, or that there is none."""
    if index >= len(frames):
        return "no frame"
    address = frames[index].address
    return f"{'signal' if address is None else hex(address)} in {frames[index].names[-1]}"


def compared(ours: dict[int, list[Frame]], theirs: dict[int, list[Frame]], who: str) -> str:
    """Whether all threads are equal, or how many. A line on standard error tells the first frame of each that isn't."""
    same = 0
    for number, frames in ours.items():
        index = difference(frames, theirs.get(number, []))
        same += index is None
        if index is not None:
            others = theirs.get(number, [])
            print(
                f"  {number}: {who} differs at frame {index} of {len(frames)}: ours {shown(frames, index)}; "
                f"{who} {shown(others, index)}, of {len(others)}", file=sys.stderr,
            )
    return "yes" if same == len(ours) else f"{same} of {len(ours)}" if len(ours) > 1 else "no"


def plain(name: str) -> str:
    """A name without what two tools spell in different ways: parameters, blanks, and that it isn't known."""
    return re.sub(r"\s", "", "??" if NO_NAME.search(name) else plain_name(name))


def last_part(name: str) -> str:
    """The last part of a name, without what compilers and libc put around it for other names of the same function."""
    name = re.sub(r"\{(\{closure\}|closure(_env)?#\d+)\}", "{closure}", name)
    while name != (name := re.sub(r"(?<!operator)(::)?<[^<>]*(?<!-)>", "", name)):
        pass
    return OTHER_NAMES.sub("", name.rpartition("::")[2])


NO_NAME = re.compile(r"\+0x[0-9a-f]+$")
OTHER_NAMES = re.compile(r"^_*(GI_+)?(libc_)?|_impl$|64$")


def names_compared(ours: dict[int, list[Frame]], theirs: dict[int, list[Frame]]) -> str:
    """How many names are gdb's, of those at frames that both have, and how many are of the same function in another spelling.
    Lines on standard error tell the others."""
    same = spelled = total = 0
    for number, frames in ours.items():
        for own, other in zip(frames, theirs.get(number, [])):
            if own.address not in (None, other.address):
                break
            total += len(other.names)
            names = own.names if len(own.names) == len(other.names) else own.names[-1:]
            for one, two in zip(names, other.names[-len(names):]):
                if plain(one) == plain(two):
                    same += 1
                elif last_part(one) == last_part(plain_name(two)):
                    spelled += 1
                else:
                    print(f"  {number}: name {one!r}, gdb {two!r}", file=sys.stderr)
    return f"{same} of {total}" + (f", {spelled} spelled otherwise" if spelled else "")


# ---- the row


def seconds_of(runs: list[Run]) -> str:
    """The median of the clock."""
    return f"{statistics.median(run.seconds for run in runs):.2f}" if runs[-1].ended else f"over {runs[-1].seconds:.0f}"


def read_words(words: list[str]) -> Options:
    """The words."""
    values = {"--runs": "3", "--seconds": "60"}
    left = list(words)
    for option in values:
        if option in left:
            index = left.index(option)
            values[option] = left[index + 1]
            del left[index : index + 2]
    plain_words = [word for word in left if not word.startswith("--")]
    more = [word for word in left if word.startswith("--") and word != "--threads"]
    return Options(
        plain_words[0], plain_words[1:], "--threads" in left, more, int(values["--runs"]), float(values["--seconds"])
    )


def main() -> None:
    """Prints the row."""
    options = read_words(sys.argv[1:])
    all_runs: list[list[Run]] = [[timed(words, options)] for words in commands(options)]
    for _ in range(options.runs):
        for words, runs in zip(commands(options), all_runs):
            if runs[-1].ended:
                runs.append(timed(words, options))
    kept = [runs[1:] or runs for runs in all_runs]
    asked = ["-ex", "named_frames all" if options.threads else "named_frames"]
    machine = timed(["gdb", "-nx", "-batch", *of_gdb(options), "-x", str(HERE / "gdb_frames.py"), *asked], options)
    by_gdb = threads_by_gdb(machine.text)
    first = next(iter(by_gdb), 0)
    ours, by_eu = (keyed(threads_of(kept[index][-1].text), first) for index in (0, 2))
    if not options.threads:
        by_eu = {number: frames for number, frames in by_eu.items() if number in ours}
    print(f"{options.name}:", file=sys.stderr)
    counts = [sum(map(len, threads.values())) for threads in (ours, by_gdb, by_eu)]
    equal = [compared(ours, by_gdb, "gdb"), compared(ours, by_eu, "eu-stack")]
    names = names_compared(ours, by_gdb)
    standing = [statistics.median(run.standing for run in runs) for runs in kept[:2]]
    still = f"{standing[0]:.3f}/{standing[1]:.2f}" if len(options.words) == 1 else "-"
    clock = "/".join(map(seconds_of, kept))
    processor = "/".join(f"{statistics.median(run.processor for run in runs):.2f}" for runs in kept)
    print(
        f"| {options.name} | {' | '.join(map(str, counts))} | {equal[0]}; {equal[1]} | {names} | {still} | {clock} | {processor} |",
        flush=True,
    )


main()
