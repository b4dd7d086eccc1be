#!/usr/bin/env python3
"""Compares the lines of `unwind_cli fold` with gdb's backtraces of the same threads at the same moment.

    compare_folded.py UNWIND_CLI PID [--traced]

gdb attaches once: it takes the snapshot of all threads (`snapshot.py`), and prints `thread apply all bt`, with the frames
above main and the entry point. `join.py --samples` makes the samples, and UNWIND_CLI folds them. Its lines have to be what
gdb's text comes to: each stack once, with the number of threads that have it, in the order of the addresses, and none
refused. The status is 1 where they aren't.

With --traced the samples are those of `process_samples.py`, as profile.sh takes them, and gdb attaches after it: that is for a
process whose threads wait, or that is stopped (kill -STOP).

gdb prints no address of a frame that begins a line of source, nor of a function that was inlined, so the process must be
of a program without debug information; that of libraries isn't asked.
"""
from __future__ import annotations

import re
import subprocess
import sys
import tempfile
from collections import Counter
from pathlib import Path

from elf_image import Refused

TOOLS = Path(__file__).resolve().parent
FRAME = re.compile(r"#(\d+) +(?:0x([0-9a-f]+) in )?")
GDB = ["gdb", "-nx", "-batch", "-iex", "set debug-file-directory"]
ALL_FRAMES = ["-ex", "set backtrace past-main on", "-ex", "set backtrace past-entry on", "-ex", "thread apply all bt"]

Stack = tuple[int, ...]


def stacks_of(text: str) -> list[Stack]:
    """The addresses of each thread of `thread apply all bt`, from the outermost inwards."""
    threads: list[list[int]] = []
    for line in text.splitlines():
        frame = FRAME.match(line)
        if line.startswith("Thread "):
            threads.append([])
        elif frame is not None and threads:
            if frame.group(2) is None:
                raise Refused(f"gdb prints no address of a frame: {line}")
            threads[-1].append(int(frame.group(2), 16))
    return [tuple(reversed(thread)) for thread in threads]


def lines_of(stacks: list[Stack]) -> list[str]:
    """What a report of these stacks has to be, where no address is 0."""
    counts = sorted(Counter(stacks).items())
    return [f"{';'.join(f'{address:#x}' for address in stack)} {count}" for stack, count in counts] + ["refused 0"]


def run_program(words: list[str], **streams: object) -> str:
    """What a program prints. Refuses where it fails."""
    done = subprocess.run(words, capture_output=True, text=True, check=False, **streams)  # type: ignore[call-overload]
    if done.returncode != 0:
        raise Refused(f"{words[0]} has the status {done.returncode}: {(done.stdout + done.stderr).strip()[-200:]}")
    return str(done.stdout)


def taken_traced(process: str, folder: Path) -> tuple[str, Path]:
    """The file of the threads' samples without gdb, and gdb's text of all threads a moment later."""
    samples = folder / "samples.json"
    samples.write_text(run_program([sys.executable, str(TOOLS / "process_samples.py"), process]), encoding="ascii")
    return run_program([*GDB, "-p", process, *ALL_FRAMES], stdin=subprocess.DEVNULL), samples


def taken(process: str, folder: Path) -> tuple[str, Path]:
    """gdb's text of all threads, and the file of their samples."""
    take = ["-ix", str(TOOLS / "snapshot.py"), "-ex", f"snapshot {folder}/taken --threads"]
    text = run_program([*GDB, "-p", process, *take, *ALL_FRAMES], stdin=subprocess.DEVNULL)
    threads = sorted(str(file) for file in (folder / "taken").glob("thread-*.json"))
    samples = folder / "samples.json"
    samples.write_text(run_program([str(TOOLS / "join.py"), "--samples", *threads]), encoding="ascii")
    return text, samples


def differences(report: list[str], wanted: list[str]) -> list[str]:
    """The lines that only one of them has."""
    found = [f"only fold: {line}" for line in report if line not in wanted]
    return found + [f"only gdb:  {line}" for line in wanted if line not in report]


def compare(program: str, process: str, traced: bool) -> bool:
    """Says what is the same, or what differs."""
    with tempfile.TemporaryDirectory() as folder:
        text, samples = (taken_traced if traced else taken)(process, Path(folder))
        stacks = stacks_of(text)
        with open(samples, encoding="ascii") as stream:
            report = run_program([program, "fold"], stdin=stream).splitlines()
    if report != lines_of(stacks):
        print("\n".join(differences(report, lines_of(stacks)) or ["the lines come in another order"]))
        return False
    depths = sorted(map(len, stacks))
    print(
        f"{len(stacks)} threads, {len(set(stacks))} stacks of {depths[0]} to {depths[-1]} frames, {sum(depths)} in all: "
        "the lines are what gdb's backtraces come to"
    )
    return True


def main() -> None:
    """Runs the program."""
    if len(sys.argv) != 3 and sys.argv[3:] != ["--traced"]:
        sys.exit("usage: compare_folded.py UNWIND_CLI PID [--traced]")
    try:
        sys.exit(0 if compare(sys.argv[1], sys.argv[2], len(sys.argv) == 4) else 1)
    except (Refused, OSError, IndexError) as error:
        sys.exit(f"compare_folded.py: {error}")


if __name__ == "__main__":
    main()
