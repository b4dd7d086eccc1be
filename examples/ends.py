#!/usr/bin/env python3
"""Tries how far the program `backtrace` comes, and what it says of the end, where a stack can't be walked whole.

    ends.py BACKTRACE        the built program: ../crates/backtrace/out/backtrace

It builds small programs in out/, stops them under gdb, and takes snapshots by tools/snapshot.py: after a call
through a null and a wild pointer, with the stack cut, in a function without a frame table, in a program
linked with musl (Debian: musl-tools). Other snapshots are changed: an entry of the frame table is damaged, a
saved frame pointer leads back to itself, and of a function that was stopped at its return, after it popped
registers, the stack is cut below its stack pointer. Of each it prints the backtrace, and compares its
addresses with gdb's where gdb comes as far. The status is 1 where one isn't as it has to be.
"""
from __future__ import annotations

import json
import os
import re
import subprocess
import sys
from dataclasses import dataclass
from typing import Any, Callable

HERE = os.path.dirname(os.path.abspath(__file__))
OUT = os.path.join(HERE, "out")
SNAPSHOT = os.path.join(HERE, "..", "tools", "snapshot.py")
LINE = re.compile(r"^#(\d+) +0x([0-9a-f]+)\b")

Object = dict[str, Any]


@dataclass(frozen=True)
class Trial:
    """A program to stop, how its snapshot is taken and changed, and what is expected of the backtrace."""

    title: str
    build: list[list[str]]
    program: list[str]
    end: str
    stop: list[str]
    options: str = ""
    change: Callable[[Object], None] | None = None
    frames: int | None = None
    # fewer frames than gdb has, which goes on by reading code or memory that the snapshot lacks
    front: bool = False
    guessed: bool = False
    popped: bool = False


def built(source: str, name: str, *options: str, compiler: str = "gcc") -> list[str]:
    """The words that build a program without debug information."""
    return [compiler, "-O0", "-fno-pie", "-no-pie", *options, "-o", f"{OUT}/{name}", f"{HERE}/{source}"]


def word_at(snapshot: Object, address: int, value: int | None = None) -> int:
    """The word at an address of a snapshot, which a value replaces."""
    for region in snapshot["regions"]:
        start, text = int(region["address"], 16), region["bytes"]
        if start <= address and address + 8 <= start + len(text) // 2:
            place = 2 * (address - start)
            found = int.from_bytes(bytes.fromhex(text[place : place + 16]), "little")
            if value is not None:
                region["bytes"] = text[:place] + value.to_bytes(8, "little").hex() + text[place + 16 :]
            return found
    raise LookupError(hex(address))


def loop_stack(snapshot: Object) -> None:
    """Makes the frame pointer that the innermost function's caller saved lead back to itself."""
    frame = word_at(snapshot, int(snapshot["start"]["rbp"], 16))
    word_at(snapshot, frame, frame)


def table_of_start(snapshot: Object) -> tuple[Object, int]:
    """The region with the frame table of the module that the start lies in, and where in its text it begins."""
    address = int(snapshot["start"]["rip"], 16)
    for module in snapshot["modules"]:
        if int(module["start"], 16) <= address < int(module["end"], 16):
            table = int(module["eh_frame"], 16)
            for region in snapshot["regions"]:
                start = int(region["address"], 16)
                if start <= table < start + len(region["bytes"]) // 2:
                    return region, 2 * (table - start)
    raise LookupError(hex(address))


def damage_table(snapshot: Object) -> None:
    """Gives the frame table's first entry, a CIE, a version that no standard has."""
    region, place = table_of_start(snapshot)
    region["bytes"] = region["bytes"][: place + 16] + "63" + region["bytes"][place + 18 :]


def damage_program(snapshot: Object) -> None:
    """Makes the first instruction of the frame table's first entry, a CIE, an unknown one, 0x3f.

    It is that of the start code, so that the walk comes as far as the outermost frame.
    """
    region, place = table_of_start(snapshot)
    assert region["bytes"][place + 34 : place + 36] == "0c", "a CIE of another form"
    region["bytes"] = region["bytes"][: place + 34] + "3f" + region["bytes"][place + 36 :]


def cut_below(snapshot: Object) -> None:
    """Takes away what lies below the stack pointer, as where a copy of the stack begins there."""
    pointer = int(snapshot["start"]["rsp"], 16)
    for region in snapshot["regions"]:
        below = pointer - int(region["address"], 16)
        if 0 <= below < len(region["bytes"]) // 2:
            region["address"], region["bytes"] = hex(pointer), region["bytes"][2 * below :]


RUN_TO_SIGNAL = ["-ex", "run"]
# From a function's first instruction on over its calls, up to its return.
TO_RETURN = (
    "python [gdb.execute('nexti', to_string=True) for _ in iter(lambda: gdb.selected_frame().architecture()"
    ".disassemble(gdb.selected_frame().pc())[0]['asm'].startswith('ret'), True)]"
)


def run_to(function: str) -> list[str]:
    """gdb's words that stop a program after the prologue of a function."""
    return ["-ex", f"break {function}", "-ex", "run"]


NESTED = [built("nested.c", "ends-nested")]
NULL_CALL = [built("null_call.c", "ends-null_call")]
BARE = [
    ["gcc", "-O0", "-c", "-DBARE", "-fno-asynchronous-unwind-tables", "-o", f"{OUT}/ends-bare.o", f"{HERE}/no_tables.c"],
    built("no_tables.c", "ends-no_tables", f"{OUT}/ends-bare.o"),
]
LAYOUTS = [
    ["gcc", "-O2", "-fno-pie", "-no-pie", "-static", "-nostdlib", "-fcf-protection=none", "-fno-stack-protector",
     "-o", f"{OUT}/ends-layouts", "/usr/lib/x86_64-linux-gnu/crt1.o", f"{HERE}/frame_layouts.c"],
]
MUSL = [built("nested.c", "ends-musl", "-static", compiler="musl-gcc")]

TRIALS = [
    Trial("a call through a null pointer", NULL_CALL, ["ends-null_call"], "the outermost frame", RUN_TO_SIGNAL, guessed=True),
    Trial("a call through a wild pointer", NULL_CALL, ["ends-null_call", "wild"], "the outermost frame", RUN_TO_SIGNAL, guessed=True),
    Trial("a cut stack", NESTED, ["ends-nested"], "unmapped", run_to("innermost"), options="--stack-bytes 256", front=True),
    Trial("a function without a table", BARE, ["ends-no_tables"], "no description of", run_to("stop_in"), frames=2),
    Trial("a damaged entry", NESTED, ["ends-nested"], "UnknownVersion", run_to("innermost"), change=damage_table, frames=1),
    Trial("a damaged program of an entry", NESTED, ["ends-nested"], "UnknownInstruction", run_to("innermost"), change=damage_program),
    Trial("a stack that loops", NESTED, ["ends-nested"], "more frames than the limit", run_to("innermost"), options="--limit 8", change=loop_stack, frames=8),
    Trial("a return after pops", LAYOUTS, ["ends-layouts"], "the outermost frame", [*run_to("*sums"), "-ex", TO_RETURN], change=cut_below, popped=True),
    Trial("a program with musl", MUSL, ["ends-musl"], "no description of", run_to("innermost"), front=True),
]


def take(trial: Trial, path: str) -> list[int]:
    """Takes the snapshot, and answers the addresses of gdb's frames."""
    name, *words = trial.program
    gdb = ["gdb", "-nx", "-batch", "-ex", "set breakpoint pending on", "-ix", SNAPSHOT, *trial.stop]
    bounds = ["-ex", "set backtrace past-main on", "-ex", "set backtrace past-entry on"]
    # The trials damage frame tables, which a search by a header would pass by.
    shown = ["-ex", f"snapshot {path} --frame-tables {trial.options}", "-ex", "bt -frame-info location-and-address"]
    done = subprocess.run([*gdb, *bounds, *shown, "--args", f"{OUT}/{name}", *words], capture_output=True, text=True, check=False)
    if not os.path.exists(path):
        sys.exit(f"ends.py: no snapshot of {name}: {done.stdout[-400:]} {done.stderr[-400:]}")
    return addresses_of(done.stdout)


def addresses_of(text: str) -> list[int]:
    """The addresses of the frames of a backtrace, the last one that the text has."""
    found: list[int] = []
    for match in filter(None, map(LINE.match, text.splitlines())):
        if match.group(1) == "0":
            found = []
        found.append(int(match.group(2), 16))
    return found


def tried(trial: Trial, backtrace: str) -> bool:
    """Makes the trial, and prints what came of it."""
    for words in trial.build:
        subprocess.run(words, check=True)
    path = f"{OUT}/{trial.program[0]}.json"
    if os.path.exists(path):
        os.remove(path)
    expected = take(trial, path)
    with open(path, encoding="ascii") as stream:
        snapshot = json.load(stream)
    if trial.change is not None:
        trial.change(snapshot)
    done = subprocess.run([backtrace], input=json.dumps(snapshot), capture_output=True, text=True, check=False)
    *frames, end = done.stdout.splitlines() or [""]
    addresses = addresses_of(done.stdout)
    as_expected = {
        "status 0": done.returncode == 0,
        "the end": end.startswith("end: ") and trial.end in end,
        "the number of frames": 1 < len(frames) < len(expected)
        if trial.front
        else len(frames) == (trial.frames or len(expected)),
        "the mark": ["(return address on the stack)" in line for line in frames[1:2]] == [trial.guessed] or len(frames) < 2,
        "the mark of popped registers": ["(popped registers kept)" in line for line in frames[:1]] == [trial.popped],
        "gdb's addresses": trial.change is loop_stack or addresses == expected[: len(addresses)],
    }
    wrong = [what for what, right in as_expected.items() if not right]
    print(f"{trial.title}: {'as expected' if not wrong else 'wrong: ' + ', '.join(wrong)}; gdb has {len(expected)} frames")
    print("".join(f"    {line}\n" for line in done.stdout.splitlines()))
    return not wrong


def main() -> None:
    """Makes all trials."""
    os.makedirs(OUT, exist_ok=True)
    results = [tried(trial, sys.argv[1]) for trial in TRIALS]
    sys.exit(0 if all(results) else 1)


if __name__ == "__main__":
    main()
