#!/usr/bin/env python3
"""Whether `perf_dump` reads a perf.data file as perf does.

    compare_perf.py DUMP FILE ..

DUMP is the built program. Of each FILE what `perf script -D` prints of samples, mappings, names and threads is put in the
form of DUMP's lines, in the order of the file, and the two are compared line by line. It ends with 1 where one
differs.
"""

from __future__ import annotations

import re
import subprocess
import sys
from itertools import zip_longest

NAMES = "AX BX CX DX SI DI BP SP IP FLAGS CS SS DS ES FS GS R8 R9 R10 R11 R12 R13 R14 R15".split()
# perf's numbers of the registers in the order of their columns
COLUMNS = [0, 3, 2, 1, 4, 5, 6, 7, *range(16, 24)]
FORMS = {"32-bit": 1, "64-bit": 2}
KINDS = ("sample ", "mapping ", "comm ", "exec ", "fork ", "exit ")

RAW = re.compile(r"^(0x[0-9a-f]+)@.* \[0x[0-9a-f]+\]: event: \d+$")
BYTES = re.compile(r"^\.  [0-9a-f]{4,}: ((?: [0-9a-f]{2})+)")
RECORD = re.compile(r"^(?:\d+ )?(\d+) (0x[0-9a-f]+) \[0x[0-9a-f]+\]: PERF_RECORD_(\w+)(.*)$")
SAMPLE = re.compile(r"\(.*?\): (\d+/\d+): (0x[0-9a-f]+|0) period")
REGISTERS = re.compile(r"^\.\.\. user regs: mask (0x[0-9a-f]+) ABI (\S+)$")
REGISTER = re.compile(r"^\.\.\.\. (\w+) +(0x[0-9a-f]+)$")
STACK = re.compile(r"^\.\.\. ustack: size (\d+), offset (0x[0-9a-f]+)$")
MAPPING = re.compile(r" (-?\d+/\d+): \[(\S+)\((\S+)\) @ (\S+) (.*)\]: ([-r])([-w])([-x])([ps]) (.*)$")
COMM = re.compile(r"( exec)?: (.*):(-?\d+/-?\d+)$")
TASK = re.compile(r"\((-?\d+):(-?\d+)\):\((-?\d+):(-?\d+)\)$")


def sum_of(part: bytes) -> int:
    """The FNV-1a sum of 64 bits."""
    total = 0xCBF29CE484222325
    for byte in part:
        total = (total ^ byte) * 0x100000001B3 % 2**64
    return total


def hexadecimal(text: str) -> str:
    return hex(int(text, 16))


def mapping_line(text: str) -> str:
    """The line of a mapping that perf prints so."""
    match = MAPPING.match(text)
    assert match, text
    thread, address, size, offset, file, read, write, execute, shared, name = match.groups()
    protection = (read == "r") + 2 * (write == "w") + 4 * (execute == "x")
    if file.startswith("<"):
        told = f"build_id={file.strip('<>')}"
    else:
        device, inode, generation = file.split()
        told = f"device={device} inode={inode} {generation}"
    place = f"{hexadecimal(address)}({hexadecimal(size)}) at {hexadecimal(offset)}"
    return f"mapping thread={thread} {place} {told} protection={protection} {shared} name={name}"


def comm_line(text: str) -> str:
    """The line of a name that perf prints so."""
    match = COMM.match(text)
    assert match, text
    exec_, name, thread = match.groups()
    return f"{'exec' if exec_ else 'comm'} thread={thread} name={name}"


def task_line(kind: str, text: str) -> str:
    """The line of the start or the end of a thread that perf prints so."""
    match = TASK.match(text)
    assert match, text
    process, thread, parent_process, parent = match.groups()
    return f"{kind} thread={process}/{thread} parent={parent_process}/{parent}"


class Sample:
    """A sample, as perf prints it line by line."""

    def __init__(self, time: str, text: str, raw: bytes) -> None:
        match = SAMPLE.match(text)
        assert match, text
        self.head = f"sample ip={hexadecimal(match[2])} thread={match[1]} time={time}"
        self.raw = raw
        self.form = ""
        self.registers: dict[int, int] = {}
        self.stack = b""

    def add(self, line: str) -> None:
        if match := REGISTERS.match(line):
            self.form = f" abi={FORMS[match[2]]} mask={match[1]}"
        elif match := REGISTER.match(line):
            self.registers[NAMES.index(match[1])] = int(match[2], 16)
        elif match := STACK.match(line):
            start = int(match[2], 16) + 8
            self.stack = self.raw[start : start + int(match[1])]

    def line(self) -> str:
        text = self.head
        if self.form:
            words = [f"{number}={word:#x}" for number, word in sorted(self.registers.items())]
            columns = [f"{self.registers.get(number, 0):#x}" for number in COLUMNS]
            text += " ".join([self.form, *words, f"ra={self.registers.get(8, 0):#x}", *columns])
        return f"{text} stack={len(self.stack)} sum={sum_of(self.stack):#x}"


def lines_of_perf(path: str) -> list[str]:
    """What perf prints of a file's records, in the form and the order of the program's lines."""
    command = ["perf", "script", "-D", "--no-inline", "-i", path]
    text = subprocess.run(command, check=True, capture_output=True, text=True, errors="replace").stdout
    raws: dict[int, bytes] = {}
    told: dict[int, str | Sample] = {}
    raw, sample = 0, None
    for line in text.splitlines():
        if match := RAW.match(line):
            raw, sample = int(match[1], 16), None
            raws[raw] = b""
        elif match := BYTES.match(line):
            raws[raw] += bytes.fromhex(match[1])
        elif match := RECORD.match(line):
            time, place, kind, rest = match[1], int(match[2], 16), match[3], match[4]
            sample = None
            if kind == "SAMPLE":
                sample = told[place] = Sample(time, rest, raws[place])
            elif kind == "MMAP2":
                told[place] = mapping_line(rest)
            elif kind == "COMM":
                told[place] = comm_line(rest)
            elif kind in ("FORK", "EXIT"):
                told[place] = task_line(kind.lower(), rest)
        elif sample:
            sample.add(line)
    items = [item for _, item in sorted(told.items())]
    return [item.line() if isinstance(item, Sample) else item for item in items]


def lines_of_program(dump: str, path: str) -> list[str]:
    """The program's lines of samples, mappings, names and threads; of the flags of a mapping only whether it is
    shared, and without the time of a thread's start or end, which perf doesn't print."""
    text = subprocess.run([dump, path], check=True, capture_output=True).stdout.decode("latin-1")
    lines = [line for line in text.splitlines() if line.startswith(KINDS)]
    lines = [re.sub(r"^((?:fork|exit) .*) time=\d+$", r"\1", line) for line in lines]
    return [re.sub(r" flags=(\d+) name=", shared, line, count=1) for line in lines]


def shared(match: re.Match[str]) -> str:
    return f" {'s' if int(match[1]) & 1 else 'p'} name="


def main(dump: str, paths: list[str]) -> int:
    wrong = 0
    for path in paths:
        pairs = list(zip_longest(lines_of_perf(path), lines_of_program(dump, path)))
        differing = [pair for pair in pairs if pair[0] != pair[1]]
        for theirs, ours in differing[:5]:
            print(f"perf: {theirs}\nours: {ours}")
        samples = sum((ours or "").startswith("sample") for _, ours in pairs)
        print(f"{path}: {len(pairs)} records, {samples} of them samples, {len(differing)} differ")
        wrong += len(differing)
    return 1 if wrong else 0


if __name__ == "__main__":
    if len(sys.argv) < 3:
        sys.exit(__doc__)
    sys.exit(main(sys.argv[1], sys.argv[2:]))
