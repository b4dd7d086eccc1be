"""Has gdb take the libraries of a core from its note NT_FILE, for cores of which it can't read their list.

    gdb -nx -batch -x bench/mapped_libraries.py -ex 'thread apply all bt' PROGRAM CORE

gdb reads the list of libraries from the program's memory, which a core that was cut off may lack. The note stands before the
memory, and gdb prints it (`info proc mappings`). A library is loaded where its first byte was mapped, as linkers give that the
address 0.
"""
from __future__ import annotations

import re

import gdb

FIRST_PART = re.compile(r"^\s*(0x[0-9a-f]+)\s+0x[0-9a-f]+\s+0x[0-9a-f]+\s+0x0\s+(/.*)$", re.MULTILINE)


def is_elf_file(path: str) -> bool:
    """Whether an ELF file is there."""
    try:
        with open(path, "rb") as stream:
            return stream.read(4) == b"\x7fELF"
    except OSError:
        return False


def take_libraries() -> None:
    """Takes each but the program."""
    gdb.execute("set confirm off")
    program = gdb.current_progspace().filename
    for start, path in FIRST_PART.findall(gdb.execute("info proc mappings", to_string=True)):
        if path != program and is_elf_file(path):
            gdb.execute(f"add-symbol-file {path} -o {start}", to_string=True)


take_libraries()
