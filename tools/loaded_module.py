"""What a snapshot takes of a loaded ELF file, and how it spells it."""
from __future__ import annotations

import re
from typing import NamedTuple

from elf_image import Range
from snapshot_file import Object

# gdb's name of what the system maps into each process.
SUPPLIED = re.compile(r"^system-supplied DSO at (0x[0-9a-f]+)$")


class Module(NamedTuple):
    """What a snapshot takes of an ELF file, by its addresses in the process."""

    name: str
    bias: int
    build_id: str | None
    code: list[Range]
    frame_table: Range
    header: Range | None
    language_tables: list[Range]
    personality_cells: list[Range]


def taken_line(module: Module, deleted: str) -> str:
    """What is taken of a module."""
    code = ", ".join(str(place) for place in module.code)
    parts = [f"code {code}", f".eh_frame {module.frame_table}"]
    if module.header:
        parts.append(f".eh_frame_hdr {module.header}")
    parts += [f"language tables {place}" for place in module.language_tables]
    if module.personality_cells:
        parts.append(f"cells of personalities: {len(module.personality_cells)}")
    return f"takes {module.name}{deleted}: " + ", ".join(parts)


def module_objects(module: Module) -> list[Object]:
    """The snapshot's modules of a file: one for each executable segment. What a walk doesn't ask for
    is there to name its frames by: `unwind_cli` passes over it."""
    if module.header:
        table = {"eh_frame_hdr": f"{module.header.start:#x}"}
    else:
        table = {"eh_frame": f"{module.frame_table.start:#x}"}
    path = "[vdso]" if SUPPLIED.match(module.name) else module.name
    names = {"path": path, "bias": f"{module.bias:#x}"}
    if module.build_id is not None:
        names["build_id"] = module.build_id
    return [
        {"kind": "elf", "start": f"{code.start:#x}", "end": f"{code.end:#x}"} | table | names for code in module.code
    ]


def places_of(module: Module) -> list[Range]:
    """The memory that a module's tables take."""
    header = [module.header] if module.header else []
    return [module.frame_table, *header, *module.language_tables, *module.personality_cells]
