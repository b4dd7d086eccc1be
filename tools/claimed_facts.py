#!/usr/bin/env python3
"""What is known of a file's code by the machine code alone, as claims for an audit of its frame table (docs/FORMATS.md).

    tools/claimed_facts.py FILE >CLAIMS

FILE is an ELF file of x86-64. The object has the file's .eh_frame and .eh_frame_hdr at the addresses that the file gives
them, one module, and a claim for each range of bytes of one description throughout which the same is known. Of a call's last
byte, at which an unwinder asks while the called function runs, it is claimed what is known then. Where the CFA isn't known,
nothing is claimed, nor of the procedure linkage table, which is entered at more than one depth. Of a register that is saved
twice the slot nearest to the CFA is claimed.

It wants `readelf` and `objdump` (Debian: binutils).
"""
from __future__ import annotations

import json
import sys
from typing import Any, Callable, Iterator, NamedTuple

from code_file import CodeFile
from code_flow import CodeFlow
from elf_image import ElfImage, Refused
from known_frame import CALLEE_SAVED, Frame, in_call
from machine_code import Way
from snapshot_file import Object, Region, region_object
from tables import COLUMNS


class Facts(NamedTuple):
    """What is claimed: how far the CFA is above RSP and RBP, how far below it registers are saved, and which are kept."""

    rsp: int | None
    rbp: int | None
    saved: tuple[tuple[str, int], ...]
    kept: tuple[str, ...]
    outermost: bool

    def __str__(self) -> str:
        cfa = [f"{name}+{distance}" for name, distance in (("rsp", self.rsp), ("rbp", self.rbp)) if distance is not None]
        saved = [f"{name}@{distance}" for name, distance in self.saved]
        end = " outermost" if self.outermost else ""
        return f"cfa {' '.join(cfa)} saved {' '.join(saved) or '-'} kept {' '.join(self.kept) or '-'}{end}"


class Claimed(NamedTuple):
    """Bytes of one description, from an address up to another, throughout which this is known."""

    start: int
    end: int
    owner: int
    facts: Facts


def facts_of(frame: Frame | None) -> Facts | None:
    """What is claimed of a frame, where its CFA is known."""
    if frame is None:
        return None
    rsp, rbp = (found if (found := frame.distance(name)) is not None and found >= 0 else None for name in ("rsp", "rbp"))
    if rsp is None and rbp is None:
        return None
    slots = {name: distance for distance, name in sorted(frame.saved, reverse=True) if distance >= 0}
    saved = tuple((name, slots[name]) for name in CALLEE_SAVED if name in slots)
    return Facts(rsp, rbp, saved, tuple(name for name in CALLEE_SAVED if name in frame.kept), frame.outermost)


def pieces_of(flow: CodeFlow) -> Iterator[Claimed]:
    """Each instruction with what is claimed of it; a call in two pieces, of which the second is its last byte."""
    for place, one in enumerate(flow.file.code):
        frame, owner = flow.frames[place], flow.file.owner[place]
        facts = None if flow.file.is_in_plt(one.address) else facts_of(frame)
        if facts is None or frame is None:
            continue
        called = facts_of(in_call(frame)) if one.way is Way.CALL else facts
        if called == facts:
            yield Claimed(one.address, one.end, owner, facts)
            continue
        yield Claimed(one.address, one.end - 1, owner, facts)
        if called is not None:
            yield Claimed(one.end - 1, one.end, owner, called)


def claimed_in(flow: CodeFlow) -> list[Claimed]:
    """The claims on a file's code, by ascending address."""
    found: list[Claimed] = []
    for piece in pieces_of(flow):
        last = found[-1] if found else None
        if last is not None and (last.end, last.owner, last.facts) == (piece.start, piece.owner, piece.facts):
            found[-1] = last._replace(end=piece.end)
        elif piece.start < piece.end:
            found.append(piece)
    return found


def claim_object(claimed: Claimed) -> Object:
    """A claim as docs/FORMATS.md spells it."""
    facts = claimed.facts
    claim: Object = {"from": hex(claimed.start), "to": hex(claimed.end)}
    claim |= {name: hex(distance) for name, distance in (("rsp", facts.rsp), ("rbp", facts.rbp)) if distance is not None}
    claim |= {"saved": {name: hex(distance) for name, distance in facts.saved}, "kept": list(facts.kept)}
    return claim | {"outermost": True} if facts.outermost else claim


def offset_words(offset: int) -> str:
    """An offset, a word: one from 2^63 on is below 0."""
    return f"+{offset:#x}" if offset < 1 << 63 else f"-{(1 << 64) - offset:#x}"


def claim_words(claim: Object) -> str:
    """What a claim's object says, in the words of a report's line (docs/FORMATS.md)."""
    saved, kept = claim.get("saved", {}), claim.get("kept", [])
    cfa = [f"r{COLUMNS[name]}{offset_words(int(claim[name], 16))}" for name in ("rsp", "rbp") if name in claim]
    parts = [f"cfa {' or '.join(cfa) or 'unknown'}"]
    for name in CALLEE_SAVED:
        found = [f"c{offset_words((1 << 64) - int(saved[name], 16))}"] if name in saved else []
        found += ["same value"] if name in kept else []
        parts.append(f"rule {COLUMNS[name]} {' or '.join(found) or 'unknown'}")
    return ", ".join([*parts, f"rule {COLUMNS['ra']} {'undefined' if claim.get('outermost') else 'c-0x8'}"])


def region_of(elf: ElfImage, name: str) -> Region:
    """A section at its address."""
    section = elf.section(name)
    if section is None:
        raise Refused(f"no {name}")
    return Region(section.address, elf.contents(section))


def tables_of(file: CodeFile) -> dict[str, Any]:
    """The object of a file without claims."""
    with open(file.path, "rb") as stream:
        elf = ElfImage(stream)
        regions = [region_of(elf, name) for name in (".eh_frame", ".eh_frame_hdr")]
    if not file.descriptions:
        raise Refused("its .eh_frame has no description")
    module = {
        "kind": "elf",
        "start": hex(file.starts[0]),
        "end": hex(max(description.covers.end for description in file.descriptions)),
        "eh_frame_hdr": hex(regions[1].start),
    }
    return {"regions": [region_object(region) for region in regions], "modules": [module]}


def claims_of(path: str) -> Object:
    """The object of a file."""
    file = CodeFile(path)
    return tables_of(file) | {"claims": [claim_object(claimed) for claimed in claimed_in(CodeFlow(file))]}


def write_claims(name: str, object_of: Callable[[str], Object]) -> None:
    """Writes the object of the file that the word of the command line names, for a script of this name."""
    if len(sys.argv) != 2:
        sys.exit(f"usage: {name} FILE")
    try:
        json.dump(object_of(sys.argv[1]), sys.stdout, separators=(",", ":"))
    except (Refused, OSError) as fault:
        sys.exit(f"{sys.argv[1]}: {fault}")


if __name__ == "__main__":
    write_claims("claimed_facts.py", claims_of)
