#!/usr/bin/env python3
"""What is known of frames at each instruction of a file's functions by the machine code alone, and whether its rows say it.

    tools/claims.py FILE
    tools/claims.py FILE.. --share [--places]

Each FILE is an ELF file of x86-64. In the first form a line is printed for each instruction of each function that has a
description in .eh_frame: its address, where the CFA is, which registers of the caller are saved and how far below the CFA,
and which still hold their values in the caller; `unknown` where the CFA isn't known, and `unreached` where no way leads.

In the second form a line of a table is printed for each file: how many of the calls and of the instruction addresses are in
reach, which is where the row at the address says what is known there. With --places follow the places where a row says
otherwise, each with what the row says and what is known. The last column counts instructions outside of all descriptions.

It wants `readelf` and `objdump` (Debian: binutils).
"""
from __future__ import annotations

import argparse
import re
import sys
from collections import Counter
from typing import NamedTuple

from code_file import CodeFile
from code_flow import CodeFlow
from elf_image import Refused
from fact_rows import fault as row_fault
from known_frame import Frame, in_call
from machine_code import Way
from tables import COLUMNS, Row

HEAD = "| File | Descriptions | Calls | in reach | % | Addresses | padding | in reach | % | % without padding | outside |"

# Kinds of addresses at which a row says nothing that is known to be otherwise.
QUIET = frozenset(
    ("in reach", "padding", "unreached", "PLT", "signal", "CFA isn't known", "CFA by an expression")
    + ("CFA by another register",)
)


class Place(NamedTuple):
    """Instructions one after another at which the same is amiss."""

    start: int
    end: int
    count: int
    fault: str
    row: str
    known: str


class Share(NamedTuple):
    """What was counted of a file: by kind, of calls and of instruction addresses; and where rows say otherwise."""

    calls: Counter[str]
    addresses: Counter[str]
    places: list[Place]


def kind_at(flow: CodeFlow, place: int, frame: Frame | None, address: int) -> str:
    """Whether an address is in reach, or why not: `in reach`, `padding`, `unreached`, `PLT`, `signal`, or a fault."""
    file = flow.file
    description = file.descriptions[file.owner[place]]
    if description.is_signal:
        return "signal"
    if file.is_in_plt(address):
        return "PLT"
    if frame is None:
        return "padding" if file.code[place].is_padding else "unreached"
    row = description.row(address)
    return "no row" if row is None else row_fault(frame, row) or "in reach"


def row_text(row: Row | None) -> str:
    """A row in words: the registers by their names."""
    named = {f"r{column}": name for name, column in COLUMNS.items()}
    words = " ".join(f"{column}={rule}" for column, rule in (row or {}).items() if column != "arguments")
    return re.sub(r"\br\d+\b", lambda found: named.get(found[0], found[0]), words)


def places_of(flow: CodeFlow, kinds: list[str]) -> list[Place]:
    """Where rows say otherwise than is known, in stretches, each with the row and what is known at its start."""
    file, found = flow.file, list[Place]()
    for place, kind in enumerate(kinds):
        one = file.code[place]
        if kind in QUIET:
            continue
        if found and found[-1].fault == kind and found[-1].end == one.address:
            found[-1] = found[-1]._replace(end=one.end, count=found[-1].count + 1)
        else:
            row = row_text(file.descriptions[file.owner[place]].row(one.address))
            found.append(Place(one.address, one.end, 1, kind, row, str(flow.frames[place])))
    return found


def share_of(flow: CodeFlow) -> Share:
    """Counts a file. Of a call it is asked what is known while it runs, at its last byte."""
    file, calls, kinds = flow.file, Counter[str](), []
    for place, one in enumerate(file.code):
        frame = flow.frames[place]
        kinds.append(kind_at(flow, place, frame, one.address))
        if one.way is Way.CALL:
            calls[kind_at(flow, place, None if frame is None else in_call(frame), one.end - 1)] += 1
    return Share(calls, Counter(kinds), places_of(flow, kinds))


def percent(part: int, whole: int) -> str:
    """A share in percent, cut off and not rounded, so that 100 says all."""
    return f"{10_000 * part // max(whole, 1) / 100:.2f}"


def line_of(name: str, file: CodeFile, share: Share) -> str:
    """A file's line of the table."""
    calls, addresses = share.calls.total(), share.addresses.total()
    padding, called, found = share.addresses["padding"], share.calls["in reach"], share.addresses["in reach"]
    return (
        f"| {name} | {len(file.descriptions):,} | {calls:,} | {called:,} | {percent(called, calls)} | {addresses:,} | "
        f"{padding:,} | {found:,} | {percent(found, addresses)} | {percent(found, addresses - padding)} | "
        f"{file.outside:,} |"
    )


def print_share(path: str, with_places: bool) -> None:
    """Prints a file's line, why the rest isn't in reach, and the places where rows say otherwise."""
    flow = CodeFlow(CodeFile(path))
    share = share_of(flow)
    print(line_of(path.rpartition("/")[2], flow.file, share), flush=True)
    if with_places:
        for what, counted in (("calls", share.calls), ("addresses", share.addresses)):
            print(f"  {what}: " + ", ".join(f"{kind} {count:,}" for kind, count in counted.most_common()))
        print(f"  calls taken not to return since depths differ: {len(flow.doubted)}")
        for place in share.places:
            print(f"  {place.start:#x}-{place.end:#x} ({place.count}) {place.fault}: {place.row}; known: {place.known}")


def print_facts(path: str) -> None:
    """Prints what is known at each instruction."""
    flow = CodeFlow(CodeFile(path))
    for one, frame in zip(flow.file.code, flow.frames):
        print(f"{one.address:#x} {'unreached' if frame is None else frame}  ; {one.text}")


def main() -> None:
    """Reads the words of the command line."""
    parser = argparse.ArgumentParser(description="what is known of frames by machine code, and whether rows say it")
    parser.add_argument("files", nargs="+", metavar="FILE")
    parser.add_argument("--share", action="store_true", help="count the calls and addresses in reach")
    parser.add_argument("--places", action="store_true", help="list where rows say otherwise")
    words = parser.parse_args()
    if words.share:
        print(HEAD + "\n" + "|---" * 11 + "|")
    for path in words.files:
        try:
            print_share(path, words.places) if words.share else print_facts(path)
        except (Refused, OSError) as fault:
            sys.exit(f"{path}: {fault}")


if __name__ == "__main__":
    main()
