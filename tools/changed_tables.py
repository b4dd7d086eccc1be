#!/usr/bin/env python3
"""Changes bytes of frame programs at random, and says whether an audit finds each change that changes a row.

    changed_tables.py FILE.. [--changes N] [--seed WORD] [--unwind-cli PROGRAM]

Of each FILE, an ELF file of x86-64, N descriptions (200) are drawn among those whose rows say what the code does at each
instruction that a way leads to. In the program of each a byte that is drawn gets another value that is drawn; the seed says
which. The audit of the file with these changes (audit.py) has to list a difference in exactly those descriptions in which
the row at one of these instructions is another one than before, by frame_programs.py, or is no more there. A program is of its
description alone, so that all changes of a file are audited at once.

A line of a table is printed for each file; a line for each description at which the two don't agree, and the status is then 1.
"""
from __future__ import annotations

import argparse
import bisect
import os
import random
import sys
from typing import NamedTuple

from audit import asked
from claimed_facts import Claimed, claimed_in, tables_of
from code_file import CodeFile
from code_flow import CodeFlow
from elf_image import Refused
from frame_programs import Description, descriptions_of, rows_of, said_by
from frame_table import Table
from thread_reports import built_path
from snapshot_file import Object
from tables import Row, table_of

HEAD = "| File | Changes | change a row | found | change none | found | a row is gone |\n|---|---|---|---|---|---|---|"


class Change(NamedTuple):
    """A byte of a table at its offset, which gets another value, and the number of the description that it is of."""

    owner: int
    offset: int
    value: int


class Counted(NamedTuple):
    """Changes by what they do: whether a row is another one, or gone, and whether the audit finds them."""

    changed: int
    changed_found: int
    same: int
    same_found: int
    gone: int
    disagreeing: list[Change]


def whole_owners(flow: CodeFlow, claims: list[Claimed], amiss: set[int]) -> list[int]:
    """The descriptions at each of whose instructions to which a way leads something is claimed, and nothing is amiss."""
    file, claimed = flow.file, {claim.owner for claim in claims}
    ranges = [(claim.start, claim.end) for claim in claims]
    found = []
    for owner, (first, last) in enumerate(file.bounds):
        if owner not in claimed or owner in amiss or file.descriptions[owner].is_signal:
            continue
        reached = [file.code[place].address for place in range(first, last) if flow.frames[place] is not None]
        places = [bisect.bisect_right(ranges, (address, sys.maxsize)) - 1 for address in reached]
        if all(place >= 0 and address < ranges[place][1] for place, address in zip(places, reached)):
            found.append(owner)
    return found


def drawn(dice: random.Random, table: Table, described: dict[int, Description], owners: list[int], count: int) -> list[Change]:
    """Changes of as many descriptions, each of a byte of its program."""
    changes = []
    for owner in dice.sample([owner for owner in owners if owner in described], count):
        program = described[owner].program
        offset = dice.randrange(program.start, program.end)
        value = dice.choice([value for value in range(256) if value != table.content[offset]])
        changes.append(Change(owner, offset, value))
    return changes


def row_at(rows: list[tuple[int, Row | None]], address: int) -> Row | None:
    """What the row at an address says."""
    place = bisect.bisect_right(rows, address, key=lambda row: row[0]) - 1
    return said_by(rows[place][1]) if place >= 0 else None


def rows_before_and_after(
    flow: CodeFlow, owner: int, tables: tuple[Table, Table], description: Description
) -> list[tuple[Row | None, Row | None]]:
    """The rows at each instruction of a description to which a way leads, by two tables."""
    before, after = (rows_of(table, description) for table in tables)
    first, last = flow.file.bounds[owner]
    reached = [flow.file.code[place] for place in range(first, last) if flow.frames[place] is not None]
    addresses = [address for one in reached for address in (one.address, one.end - 1)]
    return [(row_at(before, address), row_at(after, address)) for address in addresses]


def with_changes(table: Table, changes: list[Change]) -> Table:
    """A table with changes."""
    content = bytearray(table.content)
    for change in changes:
        content[change.offset] = change.value
    return Table(table.address, bytes(content))


def counted(path: str, count: int, seed: str, program: str) -> Counted:
    """Changes a file's table, and counts what is found."""
    flow, table = CodeFlow(CodeFile(path)), table_of(path)
    claims, tables = claimed_in(flow), tables_of(flow.file)
    amiss = {claims[number].owner for number in asked(program, tables, claims).stretches}
    numbers = {start: owner for owner, start in enumerate(flow.file.starts)}
    described = {
        numbers[found.covers.start]: found for found in descriptions_of(table)
        if found.program.start < found.program.end and found.covers.start in numbers
    }
    dice = random.Random(f"{seed} {os.path.basename(path)}")
    changes = drawn(dice, table, described, whole_owners(flow, claims, amiss), count)
    changed = with_changes(table, changes)
    regions: list[Object] = [{**tables["regions"][0], "bytes": changed.content.hex()}, *tables["regions"][1:]]
    found = {claims[number].owner for number in asked(program, tables | {"regions": regions}, claims).stretches}
    return counts_of(flow, changes, (table, changed), described, found)


def counts_of(
    flow: CodeFlow, changes: list[Change], tables: tuple[Table, Table], described: dict[int, Description], found: set[int]
) -> Counted:
    """Counts changes by what they do and whether they are found."""
    numbers, disagreeing = [0, 0, 0, 0, 0], []
    for change in changes:
        rows = rows_before_and_after(flow, change.owner, tables, described[change.owner])
        is_changed, is_found = any(before != after for before, after in rows), change.owner in found
        numbers[0 if is_changed else 2] += 1
        numbers[1 if is_changed else 3] += is_found
        numbers[4] += any(after is None for _before, after in rows)
        if is_changed != is_found:
            disagreeing.append(change)
    return Counted(*numbers, disagreeing)


def main() -> None:
    """Reads the words of the command line."""
    parser = argparse.ArgumentParser(description="whether an audit finds changes of frame programs")
    parser.add_argument("files", nargs="+", metavar="FILE")
    parser.add_argument("--changes", type=int, default=200, metavar="N", help="how many descriptions are changed (200)")
    parser.add_argument("--seed", default="rows", metavar="WORD")
    default = os.environ.get("UNWIND_CLI") or built_path("unwind_cli")
    parser.add_argument("--unwind-cli", metavar="PROGRAM", default=default, help="the built program")
    words = parser.parse_args()
    print(HEAD, flush=True)
    status = 0
    for path in words.files:
        try:
            said = counted(path, words.changes, words.seed, words.unwind_cli)
        except (Refused, OSError) as fault:
            sys.exit(f"{path}: {fault}")
        numbers = (said.changed, said.changed_found, said.same, said.same_found, said.gone)
        print(f"| {os.path.basename(path)} | {words.changes} | " + " | ".join(map(str, numbers)) + " |", flush=True)
        for change in said.disagreeing:
            print(f"  not as the rows say: the byte at {change.offset:#x} set to {change.value:#x}")
            status = 1
    sys.exit(status)


if __name__ == "__main__":
    main()
