#!/usr/bin/env python3
"""Compares frame tables of real files with what readelf says of them.

    tools/tables.py FILE..
    tools/tables.py --printed PRINTED FILE
    tools/tables.py --keep FOLDER FILE[:LINES]..

Each FILE is an ELF file of x86-64 with an .eh_frame section. In the first form the program frame_dump
of this repository prints each table: its entries, of each description's rows what they say otherwise
than the row before, and how many lines these are and a sum of them. Each entry has to be printed as
`readelf --debug-dump=frames-interp` and `--debug-dump=frames` say, and in that order. One line is
printed for a file, and the first differences, if there are any; the status is then 1. In the second
form PRINTED holds what frame_dump printed of the table of FILE.

In the third form nothing is compared: the tables are written to FOLDER/data, with the words that
frame_dump is given to FOLDER/args and what it has to print to FOLDER/stdout, made of what readelf says
alone: the first LINES lines of each table, and the sum of all. (The pointers to personalities and
language tables, of which readelf prints the bytes, are read by frame_table.py beside this file.)

readelf prints a column without a rule as one that is undefined: so only where it says that of the
return address, which has a rule from the beginning on, it is taken as a rule. Of rules by expression it
prints that they are such, and not which. It wants `readelf`, and in the first form `rt`.
"""
from __future__ import annotations

import argparse
import bisect
import pathlib
import re
import subprocess
import sys
import tempfile
from dataclasses import dataclass, field
from typing import Iterator

from elf_image import WORD, ElfImage, Range
from frame_table import (
    INDIRECT, OMITTED, CommonEntry, Table, common_entries, encoded_pointer, encoded_size, uleb128,
)

PROGRAM = pathlib.Path(__file__).resolve().parent.parent / "crates" / "frame_dump"

# More than any table has.
ALL_LINES = 2**32

# System V x86-64 psABI, figure 3.36
NAMES = "rax rdx rcx rbx rsi rdi rbp rsp r8 r9 r10 r11 r12 r13 r14 r15 rip".split()
COLUMNS = {name: column for column, name in enumerate(NAMES)}
COLUMNS["ra"] = COLUMNS["rip"]

HEAD = re.compile(
    r'^([0-9a-f]{8,16}) ([0-9a-f]{16}) \S+ (?:CIE(?: "(.*)" cf=\d+ df=-?\d+ ra=\d+)?'
    r"|FDE cie=([0-9a-f]+) pc=([0-9a-f]+)\.\.([0-9a-f]+))$"
)
ROW = re.compile(r"^[0-9a-f]{16} ")
FACT = re.compile(r"^  ([A-Z][a-z ]+): +(.*)$")
LOCATION = re.compile(r"^  DW_CFA_(?:advance_loc|set_loc)\w*: .*?([0-9a-f]{16})$")
ARGUMENTS = re.compile(r"^  DW_CFA_GNU_args_size: (\d+)$")

Row = dict[str, str]


@dataclass
class Entry:
    """What readelf says of an entry: words of its first line, facts and rows.

    `covers` is what a description covers, and `common` the offset of its common information entry. A
    common information entry has neither. `arguments` has the sizes of arguments by their addresses.
    """

    offset: int
    size: int
    common: int | None = None
    covers: Range = Range(0, 0)
    facts: dict[str, str] = field(default_factory=dict)
    rows: list[tuple[int, Row]] = field(default_factory=list)
    arguments: list[tuple[int, int]] = field(default_factory=list)


# ---- what readelf says


def readelf(file: str, option: str) -> list[str]:
    """The lines that readelf prints of a file's own .eh_frame."""
    text = subprocess.run(
        ["readelf", "--wide", f"--debug-dump={option}", "--debug-dump=no-follow-links", file],
        check=True, capture_output=True, text=True,
    ).stdout
    parts = re.split(r"^Contents of the (\S+) section.*:$", text, flags=re.MULTILINE)
    contents: dict[str, str] = dict(zip(parts[1::2], parts[2::2]))
    return contents[".eh_frame"].splitlines()


def entry_of(found: re.Match[str]) -> Entry:
    """The entry that a line begins."""
    offset, length, _letters, common, start, end = found.groups()
    entry = Entry(int(offset, 16), int(length, 16) + 4)
    if common is not None:
        entry.common, entry.covers = int(common, 16), Range(int(start, 16), int(end, 16))
    return entry


def row_of(columns: list[str], words: list[str]) -> Row:
    """What a row says, by the words that frame_dump has for columns and rules."""
    cfa, *rules = words
    row = {"cfa": cfa_of(cfa)}
    for column, rule in zip(columns, rules):
        if rule != "u" or column == "ra":
            row[f"r{column_of(column)}"] = rule_of(rule)
    return row


def column_of(name: str) -> int:
    """The column of a register by readelf's name."""
    return COLUMNS[name] if name in COLUMNS else int(name.removeprefix("r"))


def rule_of(text: str) -> str:
    """A rule as frame_dump writes it: a register by its column."""
    return f"r{column_of(text)}" if text in COLUMNS else text


def cfa_of(text: str) -> str:
    """The CFA's rule as frame_dump writes it."""
    found = re.match(r"^([a-z0-9]+)([+-]\d+)$", text)
    return f"r{column_of(found[1])}{found[2]}" if found else text


def read_rows(lines: list[str]) -> list[Entry]:
    """The entries with their rows, of what `frames-interp` prints."""
    entries: list[Entry] = []
    columns: list[str] = []
    for line in lines:
        if found := HEAD.match(line):
            entries.append(entry_of(found))
        elif line.split()[:1] == ["LOC"]:
            columns = line.split()[2:]
        elif ROW.match(line):
            address, *words = re.sub(r"(r\d+) \(\w+\)", r"\1", line).split()
            entries[-1].rows.append((int(address, 16), row_of(columns, words)))
    return entries


def read_facts(lines: list[str]) -> dict[int, Entry]:
    """The entries by their offsets with their facts and sizes of arguments, of what `frames` prints."""
    entries: dict[int, Entry] = {}
    entry, address = Entry(0, 0), 0
    for line in lines:
        if found := HEAD.match(line):
            entry = entry_of(found)
            entries[entry.offset], address = entry, entry.covers.start
        elif found := FACT.match(line):
            entry.facts[found[1]] = found[2]
        elif found := LOCATION.match(line):
            address = int(found[1], 16)
        elif found := ARGUMENTS.match(line):
            entry.arguments.append((address, int(found[1])))
    return entries


def entries_of(file: str) -> list[Entry]:
    """All that readelf says of a file's entries."""
    facts = read_facts(readelf(file, "frames"))
    entries = read_rows(readelf(file, "frames-interp"))
    for entry in entries:
        entry.facts, entry.arguments = facts[entry.offset].facts, facts[entry.offset].arguments
    return entries


# ---- as frame_dump prints it


def pointer_in(text: str, table: Table, place: int, encoding: int) -> str:
    """A pointer in a table as a word of a line, and nothing for one that isn't there or is 0."""
    if encoding == OMITTED or not any(table.content[place:place + encoded_size(encoding)]):
        return ""
    address = encoded_pointer(table, place, encoding & ~INDIRECT)
    return f" {text}=" + (f"[{address:#x}]" if encoding & INDIRECT else f"{address:#x}")


def common_line(table: Table, entry: Entry, common: CommonEntry) -> str:
    """The line of a common information entry."""
    facts = entry.facts
    numbers = (
        f"version={facts['Version']} code={facts['Code alignment factor']} "
        f"data={facts['Data alignment factor']} return=r{facts['Return address column']}"
    )
    encoding, place = common.personality or (OMITTED, 0)
    personality = pointer_in("personality", table, place, encoding)
    return f"{entry.offset:#x} cie {numbers} {facts['Augmentation']}{personality}"


def description_line(table: Table, entry: Entry, common: CommonEntry) -> str:
    """The line of a description, whose augmentation follows its two addresses."""
    covers, offset = entry.covers, entry.offset
    place = offset + 8 + 2 * encoded_size(common.address_encoding)
    _length, place = uleb128(table.content, place)
    lsda = pointer_in("lsda", table, place, common.language_table)
    return f"{offset:#x} fde cie={entry.common:#x} start={covers.start:#x} len={covers.end - covers.start:#x}{lsda}"


def with_arguments(entry: Entry, common: Entry) -> Iterator[tuple[int, Row]]:
    """The rows of a description, each with the size of the arguments, which begins one as well."""
    rows = entry.rows or [(entry.covers.start, row) for _address, row in common.rows[-1:]]
    starts = [address for address, _row in rows]
    sizes = [(entry.covers.start, 0), *entry.arguments]
    for address in sorted({*starts, *(address for address, _size in entry.arguments)}):
        row = rows[bisect.bisect_right(starts, address) - 1][1]
        size = [size for start, size in sizes if start <= address][-1]
        if entry.covers.contains(address):
            yield address, row | {"arguments": f"{size:#x}"}


def changes(before: Row, row: Row) -> str:
    """What a row says otherwise than the one before it, as words of a line."""
    registers = sorted((name for name in row if name[0] == "r"), key=lambda name: int(name[1:]))
    gone = sorted((name for name in before.keys() - row.keys()), key=lambda name: int(name[1:]))
    said = [f" {name}={row[name]}" for name in ("cfa", *registers) if before.get(name) != row[name]]
    said += [f" {name}=-" for name in gone]
    if before["arguments"] != row["arguments"]:
        said.append(f" arguments={row['arguments']}")
    return "".join(said)


def row_lines(entry: Entry, common: Entry) -> Iterator[str]:
    """A line for each row that differs from the one before it. Of several at an address the last counts."""
    before: Row = {"cfa": "", "arguments": "0x0"}
    for address, row in dict(with_arguments(entry, common)).items():
        if said := changes(before, row):
            yield f"  {address:#x}{said}"
        before = row


def blocks(table: Table, entries: list[Entry]) -> Iterator[list[str]]:
    """The lines of each entry."""
    commons = {entry.offset: entry for entry in entries if entry.common is None}
    encodings = common_entries(table)
    for entry in entries:
        if entry.common is None:
            yield [common_line(table, entry, encodings[entry.offset])]
        else:
            first = description_line(table, entry, encodings[entry.common])
            yield [first, *row_lines(entry, commons[entry.common])]


def sum_of(content: bytes) -> int:
    """The sum of bytes, by FNV-1a of 64 bits."""
    total = 0xCBF29CE484222325
    for byte in content:
        total = (total ^ byte) * 0x100000001B3 % WORD
    return total


def listing(table: Table, entries: list[Entry], most: int) -> list[str]:
    """What frame_dump prints of a table: the first lines, and the end with the sum of all."""
    lines = [line for block in blocks(table, entries) for line in block]
    total = sum_of("".join(f"{line}\n" for line in lines).encode())
    end = entries[-1].offset + entries[-1].size if entries else 0
    return lines[:most] + [f"{end:#x} end lines={len(lines)} sum={total:#x}"]


# ---- comparing


def table_of(file: str) -> Table:
    """A file's .eh_frame."""
    with open(file, "rb") as stream:
        elf = ElfImage(stream)
        section, place = elf.section(".eh_frame"), elf.section_range(".eh_frame", 0)
        if section is None or place is None:
            sys.exit(f"{file}: it has no .eh_frame")
        return Table(place.start, elf.contents(section))


def printed(table: Table) -> list[str]:
    """What frame_dump prints of a table."""
    with tempfile.NamedTemporaryFile() as copy:
        copy.write(table.content)
        copy.flush()
        return subprocess.run(
            ["rt", "run", "--", f"{table.address:x}", copy.name, str(ALL_LINES)],
            cwd=PROGRAM, check=True, capture_output=True, text=True,
        ).stdout.splitlines()


def printed_blocks(lines: list[str]) -> list[list[str]]:
    """Printed lines by their entries."""
    found: list[list[str]] = []
    for line in lines:
        if line.startswith("  "):
            found[-1].append(line)
        else:
            found.append([line])
    return found


def differences(ours: list[list[str]], theirs: list[list[str]]) -> Iterator[str]:
    """Where the entries or their rows aren't the same."""
    if len(ours) != len(theirs):
        yield f"{len(ours)} entries, and readelf has {len(theirs)}"
    for own, other in zip(ours, theirs):
        if own != other:
            pairs = [(a, b) for a, b in zip(own, other) if a != b]
            own_line, other_line = pairs[0] if pairs else (f"{len(own) - 1} rows", f"{len(other) - 1} rows")
            yield f"{other[0]}: {own_line}, and readelf has {other_line}"


def is_same(file: str, lines: list[str] | None) -> bool:
    """Compares a file's table, and prints the line of the file and the first differences."""
    table, entries = table_of(file), entries_of(file)
    ours = printed_blocks(printed(table) if lines is None else lines)
    theirs = printed_blocks(listing(table, entries, ALL_LINES))
    found = list(differences(ours, theirs))
    rows = sum(len(block) - 1 for block in ours)
    last = ours[-1][0] if ours else "nothing was printed"
    print(f"{file}: {len(ours) - 1} entries, {rows} rows, {len(found)} differ; {last}")
    for text in found[:5]:
        print(f"  {text}")
    return not found


def keep(folder: pathlib.Path, names: list[str]) -> None:
    """Writes tables, and what frame_dump has to print of them."""
    words, lines = [], []
    for name in names:
        file, _colon, most = name.partition(":")
        table, data = table_of(file), pathlib.Path(file).name + ".eh_frame"
        (folder / "data").mkdir(exist_ok=True)
        (folder / "data" / data).write_bytes(table.content)
        words += [f"{table.address:x}", data, most or str(ALL_LINES)]
        lines += listing(table, entries_of(file), int(most or ALL_LINES))
    (folder / "args").write_text("".join(f"{word}\n" for word in words))
    (folder / "stdout").write_text("".join(f"{line}\n" for line in lines))


def main() -> None:
    """Compares each file, or keeps tables."""
    words = argparse.ArgumentParser(description=(__doc__ or "").splitlines()[0])
    words.add_argument("--printed", type=pathlib.Path, metavar="PRINTED")
    words.add_argument("--keep", type=pathlib.Path, metavar="FOLDER")
    words.add_argument("files", nargs="+", metavar="FILE")
    options = words.parse_args()
    if options.keep is not None:
        keep(options.keep, options.files)
        return
    if options.printed is not None and len(options.files) != 1:
        words.error("--printed takes one FILE")
    lines = None if options.printed is None else options.printed.read_text().splitlines()
    results = [is_same(file, lines) for file in options.files]
    sys.exit(0 if all(results) else 1)


if __name__ == "__main__":
    main()
