#!/usr/bin/env python3
"""Says where the frame tables of files don't say what the machine code does, by `unwind_cli audit`, with names.

    audit.py FILE.. [--all | --counts] [--code] [--parts N] [--unwind-cli PROGRAM]

Of each FILE, an ELF file of x86-64, claims are made from its code (claimed_facts.py), and the built program says which of them
the rows of its .eh_frame don't say. A line is printed for each place: its addresses, the function, and why; then what the row
at its start says, as readelf has it, and what is known there by the code.

    0x4c6e1-0x4c748 __mpn_addmul_1+0x1: cfa; the row: cfa=rsp+8 ra=c-8; the code: cfa rsp+16 saved rbx@16 kept rbx ..

A place is code of one function, one instruction after another, at which the same is amiss. Where the row is of another kind
than claims are, as one by an expression or by another register, or one of a signal's frame, it may well be right: such places
are `other`, and they are printed with --all alone. The last line of a file has its descriptions, how many of its calls and of
its instruction addresses are in reach, which is where a row says what is claimed, the numbers that the program gives, and how
many places there are of each sort. With --counts it is the only one. docs/AUDITS.md says what is counted.

With --code the instructions of each place follow its line, after those before it, with what the row and the code say at each:
the CFA, or where that is the same, the register that differs.

With --parts N a file is followed in N parts one after another, which takes less memory; of each only what its own code says
is known, so that a function of another part is taken to return.

Claims are given to the program in as many texts as it takes at once. It wants `readelf` and `objdump` (Debian: binutils).
"""
from __future__ import annotations

import argparse
import bisect
import json
import os
import re
import signal
import sys
from collections import Counter
from typing import Iterator, NamedTuple

from claimed_facts import Claimed, Facts, claim_object, claim_words, claimed_in, facts_of, tables_of
from claims import row_text
from code_file import CodeFile, entries_read
from code_flow import CodeFlow
from elf_image import ElfImage, Range, Refused
from known_frame import CALLEE_SAVED, in_call
from machine_code import Way
from plain_names import plain_name
from thread_reports import built_path, run
from snapshot_file import MOST_BYTES, Object
from symbols import all_functions, demangled, function_at
from tables import COLUMNS, Row

REGISTERS = {str(column): name for name, column in COLUMNS.items() if name != "rip"}

# A line of the program's report: where a row differs, from which claim, why, what the row says, and what is claimed.
SAID = r"[cv][+-]0x[0-9a-f]+|r\d+|none|undefined|same value|(?:value )?expression"
WHY = rf"(no description|signal frame|fault)|(cfa) (?:r\d+[+-]0x[0-9a-f]+|expression)|(rule \d+) (?:{SAID})"
LINE = re.compile(rf"differ (0x[0-9a-f]+) claim (\d+) (?:{WHY}); claimed (.+)")
NUMBERS = ("claims", "differ", "without a row")

# How many instructions are printed before a place, and of it.
BEFORE, MOST_INSIDE = 3, 8
WHOLE = ("no description", "signal frame")

# The words of the rows that say what claims can say: the CFA by RSP or RBP, a register in a slot below the CFA or unchanged,
# and the return address in such a slot or undefined.
CFA = re.compile(r"r[67]\+\d+$")
RULE = re.compile(r"c-\d+$|s$|u$")
SPOKEN = {f"r{COLUMNS[name]}" for name in (*CALLEE_SAVED, "ra")}


class Found(NamedTuple):
    """What the program says: of each claim that isn't said, the stretches in which it isn't, and why; and its numbers."""

    stretches: dict[int, list[tuple[int, str]]]
    numbers: Counter[str]


class Place(NamedTuple):
    """Instructions one after another at which the same is amiss, and what is claimed at the first of them."""

    start: int
    end: int
    why: str
    claimed: Claimed


class Audited(NamedTuple):
    """A file, and what is found in it: the places, the calls and the addresses in reach, and the program's numbers."""

    flow: CodeFlow
    places: list[Place]
    calls: int
    addresses: int
    numbers: Counter[str]


# ---- the program


def texts_of(tables: Object, claims: list[Claimed], most: int) -> Iterator[tuple[int, bytes]]:
    """The claims with the tables in texts of at most so many bytes, each with the number of its first claim."""
    head = json.dumps(tables, separators=(",", ":"))[:-1] + ',"claims":['
    first, parts, size = 0, list[str](), len(head) + 2
    for number, claimed in enumerate(claims):
        part = json.dumps(claim_object(claimed), separators=(",", ":"))
        if parts and size + len(part) + 1 > most:
            yield first, (head + ",".join(parts) + "]}").encode()
            first, parts, size = number, [], len(head) + 2
        parts.append(part)
        size += len(part) + 1
    yield first, (head + ",".join(parts) + "]}").encode()


def read_report(report: str, first: int, claims: list[Claimed], found: Found) -> None:
    """Adds what a report says of claims that are counted from a number on. It has to tell what was claimed."""
    lines = report.splitlines()
    if len(lines) < len(NUMBERS):
        raise Refused(f"that is no report of audit: {report!r}")
    for name, line in zip(NUMBERS, lines[-len(NUMBERS) :]):
        if not re.fullmatch(rf"{name} \d+", line):
            raise Refused(f"that is no report of audit: {line!r} doesn't count {name!r}")
        found.numbers[name] += int(line.rpartition(" ")[2])
    for line in lines[: -len(NUMBERS)]:
        match = LINE.fullmatch(line)
        if match is None:
            raise Refused(f"that is no report of audit: {line!r}")
        number = first + int(match[2])
        if match[6] != claim_words(claim_object(claims[number])):
            raise Refused(f"that isn't what was claimed: {line!r}")
        found.stretches.setdefault(number, []).append((int(match[1], 16), match[3] or match[4] or match[5]))


def asked(program: str, tables: Object, claims: list[Claimed], most: int = MOST_BYTES) -> Found:
    """What the program says of claims."""
    found = Found({}, Counter())
    for first, text in texts_of(tables, claims, most):
        answer = run([program, "audit"], text)
        if answer.fault is not None:
            raise Refused(answer.fault)
        read_report(answer.text, first, claims, found)
    if found.numbers["claims"] != len(claims):
        raise Refused(f"{program} counts {found.numbers['claims']} claims, and there are {len(claims)}")
    return found


# ---- the file


class Reach:
    """Why the row at an address of a file doesn't say what is claimed there, by the stretches of a report."""

    def __init__(self, file: CodeFile, claims: list[Claimed], found: Found) -> None:
        """Notes where claims start."""
        self.file, self.claims, self.found = file, claims, found
        self.starts = [claimed.start for claimed in claims]
        self.met: set[tuple[int, int]] = set()

    def claim_at(self, address: int) -> int | None:
        """The number of the claim on an address."""
        number = bisect.bisect_right(self.starts, address) - 1
        return number if number >= 0 and address < self.claims[number].end else None

    def why(self, number: int, address: int) -> str | None:
        """Why the row at an address isn't as this claim has it."""
        stretches = self.found.stretches.get(number)
        if stretches is None:
            return None
        rows = self.file.descriptions[self.claims[number].owner].rows
        row = bisect.bisect_right(rows, address, key=lambda row: row[0]) - 1
        start = max(self.claims[number].start, rows[row][0] if row >= 0 else 0)
        why = next((why for place, why in stretches if place == start or why in WHOLE), None)
        if why is not None:
            self.met.add((number, start if why not in WHOLE else stretches[0][0]))
        return why

    def check(self) -> None:
        """Refuses a report that has a difference where there is no instruction."""
        for number, stretches in self.found.stretches.items():
            for place, _why in stretches:
                if (number, place) not in self.met:
                    raise Refused(f"a difference at {place:#x} isn't where a row begins")


def places_in(reach: Reach, pieces: list[tuple[int, int]]) -> tuple[list[Place], int]:
    """The places among pieces of code, by ascending address, at which something is amiss; and how many pieces aren't, of
    which something is claimed."""
    places, in_reach = list[Place](), 0
    for start, end in pieces:
        number = reach.claim_at(start)
        if number is None:
            continue
        why, claimed = reach.why(number, start), reach.claims[number]
        if why is None:
            in_reach += 1
        elif places and (places[-1].end, places[-1].why, places[-1].claimed.owner) == (start, why, claimed.owner):
            places[-1] = places[-1]._replace(end=end)
        else:
            places.append(Place(start, end, why, claimed))
    return places, in_reach


def audited(flow: CodeFlow, program: str) -> Audited:
    """Audits a file, or a part of it."""
    claims = claimed_in(flow)
    reach = Reach(flow.file, claims, asked(program, tables_of(flow.file), claims))
    places, addresses = places_in(reach, [(one.address, one.end) for one in flow.file.code])
    lasts = [(one.end - 1, one.end) for one in flow.file.code if one.way is Way.CALL]
    in_calls, calls = places_in(reach, lasts)
    reach.check()
    ends = [place.end for place in places]
    for place in in_calls:
        number = bisect.bisect_right(ends, place.start)
        if number >= len(ends) or place.start < places[number].start:
            places.append(place)
    return Audited(flow, sorted(places), calls, addresses, reach.found.numbers)


# ---- lines


def is_other(why: str, row: Row | None) -> bool:
    """Whether a row that isn't as claimed is of another kind than claims are."""
    if row is None or why in WHOLE:
        return why == "signal frame"
    if why == "cfa":
        return CFA.match(row["cfa"]) is None
    column = f"r{why.rpartition(' ')[2]}"
    return why.startswith("rule") and (column not in SPOKEN or RULE.match(row.get(column, "s")) is None)


class Names:
    """The functions of a file by its symbols or, where there are none, by its descriptions."""

    def __init__(self, file: CodeFile) -> None:
        """Reads the symbols, also those that lie apart."""
        with open(file.path, "rb") as stream:
            build_id = ElfImage(stream).build_id()
        self.file, self.functions = file, all_functions(file.path, build_id)

    def at(self, place: Place) -> str:
        """The function of a place, and how far after its description's start the place is."""
        start = self.file.starts[place.claimed.owner]
        name = function_at(self.functions, place.start)
        known = f"{os.path.basename(self.file.path)}+{start:#x}" if name is None else plain_name(demangled(name).strip())
        return f"{known}+{place.start - start:#x}" if place.start > start else known


def row_of(place: Place, file: CodeFile) -> Row | None:
    """The row at the start of a place."""
    return file.descriptions[place.claimed.owner].row(place.start)


def line_of(place: Place, file: CodeFile, names: Names) -> str:
    """A place's line."""
    row = row_text(row_of(place, file)) or "none"
    why = re.sub(r"\d+$", lambda column: f"of {REGISTERS.get(column[0], f'r{column[0]}')}", place.why)
    return f"{place.start:#x}-{place.end:#x} {names.at(place)}: {why}; the row: {row}; the code: {place.claimed.facts}"


def cfa_words(row: Row | None, facts: Facts | None) -> tuple[str, str]:
    """Where the CFA is by a row, and by what is known."""
    known = [f"{name}+{distance}" for name in ("rsp", "rbp") if facts and (distance := getattr(facts, name)) is not None]
    return (row_text({"cfa": row["cfa"]}).removeprefix("cfa=") if row else "none"), " ".join(known) or "unknown"


def register_words(register: str, row: Row | None, facts: Facts | None) -> tuple[str, str]:
    """Where a register is by a row, and by what is known."""
    slots, kept = (dict(facts.saved), facts.kept) if facts else ({}, ())
    known = [f"{register}=c-{distance}" for name, distance in slots.items() if name == register]
    known += [f"{register} kept" for name in kept if name == register]
    rule = (row or {}).get(f"r{COLUMNS[register]}", "s")
    return f"{register} kept" if rule == "s" else f"{register}={rule}", " ".join(known) or f"{register} unknown"


def code_lines(place: Place, flow: CodeFlow) -> Iterator[str]:
    """The instructions of a place after those before it, with what the row and the code say at each."""
    file, owner = flow.file, place.claimed.owner
    column = re.fullmatch(r"rule (\d+)", place.why)
    register = REGISTERS.get(column[1]) if column else None
    first = bisect.bisect_right(file.code, place.start, key=lambda one: one.address) - 1
    last = bisect.bisect_left(file.code, place.end, key=lambda one: one.address)
    low = next(number for number in range(max(first - BEFORE, 0), first + 1) if file.owner[number] == owner)
    for number in range(low, min(last, first + MOST_INSIDE)):
        one, frame = file.code[number], flow.frames[number]
        called = in_call(frame) if number == first and place.start > one.address and frame is not None else frame
        row = file.descriptions[owner].row(max(one.address, place.start) if number >= first else one.address)
        facts = facts_of(called)
        words = cfa_words(row, facts) if register not in CALLEE_SAVED else register_words(register, row, facts)
        sides = f"row {words[0]}, code {words[1]}"
        text = re.sub(r" <\S*>", "", " ".join(one.text.split()))
        yield f"    {one.address:x}  {text:<48} {sides}"
    if last > first + MOST_INSIDE:
        yield f"    .. {last - first - MOST_INSIDE} more"


def counts_of(found: Audited, others: int) -> Counter[str]:
    """The numbers of what is found, of whose places so many are of another kind."""
    file = found.flow.file
    return found.numbers + Counter({
        "descriptions": len(file.descriptions),
        "calls": sum(one.way is Way.CALL for one in file.code),
        "calls in reach": found.calls,
        "addresses": len(file.code),
        "addresses in reach": found.addresses,
        "places": len(found.places) - others,
        "other": others,
    })


def summary_of(path: str, counts: Counter[str]) -> str:
    """A file's last line."""
    numbers = ", ".join(f"{name} {counts[name]:,}" for name in (*NUMBERS, "places", "other"))
    return (
        f"{path}: descriptions {counts['descriptions']:,}, calls {counts['calls']:,}, in reach {counts['calls in reach']:,}, "
        f"addresses {counts['addresses']:,}, in reach {counts['addresses in reach']:,}, {numbers}"
    )


def print_places(found: Audited, words: argparse.Namespace) -> Counter[str]:
    """Prints the places, and answers the numbers of what is found."""
    file = found.flow.file
    others = {place for place in found.places if is_other(place.why, row_of(place, file))}
    printed = [] if words.counts else [place for place in found.places if words.all or place not in others]
    if printed:
        names = Names(file)
    for place in printed:
        print("\n".join([line_of(place, file, names), *(code_lines(place, found.flow) if words.code else ())]), flush=True)
    return counts_of(found, len(others))


def parts_of(path: str, count: int) -> list[Range | None]:
    """A file in so many parts of about as many descriptions each."""
    if count == 1:
        return [None]
    starts = sorted(entry.covers.start for entry in entries_read(path) if entry.common is not None)
    cuts = [0, *(starts[number * len(starts) // count] for number in range(1, count)), sys.maxsize] if starts else [0, sys.maxsize]
    return [Range(low, high) for low, high in zip(cuts, cuts[1:]) if low < high]


def print_audit(path: str, words: argparse.Namespace) -> None:
    """Prints what is found of a file."""
    counts = Counter[str]()
    for part in parts_of(path, words.parts):
        counts += print_places(audited(CodeFlow(CodeFile(path, part)), words.unwind_cli), words)
    print(summary_of(path, counts), flush=True)


def main() -> None:
    """Reads the words of the command line."""
    parser = argparse.ArgumentParser(prog="audit.sh", description="where frame tables don't say what machine code does")
    parser.add_argument("files", nargs="+", metavar="FILE")
    kinds = parser.add_mutually_exclusive_group()
    kinds.add_argument("--all", action="store_true", help="print places at which a row is of another kind, too")
    kinds.add_argument("--counts", action="store_true", help="print a line for each file alone")
    parser.add_argument("--code", action="store_true", help="print the instructions of each place, too")
    default = os.environ.get("UNWIND_CLI") or built_path("unwind_cli")
    parser.add_argument("--parts", type=int, default=1, metavar="N", help="follow the code of a large file in so many parts")
    parser.add_argument("--unwind-cli", metavar="PROGRAM", default=default, help="the built program")
    words = parser.parse_args()
    signal.signal(signal.SIGPIPE, signal.SIG_DFL)
    if not os.access(words.unwind_cli, os.X_OK):
        sys.exit(f"audit.sh: {words.unwind_cli} isn't built: run `rt run < stdin` in crates/unwind_cli")
    for path in words.files:
        try:
            print_audit(path, words)
        except (Refused, OSError) as fault:
            sys.exit(f"audit.sh: {path}: {fault}")


if __name__ == "__main__":
    main()
