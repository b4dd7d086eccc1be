#!/usr/bin/env python3
"""What an audit of claims (`claimed_facts.py`, `cut_claims.py`) has to report, by the rows that `readelf` prints of the file.

    tools/expected_audit.py FILE CLAIMS

Of a row that differs in more than one way, the reason is the CFA, then the column of the first rule that differs, and then
the first column that lacks one: the return address, or a callee-saved register. After the reason comes what is claimed.
`readelf` prints a column without a rule and one that is undefined alike. It wants `readelf` (Debian: binutils).
"""
from __future__ import annotations

import bisect
import json
import re
import sys
from typing import Any, Iterator

from claimed_facts import claim_words
from code_file import entries_read
from elf_image import ElfImage
from fact_rows import CFA, FRAME_POINTER, STACK_POINTER
from frame_table import Table, common_entries
from known_frame import CALLEE_SAVED
from tables import COLUMNS, Entry, Row, with_arguments

WORDS = {"exp": "expression", "vexp": "value expression", "u": "undefined", "s": "same value"}


def word(claim: dict[str, Any], name: str) -> int | None:
    """A number of a claim."""
    return int(claim[name], 16) if name in claim else None


def is_cfa(claim: dict[str, Any], row: Row) -> bool:
    """Whether a row's CFA is known."""
    found = CFA.match(row["cfa"])
    known = {STACK_POINTER: word(claim, "rsp"), FRAME_POINTER: word(claim, "rbp")}
    return found is not None and known.get(int(found[1])) == int(found[2])


def is_rule(claim: dict[str, Any], column: str, rule: str) -> bool:
    """Whether a column's rule, or `s` where it has none, is as is known."""
    if column == f"r{COLUMNS['ra']}":
        return rule == ("u" if claim.get("outermost") else "c-8")
    names = [name for name in CALLEE_SAVED if column == f"r{COLUMNS[name]}"]
    if not names:
        return False
    if rule == "s":
        return names[0] in claim["kept"]
    found = re.match(r"c-(\d+)$", rule)
    return found is not None and word(claim["saved"], names[0]) == int(found[1])


def in_words(said: str) -> str:
    """What `readelf` has of a CFA or of a rule, in the words of an audit. Of an expression the bytes may follow."""
    found = re.match(r"(\w+)([+-]\d+)$", said)
    if found is None:
        return WORDS.get(said.split()[0], said)
    return f"{found[1]}{int(found[2]):+#x}"


def mismatch(claim: dict[str, Any], row: Row) -> str:
    """Why a row doesn't say a claim, and what it says; or nothing."""
    if not is_cfa(claim, row):
        return f"cfa {in_words(row['cfa'])}"
    rules = {int(column[1:]): rule for column, rule in row.items() if column.startswith("r")}
    for column, rule in sorted(rules.items()):
        if not is_rule(claim, f"r{column}", rule):
            return f"rule {column} {in_words(rule)}"
    for name in ("ra", "rbx", "rbp", "r12", "r13", "r14", "r15"):
        if COLUMNS[name] not in rules and not is_rule(claim, f"r{COLUMNS[name]}", "s"):
            return f"rule {COLUMNS[name]} none"
    return ""


def differences(claim: dict[str, Any], entry: Entry | None, common: Entry, is_signal: bool) -> Iterator[tuple[int, str]]:
    """Where a description's rows don't say a claim, and why. `readelf` prints no row of one whose program is empty."""
    start, end = int(claim["from"], 16), int(claim["to"], 16)
    if entry is None or end > entry.covers.end:
        yield start, "no description"
    elif is_signal:
        yield start, "signal frame"
    else:
        rows = sorted(dict(with_arguments(entry, common)).items())
        for (address, row), (after, _) in zip(rows, [*rows[1:], (entry.covers.end, {})]):
            if address < end and after > start and (reason := mismatch(claim, row)):
                yield max(address, start), reason


def report(path: str, claims: list[dict[str, Any]]) -> Iterator[str]:
    """The lines of an audit."""
    with open(path, "rb") as stream:
        elf = ElfImage(stream)
        section = elf.section(".eh_frame")
        assert section is not None
        commons = common_entries(Table(section.address, elf.contents(section)))
    told = entries_read(path)
    by_offset = {entry.offset: entry for entry in told}
    entries = sorted((entry for entry in told if entry.common is not None), key=lambda entry: entry.covers)
    starts = [entry.covers.start for entry in entries]
    differing, without = set[int](), 0
    for number, claim in enumerate(claims):
        place = bisect.bisect_right(starts, int(claim["from"], 16)) - 1
        entry = entries[place] if place >= 0 and entries[place].covers.contains(int(claim["from"], 16)) else None
        common = entry.common if entry is not None and entry.common is not None else 0
        for address, reason in differences(claim, entry, by_offset[common], commons[common].is_signal):
            yield f"differ {address:#x} claim {number} {reason}; claimed {claim_words(claim)}"
            if reason in ("no description", "signal frame"):
                without += 1
            else:
                differing.add(number)
    yield from (f"claims {len(claims)}", f"differ {len(differing)}", f"without a row {without}")


def main() -> None:
    """Reads the words of the command line."""
    if len(sys.argv) != 3:
        sys.exit("usage: expected_audit.py FILE CLAIMS")
    with open(sys.argv[2], encoding="utf-8") as stream:
        print("\n".join(report(sys.argv[1], json.load(stream)["claims"])))


if __name__ == "__main__":
    main()
