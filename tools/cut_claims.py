#!/usr/bin/env python3
"""Cuts an object of claims (`claimed_facts.py`) down to some of the descriptions, for a small test.

    tools/cut_claims.py CLAIMS COUNT MOST [ADDRESS].. >CUT

Kept are the descriptions that contain the addresses, and others with MOST claims or fewer, from all over the table, COUNT in
all. The frame table has these entries and the common ones that they name, one after another where the table stood. The
rows' programs stay byte for byte; what names a place relative to itself is made to name the same place. The header's table
lists these descriptions.
"""
from __future__ import annotations

import bisect
import json
import struct
import sys
from typing import Any

from elf_image import Range, Refused
from frame_table import (
    APPLICATION, OMITTED, RELATIVE_TO_PLACE, CommonEntry, Entry, Table, common_entries, encoded_pointer, encoded_size,
    entries, uleb128,
)

# A number of 4 bytes with a sign, relative to its place and to the header; a number of 4 bytes.
BY_PLACE, BY_HEADER, COUNTED = 0x1B, 0x3B, 0x03


class Description:
    """A description: its entry, the common one that it names, and what it covers."""

    def __init__(self, table: Table, entry: Entry, commons: dict[int, CommonEntry]) -> None:
        """Reads its addresses."""
        self.entry, self.common_at = entry, entry.identity_offset - entry.identity
        self.common = commons[self.common_at]
        if self.common.address_encoding != BY_PLACE:
            raise Refused(f"the addresses of the entry at {entry.offset:#x} aren't relative to their places")
        start = encoded_pointer(table, entry.offset + 8, BY_PLACE)
        self.covers = Range(start, start + struct.unpack_from("<I", table.content, entry.offset + 12)[0])

    def places(self, table: Table) -> list[int]:
        """Where its numbers stand that are relative to their places."""
        found = [self.entry.offset + 8]
        place = uleb128(table.content, self.entry.offset + 16)[1]
        encoding = self.common.language_table
        if encoding != OMITTED and any(table.content[place : place + encoded_size(encoding)]):
            found += [place] if encoding & APPLICATION == RELATIVE_TO_PLACE else []
        return found


def moved(table: Table, entry: Entry, offset: int, places: list[int]) -> bytearray:
    """An entry's bytes at another offset, with its relative numbers as they have to be there."""
    content = bytearray(table.content[entry.offset : entry.end])
    for place in places:
        at = place - entry.offset
        (number,) = struct.unpack_from("<i", content, at)
        struct.pack_into("<i", content, at, number + entry.offset - offset)
    return content


def personality_places(common: CommonEntry) -> list[int]:
    """Where a common entry's pointer to a personality stands that is relative to its place."""
    if common.personality is None or common.personality[0] & APPLICATION != RELATIVE_TO_PLACE:
        return []
    return [common.personality[1]]


def table_of(table: Table, kept: list[Description]) -> tuple[bytes, list[tuple[int, int]]]:
    """The bytes of a table with these descriptions, and their starts with the addresses of their entries."""
    commons = {entry.offset: entry for entry in entries(table) if entry.identity == 0}
    content, at, pairs = bytearray(), dict[int, int](), list[tuple[int, int]]()
    for one in kept:
        if one.common_at not in at:
            at[one.common_at] = len(content)
            content += moved(table, commons[one.common_at], len(content), personality_places(one.common))
        offset = len(content)
        content += moved(table, one.entry, offset, one.places(table))
        struct.pack_into("<I", content, offset + 4, offset + 4 - at[one.common_at])
        pairs.append((one.covers.start, table.address + offset))
    return bytes(content + bytes(4)), sorted(pairs)


def header_of(address: int, table: int, pairs: list[tuple[int, int]]) -> bytes:
    """A header at an address that leads to a table and lists these pairs."""
    head = struct.pack("<BBBBiI", 1, BY_PLACE, COUNTED, BY_HEADER, table - address - 4, len(pairs))
    return head + b"".join(struct.pack("<ii", start - address, entry - address) for start, entry in pairs)


def chosen(described: list[tuple[Description, list[Any]]], count: int, most: int, asked: list[int]) -> list[int]:
    """The places of the descriptions that are kept."""
    kept = {place for place, (one, _) in enumerate(described) if any(one.covers.contains(address) for address in asked)}
    others = [place for place, (_, claims) in enumerate(described) if place not in kept and 0 < len(claims) <= most]
    more = min(count - len(kept), len(others))
    return sorted(kept | {others[number * len(others) // more] for number in range(more)})


def claims_by_description(described: list[Description], claims: list[Any]) -> list[tuple[Description, list[Any]]]:
    """Each description with the claims of its code."""
    owners = sorted((one.covers, number) for number, one in enumerate(described))
    starts = [covers.start for covers, _ in owners]
    found: list[list[Any]] = [[] for _ in described]
    for claim in claims:
        found[owners[bisect.bisect_right(starts, int(claim["from"], 16)) - 1][1]].append(claim)
    return list(zip(described, found))


def cut(told: dict[str, Any], count: int, most: int, asked: list[int]) -> dict[str, Any]:
    """The object with some of its descriptions."""
    table, header = (Table(int(region["address"], 16), bytes.fromhex(region["bytes"])) for region in told["regions"])
    commons = common_entries(table)
    listed = [Description(table, entry, commons) for entry in entries(table) if entry.identity]
    described = claims_by_description([one for one in listed if one.covers.end > one.covers.start], told["claims"])
    kept = [described[place] for place in chosen(described, count, most, asked)]
    content, pairs = table_of(table, [one for one, _ in kept])
    regions = [(table.address, content), (header.address, header_of(header.address, table.address, pairs))]
    return {
        "regions": [{"address": hex(address), "bytes": data.hex()} for address, data in regions],
        "modules": told["modules"],
        "claims": sorted((claim for _, claims in kept for claim in claims), key=lambda claim: int(claim["from"], 16)),
    }


def main() -> None:
    """Reads the words of the command line."""
    if len(sys.argv) < 4:
        sys.exit("usage: cut_claims.py CLAIMS COUNT MOST [ADDRESS]..")
    try:
        with open(sys.argv[1], encoding="utf-8") as stream:
            told = json.load(stream)
        count, most = int(sys.argv[2]), int(sys.argv[3])
        json.dump(cut(told, count, most, [int(word, 16) for word in sys.argv[4:]]), sys.stdout, separators=(",", ":"))
    except (Refused, OSError) as fault:
        sys.exit(f"{sys.argv[1]}: {fault}")


if __name__ == "__main__":
    main()
