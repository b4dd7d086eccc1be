"""Where an indirect jump leads, as far as a compiler's jump table tells it.

Two forms are read: tables of 32-bit distances from the table's own address or from a label in the function, and tables of
whole addresses. A table is read
up to an entry that is no instruction of the function or of a part of it, up to where another table begins, and no further
than the number that the index is compared with before.
"""
from __future__ import annotations

import re

from code_file import CodeFile
from known_frame import READERS, WHOLE
from machine_code import Instruction, Way, is_direct, split

NEAR, MOST = 40, 4096
SCALED = re.compile(r"\*[48]\b")
ABSOLUTE = re.compile(r"\[\w+\*8\+(0x[0-9a-f]+)\]$")
STEPWISE = re.compile(r"shl (\w+),0x3; add \1,(0x[0-9a-f]+); mov \1,QWORD PTR \[\1\]; (?:notrack )?jmp \1$")
LIMIT = re.compile(r"cmp .*,(0x[0-9a-f]+)$")
ABOVE = frozenset("ja jae jbe jb jnbe jnb".split())


class JumpTables:
    """The jump tables of a file. `found` has the targets of each indirect jump by its place, none where they aren't
    told, and `cells` the addresses of the entries that were read."""

    def __init__(self, file: CodeFile, functions: set[int]) -> None:
        """Of a file in which functions start at some addresses, which a part of another function doesn't."""
        self.file, self.functions = file, functions
        self.cells: set[int] = set()
        self.bases = {
            one.target for one in file.code
            if is_address(one) and one.target is not None and file.description_at(one.target) is None
        }
        indirect = [place for place, one in enumerate(file.code) if one.way is Way.JUMP and not is_direct(one)]
        self.found = {place: self.targets(place) for place in indirect}

    def targets(self, place: int) -> list[int]:
        """The targets of an indirect jump at a place of the code, none where they aren't told."""
        owner = self.file.owner[place]
        first, end = self.file.bounds[owner]
        near = self.file.code[max(first, place - NEAR) : place + 1]
        limit = limit_of(near)
        if stepwise := STEPWISE.search("; ".join(one.text for one in near[-4:])):
            return self.entries(owner, int(stepwise[2], 16), None, limit)
        if not reads_table(near):
            return []
        if absolute := next((found for one in reversed(near[-5:]) if (found := ABSOLUTE.search(one.text))), None):
            return self.entries(owner, int(absolute[1], 16), None, limit)
        labels = self.labels(owner)
        for base in reversed(self.tables_in(near)):
            if found := self.of_base(owner, base, labels, limit):
                return found
        every = [self.of_base(owner, base, labels, limit) for base in self.tables_in(self.file.code[first:end])]
        return list(dict.fromkeys(target for targets in every for target in targets))

    def tables_in(self, code: list[Instruction]) -> list[int]:
        """The addresses outside of functions that some instructions compute."""
        return list(dict.fromkeys(one.target for one in code if one.target in self.bases and is_address(one)))

    def labels(self, owner: int) -> list[int]:
        """The addresses inside a function that its instructions compute, from which a table may count."""
        first, end = self.file.bounds[owner]
        covers = self.file.descriptions[owner].covers
        found = [one.target for one in self.file.code[first:end] if is_address(one) and covers.contains(one.target or 0)]
        return list(dict.fromkeys(target for target in found if target is not None))

    def of_base(self, owner: int, table: int, labels: list[int], limit: int) -> list[int]:
        """The targets by a table at an address, in the form that has most entries."""
        bases = [table, *labels, None]
        return max((self.entries(owner, table, base, limit) for base in bases), key=len)

    def entries(self, owner: int, table: int, base: int | None, limit: int) -> list[int]:
        """The entries of a table of addresses or, where there is a base, of distances from it."""
        found: list[int] = []
        size, form = (8, "<Q") if base is None else (4, "<i")
        while len(found) < limit:
            at = table + size * len(found)
            value = self.file.integer(at, form)
            if value is None or (found and at in self.bases) or not self.is_inside(owner, (base or 0) + value):
                break
            found.append((base or 0) + value)
        self.cells.update(range(table, table + size * len(found), size))
        return found

    def is_inside(self, owner: int, target: int) -> bool:
        """Whether an address is that of an instruction of a description, or of one that isn't a function's."""
        place = self.file.place.get(target)
        if place is None:
            return False
        other = self.file.owner[place]
        return other == owner or self.file.starts[other] not in self.functions


def is_address(one: Instruction) -> bool:
    """Whether an instruction computes an address relative to itself."""
    return one.way is Way.NEXT and one.target is not None and one.text.startswith("lea")


def reads_table(near: list[Instruction]) -> bool:
    """Whether what the last of some instructions jumps to may be an entry of a table, or that and a base: by the
    instruction before that sets the register."""
    operand = near[-1].text.split()[-1]
    if SCALED.search(near[-1].text) or operand not in WHOLE:
        return SCALED.search(near[-1].text) is not None
    for one in reversed(near[:-1]):
        mnemonic, operands = split(one.text)
        if operands[:1] == [operand] and mnemonic not in READERS:
            return mnemonic in ("add", "lea") or SCALED.search(one.text) is not None
    return False


def limit_of(near: list[Instruction]) -> int:
    """One more than the number that an index is compared with, where it is compared."""
    for one, following in zip(reversed(near[:-1]), reversed(near)):
        if following.text.split()[0] in ABOVE and (found := LIMIT.match(one.text)):
            return min(int(found[1], 16) + 1, MOST)
    return MOST
