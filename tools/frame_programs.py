"""The rows of a frame table's descriptions, by running their programs.

DWARF 5, section 6.4.2, and LSB Core, "DWARF Extensions", for the instructions; System V x86-64 psABI, figure 3.36, for the
columns. `readelf` prints a column without a rule as one that is undefined, and goes on after an instruction that it doesn't
know: this reader tells these apart, and has no row from such an instruction on. Beyond that it has the rows that `readelf` has
(test_frame_programs.py).
"""
from __future__ import annotations

import struct
from typing import Iterator, NamedTuple

from elf_image import WORD, Range
from frame_table import CommonEntry, Entry, Table, common_entries, encoded_pointer, encoded_size, entries, uleb128
from tables import COLUMNS, Row

ADVANCE, OFFSET, RESTORE = 1, 2, 3

# What follows the first byte of an instruction: P a pointer, 1, 2 and 4 so many bytes, u and s numbers of variable length, B a
# block of bytes.
OPERANDS = {
    0x00: "", 0x01: "P", 0x02: "1", 0x03: "2", 0x04: "4", 0x05: "uu", 0x06: "u", 0x07: "u", 0x08: "u", 0x09: "uu", 0x0A: "",
    0x0B: "", 0x0C: "uu", 0x0D: "u", 0x0E: "u", 0x0F: "B", 0x10: "uB", 0x11: "us", 0x12: "us", 0x13: "s", 0x14: "uu",
    0x15: "us", 0x16: "uB", 0x2E: "u", 0x2F: "uu",
}


class Fault(Exception):
    """Why a program gives no row from here on."""


class Common(NamedTuple):
    """What descriptions share: the factors, and where the first program is."""

    entry: CommonEntry
    code_factor: int
    data_factor: int
    program: Range


class Description(NamedTuple):
    """A description: where its entry begins, what it covers, where its program is, and what it shares with others."""

    offset: int
    covers: Range
    program: Range
    common: Common


def sleb128(content: bytes, offset: int) -> tuple[int, int]:
    """A signed number of variable length, and the offset after it."""
    number, after = uleb128(content, offset)
    bits = 7 * (after - offset)
    return number - (1 << bits) if content[after - 1] & 0x40 else number, after


def common_of(table: Table, entry: Entry, read: CommonEntry) -> Common:
    """Reads a common information entry's factors, and where its program is."""
    content, offset = table.content, entry.identity_offset + 4
    version, letters_end = content[offset], content.index(0, offset + 1, entry.end)
    has_data = content[offset + 1 : offset + 2] == b"z"
    code_factor, offset = uleb128(content, letters_end + (3 if version == 4 else 1))
    data_factor, offset = sleb128(content, offset)
    offset = offset + 1 if version == 1 else uleb128(content, offset)[1]
    size, offset = uleb128(content, offset) if has_data else (0, offset)
    return Common(read, code_factor, data_factor, Range(offset + size, entry.end))


def descriptions_of(table: Table) -> Iterator[Description]:
    """The descriptions of a table, in its order. Their augmentation has to have a size, as compilers write it."""
    commons, read = dict[int, Common](), common_entries(table)
    for entry in entries(table):
        if entry.identity == 0:
            commons[entry.offset] = common_of(table, entry, read[entry.offset])
            continue
        common, place = commons[entry.identity_offset - entry.identity], entry.identity_offset + 4
        encoding = common.entry.address_encoding
        start = encoded_pointer(table, place, encoding)
        length = encoded_pointer(table, place + encoded_size(encoding), encoding & 0x0F)
        size, place = uleb128(table.content, place + 2 * encoded_size(encoding))
        yield Description(entry.offset, Range(start, start + length), Range(place + size, entry.end), common)


class Machine:
    """Runs programs over a row: the rule of the CFA, and that of each column that has one."""

    def __init__(self, table: Table, description: Description) -> None:
        """Begins where the program of the common information entry has run."""
        self.table, self.common = table, description.common
        self.location = description.covers.start
        self.cfa: tuple[int, int] | str | None = None
        self.rules: dict[int, str] = {}
        self.initial: dict[int, str] = {}
        self.kept: list[tuple[tuple[int, int] | str | None, dict[int, str]]] = []

    def row(self) -> Row:
        """The row, as `tables.py` writes it; of an expression also its bytes."""
        if self.cfa is None:
            raise Fault("the CFA has no rule")
        cfa = self.cfa if isinstance(self.cfa, str) else f"r{self.cfa[0]}{self.cfa[1]:+d}"
        return {"cfa": cfa} | {f"r{column}": rule for column, rule in sorted(self.rules.items())}

    def operands(self, form: str, place: int, end: int) -> tuple[list[int | bytes], int]:
        """The operands of an instruction, and the place after them."""
        found: list[int | bytes] = []
        content = self.table.content[:end]
        try:
            for kind in form:
                if kind == "P":
                    encoding = self.common.entry.address_encoding
                    found.append(encoded_pointer(self.table, place, encoding))
                    place += encoded_size(encoding)
                elif kind in "124":
                    found.append(int.from_bytes(content[place : place + int(kind)], "little"))
                    place += int(kind)
                elif kind == "B":
                    size, place = uleb128(content, place)
                    found.append(content[place : place + size])
                    place += size
                else:
                    number, place = (uleb128 if kind == "u" else sleb128)(content, place)
                    found.append(number)
        except (IndexError, struct.error):
            raise Fault("an operand passes the program's end") from None
        if place > end:
            raise Fault("an operand passes the program's end")
        return found, place

    def run(self, program: Range) -> Iterator[tuple[int, Row]]:
        """Runs a program. Yields the row of each stretch of addresses that an instruction ends, with its first address."""
        place = program.start
        while place < program.end:
            byte = self.table.content[place]
            place += 1
            high, low = byte >> 6, byte & 0x3F
            if high == ADVANCE:
                yield self.location, self.row()
                self.location += low * self.common.code_factor
            elif high == OFFSET:
                (units,), place = self.operands("u", place, program.end)
                self.set_offset(low, int(units) if isinstance(units, int) else 0)
            elif high == RESTORE:
                self.restore(low)
            else:
                if low not in OPERANDS:
                    raise Fault(f"the instruction {low:#x} isn't known")
                found, place = self.operands(OPERANDS[low], place, program.end)
                if 0x01 <= low <= 0x04:
                    yield self.location, self.row()
                self.do(low, *found)

    def set_offset(self, column: int, units: int) -> None:
        """A register is saved so many units from the CFA."""
        self.rules[column] = f"c{signed(units * self.common.data_factor):+d}"

    def restore(self, column: int) -> None:
        """A register has the rule that it began with."""
        if column in self.initial:
            self.rules[column] = self.initial[column]
        else:
            self.rules.pop(column, None)

    def do(self, operation: int, *operands: int | bytes) -> None:
        """Does an instruction that is named by its first byte alone."""
        words = [operand if isinstance(operand, int) else 0 for operand in operands]
        if operation == 0x01:
            if words[0] < self.location:
                raise Fault("the location goes back")
            self.location = words[0]
        elif operation in (0x02, 0x03, 0x04):
            self.location += words[0] * self.common.code_factor
        elif operation == 0x0A:
            self.kept.append((self.cfa, dict(self.rules)))
        elif operation == 0x0B:
            if not self.kept:
                raise Fault("no state is remembered")
            self.cfa, self.rules = self.kept.pop()
        elif operation in (0x0C, 0x0D, 0x0E, 0x0F, 0x12, 0x13):
            self.define_cfa(operation, *operands)
        elif operation == 0x06:
            self.restore(words[0])
        elif operation not in (0x00, 0x2E):
            self.set_rule(operation, *operands)

    def define_cfa(self, operation: int, *operands: int | bytes) -> None:
        """Does an instruction that defines the CFA."""
        words = [operand if isinstance(operand, int) else 0 for operand in operands]
        factor = self.common.data_factor if operation in (0x12, 0x13) else 1
        if operation in (0x0C, 0x12):
            self.cfa = words[0], signed(words[1] * factor)
        elif operation == 0x0F:
            self.cfa = f"exp {bytes(operands[0]).hex()}" if isinstance(operands[0], bytes) else None
        elif not isinstance(self.cfa, tuple):
            raise Fault("the CFA isn't by a register")
        elif operation == 0x0D:
            self.cfa = words[0], self.cfa[1]
        else:
            self.cfa = self.cfa[0], signed(words[0] * factor)

    def set_rule(self, operation: int, *operands: int | bytes) -> None:
        """Does an instruction that gives a register a rule."""
        column, value = operands[0], operands[-1]
        assert isinstance(column, int)
        if isinstance(value, bytes):
            self.rules[column] = f"{'vexp' if operation == 0x16 else 'exp'} {value.hex()}"
        elif operation in (0x05, 0x11):
            self.set_offset(column, value)
        elif operation in (0x14, 0x15):
            self.rules[column] = f"v{signed(value * self.common.data_factor):+d}"
        elif operation == 0x2F:
            self.set_offset(column, -value)
        else:
            self.rules[column] = {0x07: "u", 0x08: "s"}.get(operation, f"r{value}")


def signed(number: int) -> int:
    """A word as a signed number."""
    return (number + WORD // 2) % WORD - WORD // 2


def rows_of(table: Table, description: Description) -> list[tuple[int, Row | None]]:
    """The rows of a description from their addresses on, and None from where on there is none."""
    machine, found = Machine(table, description), dict[int, Row | None]()
    try:
        for _row in machine.run(description.common.program):
            pass
        machine.initial = dict(machine.rules)
        for address, row in machine.run(description.program):
            found[address] = row
        found[machine.location] = machine.row()
    except Fault:
        found[machine.location] = None
    return sorted(found.items())


def is_unchanged(column: str, rule: str) -> bool:
    """Whether a rule says of a callee-saved register that it is unchanged, as a row without a rule of it does."""
    kept = (COLUMNS[name] for name in ("rbx", "rbp", "r12", "r13", "r14", "r15"))
    return rule == "s" and column in {f"r{number}" for number in kept}


def said_by(row: Row | None) -> Row | None:
    """What a row says, without rules that say what no rule says, too."""
    return None if row is None else {name: rule for name, rule in row.items() if not is_unchanged(name, rule)}
