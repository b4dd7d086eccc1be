#!/usr/bin/env python3
"""Writes a text of 64 MiB, the most that the program takes, or a small one that asks for much work.

    large.py spaces       spaces alone
    large.py brackets     opening brackets alone
    large.py string       one string
    large.py region       a snapshot with one large region
    large.py regions      a snapshot with as many regions of a byte as have room
    large.py modules      a snapshot with as many modules as have room
    large.py resumes      a snapshot with as many return addresses as have room
    large.py loop         a small snapshot whose stack leads in a circle, with the largest limit
    large.py header       a header table that counts 2^32 entries, of which some 4,000,000 are there
    large.py lengths      a frame table of entries with lengths of 8 bytes, the function's last
    large.py length       a small one whose first entry has a length of 8 bytes that is the largest
    large.py expression   an expression of 33 million operations, whose last leads back to the first
    large.py circle       a small expression that leads to itself, for a stack of one frame
"""
from __future__ import annotations

import sys

from snapshots import TABLE, module, region

MOST = 1 << 26
START = '{"rip":"0x401006","rsp":"0x7000","rbx":"0x9","rbp":"0x7000"}'
STACK = "05" + 15 * "00"
CODE = module(0x401000, 0x401010, 0x500000)

COMMON = bytes.fromhex(TABLE[:48])
# CFA = rbp + 16, RBP at CFA - 16, the return address at CFA - 8
CIRCLE = bytes.fromhex("0c0610860200")


def snapshot(regions: list[str], modules: list[str], limit: int = 2, more: str = "") -> str:
    """A snapshot's text."""
    return '{"regions":[%s],"modules":[%s],"start":%s%s,"limit":%d}' % (
        ",".join(regions), ",".join(modules), START, more, limit,
    )


def entry(place: int, start: int, size: int, program: bytes, is_long: bool = False) -> bytes:
    """A description at a place in the table for 0x500000, whose common information entry stands first."""
    head = 12 if is_long else 4
    program += bytes(-(head + 13 + len(program)) % 4)
    length = 13 + len(program)
    at = place + head
    fields = [at, (start - (0x500000 + at + 4)) % 2**32, size]
    body = b"".join(word.to_bytes(4, "little") for word in fields) + b"\0" + program
    return (b"\xff\xff\xff\xff" + length.to_bytes(8, "little") if is_long else length.to_bytes(4, "little")) + body


def with_table(table: bytes, stack: str = STACK, limit: int = 2) -> str:
    """A snapshot with a frame table at 0x500000."""
    return snapshot([region(0x500000, table.hex()), region(0x7000, stack)], [CODE], limit)


def filled(make_text, item) -> str:
    """The text with as many items as have room; an item has the length of each other one."""
    count = (MOST - len(make_text([]))) // (len(item(0)) + 1)
    return make_text([item(i) for i in range(count)])


def large_region() -> str:
    """One region that fills the text, with the small snapshot's."""
    regions = [region(0x500000, TABLE), region(0x7000, STACK)]
    room = MOST - len(snapshot(regions + [region(0x10000000, "")], [CODE]))
    return snapshot(regions + [region(0x10000000, "a7" * (room // 2))], [CODE])


def regions() -> str:
    """Regions of a byte, by ascending address."""
    first = [region(0x500000, TABLE), region(0x7000, STACK)]
    return filled(lambda items: snapshot(first + items, [CODE]), lambda i: region(0x10000000 + 2 * i, "a7"))


def modules() -> str:
    """Modules of 16 addresses, by ascending address."""
    first = [region(0x500000, TABLE), region(0x7000, STACK)]
    return filled(
        lambda items: snapshot(first, [CODE] + items),
        lambda i: module(0x10000000 + 32 * i, 0x10000010 + 32 * i, 0x500000),
    )


def resumes() -> str:
    """Return addresses of different pads."""
    first = [region(0x500000, TABLE), region(0x7000, STACK)]
    return filled(
        lambda items: snapshot(first, [CODE], 2, ',"resumes":[%s]' % ",".join(items)),
        lambda i: '["%#x","%#x"]' % (0x10000000 + i, 0x10000000 + i),
    )


def loop() -> str:
    """A frame whose saved RBP is its own, and whose return address lies in it."""
    table = COMMON + entry(24, 0x401000, 16, CIRCLE) + bytes(4)
    stack = (0x7000).to_bytes(8, "little") + (0x401006).to_bytes(8, "little")
    return with_table(table, stack.hex(), 1_048_576)


def header() -> str:
    """A header at 0x4ff000 of which the pairs are zeros, with the count as a number of 8 bytes."""
    frames = bytes.fromhex(TABLE)
    head = bytes([1, 0x1B, 0x04, 0x3B]) + (0x3000000 - 4).to_bytes(4, "little") + (1 << 32).to_bytes(8, "little")
    at = 0x500000
    named = module(0x401000, 0x401010, at).replace('"eh_frame"', '"eh_frame_hdr"')
    # the same table, moved: its description's start is relative to where it stands
    moved = bytearray(frames)
    moved[32:36] = (0x401000 - (at + 0x3000000 + 32)).to_bytes(4, "little", signed=True)
    rest = [region(at + 0x3000000, moved.hex()), region(0x7000, STACK)]
    room = MOST - len(snapshot([region(at, head.hex())] + rest, [named]))
    return snapshot([region(at, (head + bytes(room // 2)).hex())] + rest, [named])


def lengths() -> str:
    """Descriptions of other functions, each with a length of 8 bytes, and the function's last."""
    room = (MOST - len(with_table(COMMON + entry(24, 0x401000, 16, bytes.fromhex("410e108302")) + bytes(4)))) // 2
    table, size = bytearray(COMMON), len(entry(24, 0, 16, b"", True))
    for _ in range(room // size - 1):
        table += entry(len(table), 0x600000, 16, b"", True)
    table += entry(len(table), 0x401000, 16, bytes.fromhex("410e108302"), True) + bytes(4)
    return with_table(bytes(table))


def length() -> str:
    """An entry that ends 2^64 - 1 bytes after its length."""
    return with_table(b"\xff" * 12 + bytes.fromhex(TABLE))


def by_expression(expression: bytes) -> str:
    """A frame whose CFA is an expression's value."""
    size = len(expression)
    number = bytes([size & 0x7F | 0x80, size >> 7 & 0x7F | 0x80, size >> 14 & 0x7F | 0x80, size >> 21])
    return with_table(COMMON + entry(24, 0x401000, 16, b"\x0f" + number + expression) + bytes(4))


def expression() -> str:
    """Operations that do nothing, and branches back from each 32,000 of them."""
    size = (MOST - len(by_expression(b""))) // 2 - 8
    return by_expression(b"\x96" * (size - 3) + b"\x2f" + (-30_000).to_bytes(2, "little", signed=True))


def circle() -> str:
    """A branch to itself."""
    return by_expression(b"\x2f\xfd\xff")


KINDS = {
    "spaces": lambda: " " * MOST, "brackets": lambda: "[" * MOST, "string": lambda: '"%s"' % ("a" * (MOST - 2)),
    "region": large_region, "regions": regions, "modules": modules, "resumes": resumes, "loop": loop, "header": header,
    "lengths": lengths, "length": length, "expression": expression, "circle": circle,
}


if __name__ == "__main__":
    if sys.argv[1:2] and sys.argv[1] in KINDS:
        sys.stdout.write(KINDS[sys.argv[1]]())
    else:
        sys.exit(__doc__)
