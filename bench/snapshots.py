#!/usr/bin/env python3
"""Writes a snapshot on which to measure, to the standard output.

    snapshots.py row           one function that pushes RBX, and a stack of 16 bytes
    snapshots.py region BYTES  the same with one more region of so many random bytes
    snapshots.py regions N     the same with N more regions of 16 bytes, by descending address
    snapshots.py modules N     the same with N more modules of 16 addresses, by descending address
    snapshots.py resumes N     the same with N return addresses
    snapshots.py frames N L    N frames of one function, with addresses of twelve digits, and the limit L
    snapshots.py calls N L     N calls of the function, each of which keeps its caller's place for RBX, and the limit L
    snapshots.py passed K N L  the same, where a scan passes K descriptions before the function's
    snapshots.py cleanups N L [WORD..]
                               an exception below N calls of a function with a cleanup, the first of them from one
                               with a handler, and the limit L. The words: `uncaught`, where no call site holds
                               the outermost call; `apart`, where each call is of a function of its own with its
                               own module, table and landing pad; `same E` and `other E`, where the resume
                               table has so many more entries, of the same pad or each of another pad
"""
import random
import sys

TABLE = (
    "1400000000000000017a5200017810011b0c070890010000"
    "140000001c000000e00ff0ff1000000000410e1083020000"
    "00000000"
)

# Functions at 0x401000, 0x401020 and 0x401050: the first pushes RBP, sets it, pushes RBX and allocates 8; the
# second pushes RBX, and has a language table with a cleanup; the third pushes R14 and RBX and allocates 8, and
# has one with a handler. A table for 0x500000, the language tables for 0x502000, and for 0x503000 the cell with the
# personality's address.
CLEANUP_TABLE = (
    "1400000000000000017a5200017810011b0c070890010000"
    "180000001c000000e00ff0ff2000000000410e108602430d06458303"
    "1c00000000000000017a504c5200017810079bb92f00001b1b0c0708900100001800000024000000c40ff0ff30000000049b1f0000"
    "410e1083020000"
    "2000000040000000d80ff0ff30000000048b1f0000420e10410e18440e2083038e020000"
    "00000000"
)
LANGUAGE = "ffff01080810200020100000" + "ff9b0c010408102001010000000000"
PERSONALITY = "0040400000000000"

# The second function by itself, for an address 2,048 bytes after its start: its table of 64 bytes, its
# language table of 12, and at 80 the personality's cell.
APART = (
    "1c00000000000000017a504c5200017810079b3d0000001b1b0c070890010000"
    "1800000024000000d8f7ffff30000000040f000000410e1083020000"
    "00000000"
    "ffff01080810200020100000" + 8 * "0" + PERSONALITY
)


def region(address, digits):
    return '{"address":"%#x","bytes":"%s"}' % (address, digits)


def module(start, end, table):
    return '{"kind":"elf","start":"%#x","end":"%#x","eh_frame":"%#x"}' % (start, end, table)


def frames(count, limit):
    """A stack of so many frames: each holds a word for RBX and the return address."""
    code, stack = 0x555555554000, 0x7FFD00000000
    word = (0x7FFE12345678).to_bytes(8, "little").hex()
    back = (code + 6).to_bytes(8, "little").hex()
    slots = (count - 1) * (word + back) + word + 16 * "0"
    registers = ["rbx", "rbp", "r12", "r13", "r14", "r15"]
    start = ",".join('"%s":"0x7ffe12345678"' % name for name in registers)
    return '{"regions":[%s],"modules":[%s],"start":{"rip":"%#x","rsp":"%#x",%s},"limit":%d}' % (
        ",".join([region(code + 0xFF000, TABLE), region(stack, slots)]),
        module(code, code + 0x10, code + 0xFF000),
        code + 6,
        stack,
        start,
        limit,
    )


def table_after(passed):
    """The frame table with so many descriptions of other functions before the function's."""
    entries = bytearray.fromhex(TABLE[:48])
    for start in [0x600000 + 16 * i for i in range(passed)] + [0x401000]:
        place = len(entries) + 4
        fields = [20, place, start - (0x500000 + place + 4), 16]
        entries += b"".join(n.to_bytes(4, "little", signed=True) for n in fields) + bytes.fromhex(TABLE[80:96])
    return entries.hex() + 8 * "0"


def calls(count, limit, table=TABLE):
    """A stack of so many calls: the place of the caller, from 1 on, and where it goes on."""
    back = (0x401006).to_bytes(8, "little").hex()
    slots = "".join(i.to_bytes(8, "little").hex() + back for i in range(1, count))
    slots += count.to_bytes(8, "little").hex() + 16 * "0"
    return '{"regions":[%s],"modules":[%s],"start":{"rip":"0x401006","rsp":"0x7000000","rbx":"0x9"},"limit":%d}' % (
        ",".join([region(0x500000, table), region(0x7000000, slots)]),
        module(0x401000, 0x401010, 0x500000),
        limit,
    )


def cleanups(count, limit, words):
    """An exception below so many calls of functions with a cleanup, the first of them from one with a handler."""
    starts = [0x10000000 + 0x1000 * i if "apart" in words else 0x401020 for i in range(count)]
    outermost = 0x401070 if "uncaught" in words else 0x401060
    slots = [0, 0x11, 0xC, starts[0] + 0x10]
    for start in starts[1:]:
        slots += [0x11, start + 0x10]
    slots += [0x22, outermost, 0, 0xB, 0xE, 0]
    regions = [
        region(0x500000, CLEANUP_TABLE),
        region(0x502000, LANGUAGE),
        region(0x503000, PERSONALITY),
        region(0x7000000, "".join(slot.to_bytes(8, "little").hex() for slot in slots)),
    ]
    modules = [module(0x401000, 0x401080, 0x500000)]
    if "apart" in words:
        regions += [region(start + 0x800, APART) for start in starts]
        modules += [module(start, start + 0x30, start + 0x800) for start in starts]
    pads = [start + 0x20 for start in sorted(set(starts))]
    if "same" in words:
        pads += int(words[words.index("same") + 1]) * pads[:1]
    elif "other" in words:
        # half of them on each side of the pad
        more = int(words[words.index("other") + 1])
        pads += [pads[0] + 8 * (i - more // 2 if i < more // 2 else i - more // 2 + 1) for i in range(more)]
    resumes = ",".join('["%#x","%#x"]' % (pad, pad + 8) for pad in pads)
    start = '{"rip":"0x401010","rsp":"0x7000000","rbx":"0x7","rbp":"0x7000010","r14":"0x2e"}'
    return '{"regions":[%s],"modules":[%s],"start":%s,"exception":"0x900000","resumes":[%s],"limit":%d}' % (
        ",".join(regions),
        ",".join(modules),
        start,
        resumes,
        limit,
    )


def main():
    kind = sys.argv[1]
    if kind == "cleanups":
        print(cleanups(int(sys.argv[2]), int(sys.argv[3]), sys.argv[4:]), end="")
        return
    if kind == "calls":
        print(calls(int(sys.argv[2]), int(sys.argv[3])), end="")
        return
    if kind == "passed":
        passed, count, limit = map(int, sys.argv[2:5])
        print(calls(count, limit, table_after(passed)), end="")
        return
    if kind == "frames":
        print(frames(int(sys.argv[2]), int(sys.argv[3])), end="")
        return
    count = int(sys.argv[2]) if len(sys.argv) > 2 else 0
    random.seed(1)
    regions = [region(0x500000, TABLE), region(0x7000, "05" + 15 * "00")]
    modules = [module(0x401000, 0x401010, 0x500000)]
    resumes = []
    if kind == "region":
        regions.append(region(0x10000000, random.randbytes(count).hex()))
    elif kind == "regions":
        regions += [region(0x10000000 + 32 * i, 32 * "a") for i in range(count, 0, -1)]
    elif kind == "modules":
        modules += [module(0x10000000 + 32 * i, 0x10000010 + 32 * i, 0x500000) for i in range(count, 0, -1)]
    elif kind == "resumes":
        resumes = ['["%#x","%#x"]' % (i, i + 1) for i in range(count)]
    elif kind != "row":
        sys.exit(__doc__)
    start = '{"rip":"0x401006","rsp":"0x7000","rbx":"0x9"}'
    print(
        '{"regions":[%s],"modules":[%s],"start":%s,"resumes":[%s],"limit":2}'
        % (",".join(regions), ",".join(modules), start, ",".join(resumes)),
        end="",
    )


if __name__ == "__main__":
    main()
