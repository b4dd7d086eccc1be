#!/usr/bin/env python3
"""Writes a snapshot of a chain of calls, made from a count and a seed, to the standard output.

    chain.py COUNT SEED [--header]

Numbers: x(0) is the seed, and x(i + 1) = (x(i) * 6364136223846793005 + 1442695040888963407) mod 2^64.

Functions: COUNT of them, from the innermost outwards. Function i covers the 64 bytes from
f = 0x400000 + 64 * i on. The two highest bits of x(i + 1) say what its prologue does, and at which
place of the function each instruction of it ends:

    0   pushes RBX (1)
    1   pushes RBX (1), allocates 16 bytes (5)
    2   pushes RBP (1), sets RBP to the stack pointer (4)
    3   pushes RBP (1), sets RBP to the stack pointer (4), pushes RBX (5), allocates 24 bytes (9)

Exceptions: the last function has a call site from f + 16 to f + 40 with a handler at f + 48. Of the
others each fourth one, from the fourth on, has that site with a cleanup at f + 48, and a site from
f + 48 to f + 64 without a landing pad; after the cleanup it goes on at f + 56. The rest have no
language table.

Stack: the outermost state has the return address 0, the stack pointer 0x7fff00000000, the seed in
RBX and 0 elsewhere. Function i is called from state i + 1, and state i has the return address
f + 32, and i in RBX where the function saved RBX.

One module covers all functions. It names its frame table, or its header table with --header. The
limit is COUNT + 1.
"""
import sys

TEXT, HEADER, FRAMES, LANGUAGES = 0x400000, 0x10000000, 0x20000000, 0x30000000
STACK_END = 0x7FFF00000000

# The common information entries of functions without a language table (augmentation zR) and with one
# (zPLR, the personality 0x3f000000), each with the CFA at RSP + 8 and the return address below it.
PLAIN = bytes.fromhex("14000000 00000000 01 7a5200 01 78 10 01 1b 0c0708 9001 0000")
WITH_LANGUAGE = bytes.fromhex(
    "1c000000 00000000 01 7a504c5200 01 78 10 07 1b d5ffff1e 1b 1b 0c0708 9001 0000"
)
# The frame program of each prologue.
PROGRAMS = [
    bytes.fromhex("41 0e10 8302 000000000000"),
    bytes.fromhex("41 0e10 8302 44 0e20 000000"),
    bytes.fromhex("41 0e10 8602 43 0d06 000000"),
    bytes.fromhex("41 0e10 8602 43 0d06 41 8303"),
]
# A language table whose call site has a cleanup, and after it one with a handler.
CLEANUP = bytes([0xFF, 0xFF, 1, 8, 16, 24, 48, 0, 48, 16, 0, 0])
CATCH = bytes([0xFF, 0xFF, 1, 4, 16, 24, 48, 1, 1, 0])


def start_of(index):
    return TEXT + 64 * index


def kinds(count, seed):
    """The prologue of each function, from the innermost outwards."""
    x = seed
    for _ in range(count):
        x = (x * 6364136223846793005 + 1442695040888963407) % 2**64
        yield x >> 62


def half(number):
    return (number % 2**32).to_bytes(4, "little")


def language_of(index, count):
    """Where a function's language table stands, 0 where it has none."""
    if index == count - 1:
        return LANGUAGES + len(CLEANUP)
    return LANGUAGES if index % 4 == 3 else 0


def frame_table(prologues):
    """The frame table, and at which place of it each description stands."""
    count = len(prologues)
    table = bytearray(PLAIN + WITH_LANGUAGE)
    places = []
    for index, kind in enumerate(prologues):
        place, language = len(table), language_of(index, count)
        common = len(PLAIN) if language else 0
        places.append(place)
        table += half(28) + half(place + 4 - common)
        table += half(start_of(index) - (FRAMES + place + 8)) + half(64)
        # A description without a language table has as many bytes, which mean nothing there.
        table += b"\4" + half((language or LANGUAGES) - (FRAMES + place + 17))
        table += PROGRAMS[kind]
    return bytes(table), places


def header_table(places):
    table = bytearray(bytes([1, 0x1B, 3, 0x3B]) + half(FRAMES - (HEADER + 4)) + half(len(places)))
    for index, place in enumerate(places):
        table += half(start_of(index) - HEADER) + half(FRAMES + place - HEADER)
    return bytes(table)


def called(kind, index, state):
    """The words that the prologue of a function of a kind pushes after the return address, from the highest address down, and
    the return address into it, RSP, RBX and RBP in its body, by those of its caller."""
    ra, sp, rbx, rbp = state
    if kind < 2:
        words, rbx, size = [ra, rbx] + [0, 0] * kind, index, 16 + 16 * kind
    else:
        words, rbp, size = [ra, rbp], sp - 16, 16
        if kind == 3:
            words += [rbx, 0, 0, 0]
            rbx, size = index, 48
    return words, (start_of(index) + 32, sp - size, rbx, rbp)


def pushed(words):
    """The bytes of a stack, by its words from the highest address down."""
    return b"".join(word.to_bytes(8, "little") for word in reversed(words))


def stack_of(prologues, seed):
    """The bytes of the stack, and the return address, RSP, RBX and RBP of the innermost state."""
    state, words = (0, STACK_END, seed, 0), []
    for index, kind in reversed(list(enumerate(prologues))):
        more, state = called(kind, index, state)
        words += more
    return pushed(words), state


def region(address, content):
    return '{"address":"%#x","bytes":"%s"}' % (address, content.hex())


def snapshot(count, seed, is_headed):
    prologues = list(kinds(count, seed))
    frames, places = frame_table(prologues)
    stack, (ra, sp, rbx, rbp) = stack_of(prologues, seed)
    regions = [region(FRAMES, frames), region(LANGUAGES, CLEANUP + CATCH), region(sp, stack)]
    tables = '"eh_frame":"%#x"' % FRAMES
    if is_headed:
        regions.insert(0, region(HEADER, header_table(places)))
        tables = '"eh_frame_hdr":"%#x"' % HEADER
    pads = [start_of(index) + 48 for index in range(3, count - 1, 4)]
    return (
        '{"regions":[%s],"modules":[{"kind":"elf","start":"%#x","end":"%#x",%s}],'
        '"start":{"rip":"%#x","rsp":"%#x","rbx":"%#x","rbp":"%#x"},"exception":"0x900000","class":"0x0",'
        '"resumes":[%s],"limit":%d}'
    ) % (
        ",".join(regions),
        TEXT,
        start_of(count),
        tables,
        ra,
        sp,
        rbx,
        rbp,
        ",".join('["%#x","%#x"]' % (pad, pad + 8) for pad in pads),
        count + 1,
    )


def main():
    numbers = [int(word) for word in sys.argv[1:] if word != "--header"]
    if len(numbers) != 2:
        sys.exit(__doc__)
    count, seed = numbers
    print(snapshot(count, seed, "--header" in sys.argv[1:]), end="")


if __name__ == "__main__":
    main()
