#!/usr/bin/env python3
"""Writes samples of stacks, made from numbers, to the standard output, as `unwind_cli fold` reads them.

    samples.py SAMPLES FRAMES FUNCTIONS SEED [--stacks N] [--report]

The functions and their frame table are those of `chain.py`. Each sample is stopped in the body of a
function, under FRAMES calls: each function is called by one of FUNCTIONS that the numbers choose, and the
outermost half of a stack comes from few functions, as programs have it. With --stacks N there are N stacks
alone, and the samples after the first N are those again, in turn. Each stack has a place of its own in one
region of memory, one after another, and begins with the return address 0. The limit is FRAMES + 1. With
--report it writes what `fold` has to print of them, from the functions that were chosen.

With 30 frames a stack takes some 1,700 bytes of the text, of which 64 MiB are read.
"""
from __future__ import annotations

import argparse
import random
import sys
from collections import Counter
from dataclasses import dataclass

from chain import FRAMES, LANGUAGES, TEXT, CATCH, CLEANUP, called, frame_table, kinds, pushed, region, start_of

BASE = 0x7F0000000000


@dataclass(frozen=True)
class Start:
    """The registers of a sample."""

    rip: int
    rsp: int
    rbx: int
    rbp: int

    def text(self) -> str:
        """As samples have it."""
        return '{"start":{"rip":"%#x","rsp":"%#x","rbx":"%#x","rbp":"%#x"}}' % (self.rip, self.rsp, self.rbx, self.rbp)


def stack_of(prologues: list[int], calls: list[int], base: int) -> tuple[bytes, Start]:
    """The bytes of a stack from an address on, and the start of its innermost state, by the calls from the outermost inwards."""
    sizes = [(16, 32, 16, 48)[prologues[index]] for index in calls]
    state = (0, base + sum(sizes), 0, 0)
    words: list[int] = []
    for index in calls:
        more, state = called(prologues[index], index, state)
        words += more
    return pushed(words), Start(*state)


def calls_of(chosen: random.Random, frames: int, functions: int) -> list[int]:
    """The functions of a stack, from the outermost inwards."""
    few = max(1, min(functions, 8))
    outer = [chosen.randrange(few) for _ in range(frames // 2)]
    return outer + [chosen.randrange(functions) for _ in range(frames - len(outer))]


def options() -> argparse.Namespace:
    """What the words ask for."""
    parser = argparse.ArgumentParser(description="Writes samples of stacks, made from numbers.")
    for word in ("samples", "frames", "functions", "seed"):
        parser.add_argument(word, type=int, metavar=word.upper())
    parser.add_argument("--stacks", type=int, metavar="N", help="so many different stacks alone")
    parser.add_argument("--report", action="store_true", help="what fold has to print of them")
    return parser.parse_args()


def report_of(stacks: list[list[int]], samples: int) -> str:
    """The lines of so many samples that have these stacks in turn."""
    counts = Counter(tuple(stacks[place % len(stacks)]) for place in range(samples))
    lines = [f"{';'.join(f'{start_of(index) + 32:#x}' for index in calls)} {counts[calls]}\n" for calls in sorted(counts)]
    return "".join(lines) + "refused 0\n"


def samples_of(stacks: list[list[int]], asked: argparse.Namespace) -> str:
    """The text of the samples, with their memory."""
    prologues = list(kinds(asked.functions, asked.seed))
    table, _ = frame_table(prologues)
    memory, starts = bytearray(), []
    for calls in stacks:
        stack, start = stack_of(prologues, calls, BASE + len(memory))
        memory += stack
        starts.append(start.text())
    regions = [region(FRAMES, table), region(LANGUAGES, CLEANUP + CATCH)]
    if memory:
        regions.append(region(BASE, bytes(memory)))
    samples = ",".join(starts[place % len(stacks)] for place in range(asked.samples))
    return (
        '{"regions":[%s],"modules":[{"kind":"elf","start":"%#x","end":"%#x","eh_frame":"%#x"}],"samples":[%s],"limit":%d}'
        % (",".join(regions), TEXT, start_of(asked.functions), FRAMES, samples, asked.frames + 1)
    )


def main() -> None:
    """Runs the program."""
    asked = options()
    chosen = random.Random(asked.seed)
    different = asked.samples if asked.stacks is None else min(asked.stacks, asked.samples)
    stacks = [calls_of(chosen, asked.frames, asked.functions) for _ in range(different)]
    sys.stdout.write(report_of(stacks, asked.samples) if asked.report else samples_of(stacks, asked))


main()
