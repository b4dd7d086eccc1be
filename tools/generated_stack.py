#!/usr/bin/env python3
"""Prints what is due of the chain of COUNT calls that SEED gives.

    generated_stack.py walk COUNT SEED         the report of a walk
    generated_stack.py deliver COUNT SEED      the report of a delivery
    generated_stack.py generate COUNT SEED     the summary of a delivery, but for its last line

The states are made from the outermost call inwards, as the calls themselves make them. Nothing is
unwound and no table is read, so this is an answer to compare the program's with.
"""

import sys
from dataclasses import dataclass, replace

WORD = 1 << 64
TEXT = 0x400000
STACK_END = 0x7FFF00000000
EXCEPTION = 0x900000


@dataclass(frozen=True)
class State:
    ra: int
    sp: int
    rbx: int
    rbp: int

    def fields(self):
        others = "".join(f" {name}=0x0" for name in ("r12", "r13", "r14", "r15"))
        return f" ra={self.ra:#x} sp={self.sp:#x} rbx={self.rbx:#x} rbp={self.rbp:#x}{others}"


def kinds(count, seed):
    """The prologue of each function: the two highest bits of a word of the sequence."""
    word = seed
    for _ in range(count):
        word = (word * 6364136223846793005 + 1442695040888963407) % WORD
        yield word >> 62


def entered(kind, index, caller):
    """The state of a function that was called from a state."""
    slot = caller.sp - 8
    state = replace(caller, ra=TEXT + 64 * index + 32)
    if kind in (2, 3):
        slot -= 8
        state = replace(state, rbp=slot)
    if kind in (0, 1, 3):
        slot -= 8
        state = replace(state, rbx=index)
    return replace(state, sp=slot - {0: 0, 1: 16, 2: 0, 3: 24}[kind])


def states(count, seed):
    """The states from the innermost outwards, the one that the outermost function was called from last."""
    found = [State(0, STACK_END, seed, 0)]
    for index, kind in reversed(list(enumerate(kinds(count, seed)))):
        found.append(entered(kind, index, found[-1]))
    return found[::-1]


def cleanups(count):
    return [index for index in range(count - 1) if index % 4 == 3]


def frame_lines(found):
    return [f"frame {index}{state.fields()}" for index, state in enumerate(found)]


def walk(count, seed):
    return frame_lines(states(count, seed)) + ["end"]


def deliver(count, seed):
    found = states(count, seed)[:count]
    lines = frame_lines(found)
    for index in cleanups(count):
        lines.append(f"cleanup pad={TEXT + 64 * index + 48:#x} sp={found[index].sp:#x}")
    handler = replace(found[-1], ra=TEXT + 64 * (count - 1) + 48)
    lines.append(f"landing{handler.fields()} rax={EXCEPTION:#x} rdx=0x0")
    return lines + ["outcome installed"]


def generate(count, seed):
    return [
        f"functions {count}",
        f"frames {count}",
        f"cleanups {len(cleanups(count))}",
        "outcome installed",
    ]


def main():
    reports = {"walk": walk, "deliver": deliver, "generate": generate}
    if len(sys.argv) != 4 or sys.argv[1] not in reports:
        sys.exit(__doc__)
    print("\n".join(reports[sys.argv[1]](int(sys.argv[2]), int(sys.argv[3]))))


if __name__ == "__main__":
    main()
