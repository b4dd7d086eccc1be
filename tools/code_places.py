"""Where in its function each instruction stands: in the prologue, in the body or in an epilogue.

It is found in what gdb's `disassemble` prints, with AT&T's spelling: by what the instructions do to the stack pointer
and the callee-saved registers, and by no table.
"""
from __future__ import annotations

import re

LINE = re.compile(r"^(?:=> )?\s*0x([0-9a-f]+) <\+\d+>:\t(.*)$")
KEPT = "rbx|rbp|r12|r13|r14|r15"
# A step of a prologue: a push, RBP set to RSP, room that is made, and a callee-saved register that is stored.
STEP = re.compile(rf"^(push +%|mov +%rsp,%rbp$|sub +\$0x[0-9a-f]+,%rsp$|mov +%({KEPT}),-?(0x[0-9a-f]+)?\(%r[sb]p\)$)")
# The same in a PE image, where more registers are kept, and RBP may be set to some bytes above RSP.
KEPT_OF_WINDOWS = rf"{KEPT}|rdi|rsi|xmm[6-9]|xmm1[0-5]"
STEP_OF_WINDOWS = re.compile(
    r"^(push +%|mov +%rsp,%rbp$|lea +0x[0-9a-f]+\(%rsp\),%rbp$|sub +\$0x[0-9a-f]+,%rsp$|"
    rf"mov(aps|ups)? +%({KEPT_OF_WINDOWS}),-?(0x[0-9a-f]+)?\(%r[sb]p\)$)"
)
# What undoes one.
UNDOING = re.compile(r"^(pop +%|leave|add +\$0x[0-9a-f]+,%rsp$|lea +-?(0x[0-9a-f]+)?\(%rbp\),%rsp$|mov +%rbp,%rsp$)")
JUMPS = ("jmp", "bnd jmp", "rex.W jmp")
LEAVING = ("ret", "repz ret", *JUMPS)
TRANSFER = ("call", "j", "syscall", *LEAVING)


def last_step(instructions: list[str], step: re.Pattern[str]) -> int | None:
    """The place of the prologue's last step, -1 where there is no step, and None where a jump stands before it."""
    last: int | None = -1
    jumps = False
    for place, text in enumerate(instructions):
        if UNDOING.match(text) or text.startswith(("call", "syscall", *LEAVING)):
            break
        if step.match(text):
            last = None if jumps else place
        jumps = jumps or text.startswith(TRANSFER)
    return last


def undone_places(instructions: list[str], begin: int) -> set[int]:
    """The places where a step has been undone: those after the first that undoes one, up to where the function is left."""
    found: set[int] = set()
    for end, text in enumerate(instructions):
        if text.startswith(LEAVING):
            start = end
            while start > begin + 1 and not instructions[start - 1].startswith(TRANSFER):
                start -= 1
            undoing = [place for place in range(start, end) if UNDOING.match(instructions[place])]
            found.update(range(undoing[0] + 1, end + 1) if undoing else ())
    return found


def code_places(listing: str, of_windows: bool = False) -> dict[int, str]:
    """The place of each address of a function that `disassemble` lists: `prologue` before its last step, `epilogue` where
    a step has been undone, `body` between. It is `other` in a function whose steps don't all come first, since a path that
    needs no frame jumps over them; and at a jump in the body of a PE function, for which its unwind data has no sign."""
    lines = [match.groups() for match in map(LINE.match, listing.splitlines()) if match]
    instructions = [text.strip() for _, text in lines]
    last = last_step(instructions, STEP_OF_WINDOWS if of_windows else STEP)
    undone = undone_places(instructions, last if last is not None else -1)
    found = {}
    for place, (address, _) in enumerate(lines):
        name = "prologue" if last is not None and place <= last else "epilogue" if place in undone else "body"
        is_jump = of_windows and name == "body" and instructions[place].startswith(JUMPS)
        found[int(address, 16)] = "other" if last is None or is_jump else name
    return found
