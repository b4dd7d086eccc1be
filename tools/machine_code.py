"""The instructions of an x86-64 ELF file, as `objdump` (Debian: binutils) reads them, and where each leads."""
from __future__ import annotations

import functools
import re
import subprocess
from enum import Enum
from typing import Iterator, NamedTuple

from known_frame import Effect, effect_of

LINE = re.compile(r" *([0-9a-f]+):\t(.*)")
BRANCH = re.compile(r"([0-9a-f]+)(?: <(.*)>)?$")
NAMED = re.compile(r"([0-9a-f]+)(?: <(.*)>)?")
PREFIXES = frozenset("bnd notrack rep repz repnz lock data16 addr32 cs ds es ss fs gs rex rex.W xacquire xrelease".split())
RETURNS = frozenset("ret retf iret iretq sysret sysretq".split())
STOPS = frozenset("ud2 ud1 ud0 hlt int3 (bad)".split())
PADDING = frozenset("nop int3 data16 cs xchg".split())


class Way(Enum):
    """Where the processor goes from an instruction."""

    NEXT = "to the one after it"
    CONDITION = "to its target, or to the one after it"
    JUMP = "to its target"
    CALL = "to its target, and back"
    RETURN = "to the caller"
    STOP = "nowhere"


class Instruction(NamedTuple):
    """An instruction. `target` is the address that it names, if any, by its operand or relative to itself, and `name`
    what objdump calls that."""

    address: int
    end: int
    text: str
    way: Way
    target: int | None
    name: str
    effect: Effect | None

    @property
    def is_padding(self) -> bool:
        """Whether it is of the kinds that fill the room between blocks."""
        return self.text.split()[0] in PADDING


class Reading(NamedTuple):
    """What a line of objdump says of an instruction, without its address."""

    text: str
    way: Way
    target: int | None
    name: str
    effect: Effect | None


def split(text: str) -> tuple[str, list[str]]:
    """An instruction's mnemonic without prefixes, and its operands."""
    words = text.split()
    while len(words) > 1 and words[0] in PREFIXES:
        words.pop(0)
    operands = " ".join(words[1:])
    return words[0], operands.split(",") if operands else []


def way_of(mnemonic: str) -> Way:
    """Where an instruction leads, by its mnemonic."""
    if mnemonic == "call":
        return Way.CALL
    if mnemonic == "jmp":
        return Way.JUMP
    if mnemonic[0] == "j" or mnemonic.startswith("loop") or mnemonic == "xbegin":
        return Way.CONDITION
    if mnemonic in RETURNS:
        return Way.RETURN
    return Way.STOP if mnemonic in STOPS else Way.NEXT


@functools.lru_cache(maxsize=1 << 17)
def reading_of(line: str) -> Reading:
    """What is read of a line without its address."""
    text, _hash, comment = line.partition(" #")
    text = text.strip()
    mnemonic, operands = split(text)
    way = way_of(mnemonic)
    branch = BRANCH.match(operands[0]) if way in (Way.CALL, Way.JUMP, Way.CONDITION) and operands else None
    named = branch or NAMED.match(comment.strip())
    target, name = (int(named[1], 16), named[2] or "") if named else (None, "")
    effect = effect_of(mnemonic, operands) if way is Way.NEXT else None
    return Reading(" ".join(text.split()), way, target, name, effect)


def is_direct(instruction: Instruction) -> bool:
    """Whether a branch's target is where it leads, and not a cell that holds that."""
    return instruction.target is not None and "[" not in instruction.text


def lines_of(path: str, *options: str) -> Iterator[tuple[int, str]]:
    """The lines of objdump that are instructions, by their addresses."""
    command = ["objdump", "-d", "-z", "-w", "-M", "intel", "--no-show-raw-insn", *options, path]
    with subprocess.Popen(command, stdout=subprocess.PIPE, text=True, errors="replace") as process:
        assert process.stdout is not None
        for line in process.stdout:
            if found := LINE.match(line):
                yield int(found[1], 16), found[2]


def instructions_of(path: str, *options: str) -> Iterator[Instruction]:
    """The instructions of a file in their order. The last one of each section ends where it starts."""
    before: tuple[int, str] | None = None
    for address, line in lines_of(path, *options):
        if before is not None:
            yield Instruction(before[0], address, *reading_of(before[1]))
        before = address, line
    if before is not None:
        yield Instruction(before[0], before[0], *reading_of(before[1]))


def instructions_in(path: str, start: int, end: int) -> list[Instruction]:
    """The instructions of a range alone, for one in whose midst objdump reads the file as a whole."""
    found = list(instructions_of(path, f"--start-address={start:#x}", f"--stop-address={end:#x}"))
    return [one if one.end > one.address else one._replace(end=end) for one in found]
