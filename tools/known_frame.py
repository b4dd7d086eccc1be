"""What is known of a frame at an instruction, and what an instruction changes of it.

System V x86-64 psABI, sections 3.2.1 (which registers a function keeps for its caller) and 3.2.2 (the stack frame, and the
red zone below RSP, which nobody else writes). A store by an address that isn't RSP, RBP or another register of known
distance is taken to miss the slots in which registers are saved, and a called function to keep what it has to keep.
"""
from __future__ import annotations

import functools
import re
from typing import Callable, NamedTuple

CALLEE_SAVED = ("rbx", "rbp", "r12", "r13", "r14", "r15")
OTHERS = ("rax", "rcx", "rdx", "rsi", "rdi", "r8", "r9", "r10", "r11")
RED_ZONE = 128
SIGNED = 1 << 63


class Frame(NamedTuple):
    """What is known: how far the CFA is above RSP; which registers' values in the caller are in memory, and how far below
    the CFA; which registers hold their values in the caller; how far the CFA is above other registers."""

    depth: int | None
    saved: frozenset[tuple[int, str]]
    kept: frozenset[str]
    distances: frozenset[tuple[str, int]]
    outermost: bool = False

    def distance(self, register: str) -> int | None:
        """How far the CFA is above a register, where that is known."""
        if register == "rsp":
            return self.depth
        return next((distance for name, distance in self.distances if name == register), None)

    def __str__(self) -> str:
        places = [("rsp", self.depth), ("rbp", self.distance("rbp"))]
        cfa = [f"{name}+{distance}" for name, distance in places if distance is not None] or ["unknown"]
        saved = [f"{register}@{distance}" for distance, register in sorted(self.saved)]
        kept = [register for register in CALLEE_SAVED if register in self.kept]
        end = " outermost" if self.outermost else ""
        return f"cfa {' '.join(cfa)} saved {' '.join(saved) or '-'} kept {' '.join(kept) or '-'}{end}"


NOTHING: frozenset[tuple[int, str]] = frozenset()
AT_ENTRY = Frame(8, NOTHING, frozenset(CALLEE_SAVED), frozenset())
OUTERMOST = AT_ENTRY._replace(outermost=True)


class Effect(NamedTuple):
    """What an instruction does: a kind, the registers that it writes, the register and the number that it computes with,
    and how many bytes it stores."""

    kind: str
    registers: tuple[str, ...] = ()
    base: str = ""
    number: int = 0
    size: int = 0


class Memory(NamedTuple):
    """An operand in memory by a register and a number."""

    base: str
    number: int
    size: int


# ---- what an instruction does, by its words

SIZES = {"BYTE": 1, "WORD": 2, "DWORD": 4, "QWORD": 8, "TBYTE": 10, "XMMWORD": 16, "YMMWORD": 32, "ZMMWORD": 64}
OPERAND = re.compile(r"(?:(\w+) PTR )?\[(\w+)(?:([+-])(0x[0-9a-f]+))?\]$")
READERS = frozenset(
    "cmp test bt nop ucomisd ucomiss comisd comiss vucomisd vucomiss vcomisd vcomiss ptest vptest vtestps vtestpd out mul "
    "div idiv fld fild fadd fsub fsubr fmul fdiv fdivr fiadd fisub fimul fidiv fcom fcomp fldcw fldenv frstor fxrstor "
    "fxrstor64 xrstor xrstor64 xrstors ldmxcsr vldmxcsr prefetcht0 prefetcht1 prefetcht2 prefetchnta prefetchw kortestb "
    "kortestw kortestd kortestq wrfsbase wrgsbase clflush clflushopt clwb cldemote invlpg ltr lldt lgdt lidt "
    "umonitor verr verw".split()
)
EXCHANGES = frozenset("xchg xadd mulx".split())
WIDE = {"cpuid": ("rax", "rbx", "rcx", "rdx"), "syscall": ("rax", "rcx", "r11")}


def names_of_parts() -> dict[str, str]:
    """The whole register of each name of a register or of a part of one."""
    found = {}
    for name in "abcd":
        found |= {part.format(name): f"r{name}x" for part in ("r{}x", "e{}x", "{}x", "{}l", "{}h")}
    for name in ("bp", "sp", "si", "di"):
        found |= {part.format(name): f"r{name}" for part in ("r{}", "e{}", "{}", "{}l")}
    for number in range(8, 16):
        found |= {f"r{number}{part}": f"r{number}" for part in ("", "d", "w", "b")}
    return found


WHOLE = names_of_parts()


def number_of(text: str) -> int | None:
    """A number that stands as an operand, as a signed one."""
    try:
        return (int(text, 16) + SIGNED) % (2 * SIGNED) - SIGNED
    except ValueError:
        return None


def memory_of(text: str) -> Memory | None:
    """An operand in memory, where it is by a whole register and a number alone."""
    found = OPERAND.match(text)
    if found is None or WHOLE.get(found[2]) != found[2]:
        return None
    number = int(found[4], 16) if found[4] else 0
    return Memory(found[2], -number if found[3] == "-" else number, SIZES.get(found[1], 8))


def effect_on_stack_pointer(mnemonic: str, operands: list[str]) -> Effect:
    """The effect of an instruction whose first operand is RSP."""
    source = operands[1] if len(operands) == 2 else ""
    number = number_of(source)
    if mnemonic in ("add", "sub") and number is not None:
        return Effect("move", ("rsp",), "rsp", number if mnemonic == "add" else -number)
    if mnemonic == "mov" and WHOLE.get(source) == source:
        return Effect("move", ("rsp",), source, 0)
    memory = memory_of(source) if mnemonic == "lea" else None
    return Effect("move", ("rsp",), memory.base, memory.number) if memory else Effect("write", ("rsp",))


def effect_on_register(mnemonic: str, operands: list[str]) -> Effect:
    """The effect of an instruction whose first operand is another register or a part of one."""
    register = WHOLE[operands[0]]
    if register == operands[0] and len(operands) == 2:
        memory = memory_of(operands[1])
        if mnemonic == "lea" and memory is not None:
            return Effect("move", (register,), memory.base, memory.number)
        if mnemonic == "mov" and WHOLE.get(operands[1]) == operands[1]:
            return Effect("move", (register,), operands[1], 0)
        if mnemonic == "mov" and memory is not None:
            return Effect("load", (register,), memory.base, memory.number)
    other = [WHOLE[name] for name in operands[1:2] if mnemonic in EXCHANGES and name in WHOLE]
    return Effect("write", (register, *other))


def effect_on_memory(mnemonic: str, operands: list[str]) -> Effect | None:
    """The effect of an instruction whose first operand is in memory."""
    if mnemonic in EXCHANGES and operands[1] in WHOLE:
        return Effect("write", (WHOLE[operands[1]],))
    memory = memory_of(operands[0])
    if memory is None or (mnemonic == "or" and operands[1:] == ["0x0"]):
        return None
    source = operands[1] if mnemonic == "mov" and operands[1] in CALLEE_SAVED else ""
    return Effect("store", (source,) if source else (), *memory)


def effect_of(mnemonic: str, operands: list[str]) -> Effect | None:
    """The effect of an instruction that is no branch."""
    if mnemonic in WIDE:
        return Effect("write", WIDE[mnemonic])
    if mnemonic.startswith("push"):
        return Effect("push", tuple(operands[:1]) if operands[:1] and operands[0] in CALLEE_SAVED else ())
    if mnemonic.startswith("pop") and not mnemonic.startswith("popcnt"):
        return Effect("pop", (WHOLE[operands[0]],) if operands and operands[0] in WHOLE else ())
    if mnemonic in ("leave", "enter"):
        return Effect(mnemonic)
    if not operands or mnemonic in READERS or (mnemonic == "imul" and len(operands) == 1):
        return None
    if WHOLE.get(operands[0]) == "rsp":
        return effect_on_stack_pointer(mnemonic, operands)
    if operands[0] in WHOLE:
        return effect_on_register(mnemonic, operands)
    return effect_on_memory(mnemonic, operands) if operands[0].endswith("]") else None


# ---- what is known after it


def at_depth(frame: Frame, depth: int | None) -> Frame:
    """The frame with another RSP: what is saved is known down to the end of the red zone."""
    saved = frame.saved
    if depth is not None:
        saved = frozenset(slot for slot in saved if slot[0] <= depth + RED_ZONE)
    return frame._replace(depth=depth, saved=saved)


def written(frame: Frame, registers: tuple[str, ...]) -> Frame:
    """The frame after registers were written."""
    distances = frozenset(pair for pair in frame.distances if pair[0] not in registers)
    frame = frame._replace(kept=frame.kept - set(registers), distances=distances)
    return at_depth(frame, None) if "rsp" in registers else frame


def stored(frame: Frame, distance: int, size: int, register: str) -> Frame:
    """The frame after a store at a distance below the CFA, of a register's whole value where one is named."""
    saved = frozenset(slot for slot in frame.saved if not distance - size < slot[0] < distance + 8)
    if register in frame.kept and size == 8 and distance >= 16:
        saved |= {(distance, register)}
    return frame._replace(saved=saved)


def restored(frame: Frame, register: str, distance: int | None) -> Frame:
    """The frame after a register was read from memory at a distance below the CFA."""
    is_saved = (distance, register) in frame.saved
    frame = written(frame, (register,))
    return frame._replace(kept=frame.kept | {register}) if is_saved else frame


def pushed(frame: Frame, effect: Effect) -> Frame:
    """After a push."""
    if frame.depth is None:
        return frame
    lower = at_depth(frame, frame.depth + 8)
    return stored(lower, frame.depth + 8, 8, effect.registers[0] if effect.registers else "")


def popped(frame: Frame, effect: Effect) -> Frame:
    """After a pop."""
    for register in effect.registers:
        frame = restored(frame, register, frame.depth)
    return at_depth(frame, None if frame.depth is None else frame.depth - 8)


def moved(frame: Frame, effect: Effect) -> Frame:
    """After a register was set to another one plus a number."""
    (register,) = effect.registers
    distance = frame.distance(effect.base)
    if register == effect.base and effect.number == 0:
        return frame
    new = None if distance is None else distance - effect.number
    if register == "rsp":
        return at_depth(frame, new)
    frame = written(frame, (register,))
    return frame if new is None else frame._replace(distances=frame.distances | {(register, new)})


def loaded(frame: Frame, effect: Effect) -> Frame:
    """After a register was read from memory."""
    distance = frame.distance(effect.base)
    return restored(frame, effect.registers[0], None if distance is None else distance - effect.number)


def put(frame: Frame, effect: Effect) -> Frame:
    """After a store."""
    distance = frame.distance(effect.base)
    if distance is None:
        return frame
    return stored(frame, distance - effect.number, effect.size, effect.registers[0] if effect.registers else "")


def left(frame: Frame, effect: Effect) -> Frame:
    """After a `leave`: RSP is set to RBP, and RBP is popped."""
    return popped(moved(frame, Effect("move", ("rsp",), "rbp", 0)), effect._replace(registers=("rbp",)))


STEPS: dict[str, Callable[[Frame, Effect], Frame]] = {
    "push": pushed,
    "pop": popped,
    "move": moved,
    "load": loaded,
    "store": put,
    "leave": left,
    "enter": lambda frame, _effect: written(frame, ("rsp", "rbp")),
    "write": lambda frame, effect: written(frame, effect.registers),
}


@functools.lru_cache(maxsize=1 << 18)
def after(frame: Frame, effect: Effect) -> Frame:
    """What is known after an instruction. Of an outermost frame, which has no caller, the same is known throughout."""
    return frame if frame.outermost else STEPS[effect.kind](frame, effect)


@functools.lru_cache(maxsize=1 << 16)
def in_call(frame: Frame) -> Frame:
    """What is known while a function is called: what was below RSP is lost, and registers that it needn't keep are."""
    saved = frame.saved
    if frame.depth is not None:
        saved = frozenset(slot for slot in saved if slot[0] <= frame.depth)
    distances = frozenset(pair for pair in frame.distances if pair[0] not in OTHERS)
    return frame._replace(saved=saved, distances=distances)


@functools.lru_cache(maxsize=1 << 16)
def meet(one: Frame, other: Frame) -> Frame:
    """What is known where two ways meet."""
    return Frame(
        one.depth if one.depth == other.depth else None,
        one.saved & other.saved,
        one.kept & other.kept,
        one.distances & other.distances,
        one.outermost and other.outermost,
    )
