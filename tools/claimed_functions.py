#!/usr/bin/env python3
"""The functions of a file by the machine code alone, as claims for a check of its frame table (docs/FORMATS.md).

    tools/claimed_functions.py FILE >CLAIMS

FILE is an ELF file of x86-64. The object has the file's .eh_frame and .eh_frame_hdr at the addresses that the file gives
them, its language tables, one module, and each function that has a body: the steps of its prologue, each with how many bytes
after the start it has ended, and the ranges of instructions at which all of them have and none is undone. Where more than one
prologue could be meant, as where a function goes on to make room for arguments, it is the one whose body has the most calls,
then one that sets RBP, and then the one with the most instructions.

Left out are descriptions into which others jump with a frame, as `.cold` parts; those of signals' frames and of the procedure
linkage table; and functions whose exceptions land outside of them. What calls ask is what the language table says: it isn't in
the code. An outermost function, as `_start` is, has a body alone.

It wants `readelf` and `objdump` (Debian: binutils).
"""
from __future__ import annotations

from typing import Iterator, NamedTuple

from claimed_facts import tables_of, write_claims
from code_file import CodeFile, Description
from code_flow import CodeFlow
from elf_image import Range
from known_frame import CALLEE_SAVED, Frame
from language_sites import Site
from machine_code import Instruction, Way
from snapshot_file import Object, Region, region_object

WORD = 8


class Step(NamedTuple):
    """A step of a prologue: what it does, the register that it saves or none, a number, and how many bytes after the start it
    has ended."""

    kind: str
    register: str
    number: int
    end: int


class Prologue(NamedTuple):
    """Steps, and the frame after them: how far RSP is below the CFA, which registers are saved and where, and how far below
    the CFA RBP was set, if it was."""

    steps: tuple[Step, ...] = ()
    depth: int = WORD
    saved: frozenset[tuple[int, str]] = frozenset()
    set_at: int | None = None

    def has_saved(self, register: str) -> bool:
        """Whether a register is saved."""
        return any(name == register for _distance, name in self.saved)


class Function(NamedTuple):
    """A function: its range, steps and bodies, what its calls ask if it has a language table, and whether it is outermost."""

    covers: Range
    steps: tuple[Step, ...]
    bodies: tuple[Range, ...]
    sites: list[Site] | None
    outermost: bool


# ---- prologues


def is_after(frame: Frame | None, prologue: Prologue) -> bool:
    """Whether nothing but these steps was done to the stack pointer and to what is saved."""
    return frame is not None and frame.depth == prologue.depth and prologue.saved <= frame.saved


def pushed(prologue: Prologue, frame: Frame, registers: tuple[str, ...], end: int) -> Prologue:
    """The prologue with a push more: of a value that isn't the caller's it makes room."""
    depth = prologue.depth + WORD
    if registers and registers[0] in frame.kept and not prologue.has_saved(registers[0]):
        (name,) = registers
        step = Step("push", name, 0, end)
        return prologue._replace(steps=(*prologue.steps, step), depth=depth, saved=prologue.saved | {(depth, name)})
    return prologue._replace(steps=(*prologue.steps, Step("allocate", "", WORD, end)), depth=depth)


def stored(prologue: Prologue, frame: Frame, name: str, distance: int, end: int) -> Prologue | None:
    """The prologue with a store more, into a slot so far below the CFA."""
    place = prologue.depth - distance
    if name not in frame.kept or prologue.has_saved(name) or place < 0 or place % WORD or distance < 2 * WORD:
        return None
    step = Step("store", name, place, end)
    return prologue._replace(steps=(*prologue.steps, step), saved=prologue.saved | {(distance, name)})


def with_step(prologue: Prologue, frame: Frame, one: Instruction, start: int) -> Prologue | None:
    """The prologue with an instruction as its next step, if it is one."""
    effect, end = one.effect, one.end - start
    if effect is None or not is_after(frame, prologue):
        return None
    if effect.kind == "push":
        return pushed(prologue, frame, effect.registers, end)
    if effect.kind == "store" and effect.registers and effect.size == WORD:
        distance = frame.distance(effect.base)
        return None if distance is None else stored(prologue, frame, effect.registers[0], distance - effect.number, end)
    if effect.kind != "move" or effect.base != "rsp":
        return None
    if effect.registers == ("rsp",) and effect.number < 0 and effect.number % WORD == 0:
        step = Step("allocate", "", -effect.number, end)
        return prologue._replace(steps=(*prologue.steps, step), depth=prologue.depth - effect.number)
    pushes = any(step.kind == "push" and step.register == "rbp" for step in prologue.steps)
    if effect.registers == ("rbp",) and effect.number == 0 and prologue.set_at is None and pushes:
        return prologue._replace(steps=(*prologue.steps, Step("set", "", 0, end)), set_at=prologue.depth)
    return None


def prologues_of(flow: CodeFlow, first: int, last: int) -> list[Prologue]:
    """No steps, and then one more at a time, by ascending address."""
    found = [Prologue()]
    start = flow.file.code[first].address
    for place in range(first, last):
        frame = flow.frames[place]
        longer = None if frame is None else with_step(found[-1], frame, flow.file.code[place], start)
        if longer is not None:
            found.append(longer)
    return found


# ---- bodies


def is_in_body(frame: Frame | None, prologue: Prologue) -> bool:
    """Whether all steps are done at an instruction and none is undone: RSP is where they left it, or below where RBP is set;
    what they saved is in its slots; and other registers hold what the caller has."""
    if frame is None or frame.outermost or not prologue.saved <= frame.saved:
        return False
    if prologue.set_at is None:
        is_there = frame.depth == prologue.depth
    else:
        is_there = frame.distance("rbp") == prologue.set_at and (frame.depth is None or frame.depth >= prologue.depth)
    return is_there and all(name in frame.kept or prologue.has_saved(name) for name in CALLEE_SAVED)


def joined(pieces: list[Instruction]) -> tuple[Range, ...]:
    """Instructions as ranges."""
    found: list[Range] = []
    for one in pieces:
        if found and found[-1].end == one.address:
            found[-1] = Range(found[-1].start, one.end)
        else:
            found.append(Range(one.address, one.end))
    return tuple(found)


def end_of(prologue: Prologue, code: list[Instruction]) -> int:
    """Where the steps have ended, by the code from the start on. Where RBP is set room that is made at once is of no account:
    compilers' rows tell of registers that were pushed before it after that."""
    end = code[0].address + (prologue.steps[-1].end if prologue.steps else 0)
    for one in code if prologue.set_at is not None else ():
        effect = one.effect
        if one.address == end and effect is not None:
            makes_room = effect.kind == "move" and effect.registers == ("rsp",) and effect.base == "rsp" and effect.number < 0
            end = one.end if makes_room or effect.kind == "push" else end
    return end


def body_of(flow: CodeFlow, first: int, last: int, prologue: Prologue) -> list[Instruction]:
    """The instructions of a prologue's body."""
    code, begin = flow.file.code, end_of(prologue, flow.file.code[first:last])
    places = (place for place in range(first, last) if code[place].address >= begin)
    return [code[place] for place in places if is_in_body(flow.frames[place], prologue)]


def rank(found: tuple[Prologue, list[Instruction]]) -> tuple[int, bool, int]:
    """Which prologue is meant, by its body: the one with the most calls, then one that sets RBP, then the one with the most
    instructions."""
    prologue, body = found
    return sum(one.way is Way.CALL for one in body), bool(body) and prologue.set_at is not None, len(body)


def function_of(flow: CodeFlow, number: int) -> Function | None:
    """The function of a description, if it has a body."""
    first, last = flow.file.bounds[number]
    description = flow.file.descriptions[number]
    frames = flow.frames[first:last]
    if frames and frames[0] is not None and frames[0].outermost:
        body = [one for one, frame in zip(flow.file.code[first:last], frames) if frame is not None and frame.outermost]
        return Function(description.covers, (), joined(body), None, True)
    bodies = [(prologue, body_of(flow, first, last, prologue)) for prologue in prologues_of(flow, first, last)]
    prologue, body = max(bodies, key=rank)
    return Function(description.covers, prologue.steps, joined(body), description.language, False) if body else None


def is_function(flow: CodeFlow, description: Description) -> bool:
    """Whether a description is of a function that is entered at its start alone, with the return address on the stack."""
    start, end = description.covers
    if description.is_signal or flow.file.is_in_plt(start) or start in flow.parts:
        return False
    return all(start < site.pad < end for site in description.sites)


def functions_in(flow: CodeFlow) -> Iterator[Function]:
    """The functions of a file, by ascending address."""
    for number, description in enumerate(flow.file.descriptions):
        found = function_of(flow, number) if is_function(flow, description) else None
        if found is not None:
            yield found


# ---- objects


def step_object(step: Step) -> Object:
    """A step as docs/FORMATS.md spells it."""
    said: Object = {"push": step.register} if step.kind == "push" else {step.kind: hex(step.number)}
    if step.kind == "store":
        said = {"store": step.register, "at": hex(step.number)}
    return said | {"end": hex(step.end)}


def site_object(site: Site) -> list[str]:
    """A call site as docs/FORMATS.md spells it."""
    asks = "catch" if site.asks > 0 else "filter" if site.asks < 0 else "cleanup"
    return [hex(site.start), hex(site.end), *([asks, hex(site.pad)] if site.pad else ["none"])]


def function_object(function: Function) -> Object:
    """A function as docs/FORMATS.md spells it."""
    said: Object = {
        "start": hex(function.covers.start),
        "end": hex(function.covers.end),
        "steps": [step_object(step) for step in function.steps],
        "body": [[hex(body.start), hex(body.end)] for body in function.bodies],
    }
    if function.sites is not None:
        said["sites"] = [site_object(site) for site in function.sites]
    return said | {"outermost": True} if function.outermost else said


def claims_of(path: str) -> Object:
    """The object of a file."""
    flow = CodeFlow(CodeFile(path))
    found = tables_of(flow.file)
    section = flow.file.elf.section(".gcc_except_table")
    if section is not None:
        found["regions"].append(region_object(Region(section.address, flow.file.bytes_from(section.address)[: section.size])))
    return found | {"functions": [function_object(function) for function in functions_in(flow)]}


if __name__ == "__main__":
    write_claims("claimed_functions.py", claims_of)
