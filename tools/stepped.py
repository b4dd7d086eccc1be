"""A command of gdb that runs a program instruction by instruction and writes the true callers of each state.

    gdb -nx -q -batch -ix tools/snapshot.py -x tools/stepped.py -ex "stepped FILE [IMAGE]..." PROGRAM
    gdb -nx -q -batch -ix tools/snapshot.py -x tools/stepped.py -ex "stepped_to_wait SNAPSHOT FRAMES [IMAGE]..." PROGRAM

It runs PROGRAM to `main` and goes on to where `main` returns. Before each instruction, of one that runs often
the first eight times, it writes a line to FILE: the registers, the stack, where in its function the instruction
stands, and the callers' states. Those come from the run alone, and from no table: at each entry of a function its
return address is the word at the stack pointer, and the registers that it has to keep are those that its caller
has. At each `ret` they are compared with what the caller then has. Functions of libraries are run and not stepped.
The first line of FILE is a snapshot of the program's own module, with its tables and without a stack. An IMAGE is a
PE or a Mach-O file that the program has mapped, before `main`, where the file says: it is a module too, and its
functions are stepped as those of the program are.

tools/compare_stepped.py compares the walk of each state with these callers.

`stepped_to_wait` runs from `main` to the first system call of the program itself, and from there to the end. It writes
a snapshot of where the system call stands, with the stack, and to FRAMES the callers in the form of a walk's report.
"""
from __future__ import annotations

import json
import os
import sys
import tempfile
from collections import Counter
from dataclasses import dataclass
from typing import TextIO

import gdb

sys.path.insert(0, os.path.dirname(os.path.abspath(__file__)))

from code_places import code_places  # noqa: E402
from compare_stepped import due_lines  # noqa: E402
from image_files import MACHO, PE, Function, ImageFile, image_file  # noqa: E402
from snapshot import REGISTERS  # noqa: E402
from snapshot_file import Object, Region, read_snapshot, region_object, regions_of, text_of  # noqa: E402

KEPT = "rbx rbp r12 r13 r14 r15".split()
# What a function may use below its stack pointer (System V x86-64 psABI, section 3.2.2).
RED_ZONE = 128
# Of an instruction in a loop so many states are written.
MOST_AT_ONE_PLACE = 8
SYSTEM_CALL = b"\x0f\x05"
# So much of the stack below `main` is cleared: what ran before has left names of files there.
CLEARED = 0x8000


@dataclass(frozen=True)
class Caller:
    """A caller's state: where a call returns to, its stack pointer then, and the registers that are kept for it."""

    ra: int
    sp: int
    kept: tuple[int, ...]

    def as_object(self) -> Object:
        """As it is written."""
        return {"ra": f"{self.ra:#x}", "sp": f"{self.sp:#x}"} | {
            name: f"{value:#x}" for name, value in zip(KEPT, self.kept)
        }


def listing_of(function: Function) -> str:
    """The instructions of an image's function, as gdb's `disassemble` lists those of a function that it knows."""
    start, end = function.place.start, function.place.end
    found = gdb.newest_frame().architecture().disassemble(start, end - 1)
    return "\n".join(f"   {each['addr']:#x} <+{each['addr'] - start}>:\t{each['asm']}" for each in found)


@dataclass(frozen=True)
class Place:
    """Where an address stands: in a module of which kind, in which function, and where in that."""

    kind: str
    function: str
    part: str


class Places:
    """Where in their functions addresses stand."""

    def __init__(self, images: list[ImageFile]) -> None:
        self.images = images
        self.known: dict[int, Place] = {}

    def image_at(self, address: int) -> ImageFile | None:
        """The image whose code has an address."""
        return next((image for image in self.images if image.code.contains(address)), None)

    def add(self, address: int) -> None:
        """Adds the function that holds an address."""
        image = self.image_at(address)
        if image is None:
            kind = "elf"
            found = code_places(gdb.execute(f"disassemble {address:#x}", to_string=True))
            name = gdb.execute(f"info symbol {min(found):#x}", to_string=True).split()[0]
        else:
            kind = image.kind
            function = image.function_at(address)
            name = function.name
            found = code_places(listing_of(function), of_windows=kind == PE)
        if kind == MACHO and "prologue" not in found.values():
            # No opcode says that a function has no frame.
            found = dict.fromkeys(found, "other")
        self.known.update({each: Place(kind, name, part) for each, part in found.items()})

    def at(self, address: int) -> Place:
        """Where an address stands."""
        if address not in self.known:
            self.add(address)
        return self.known[address]


# ---- the run


def register(name: str) -> int:
    """What a register holds."""
    return int(gdb.newest_frame().read_register(name)) % 2**64


def bytes_of(start: int, end: int) -> bytes:
    """The process's memory between two addresses."""
    return gdb.selected_inferior().read_memory(start, end - start).tobytes()


def word_at(address: int) -> int:
    """The word at an address."""
    return int.from_bytes(bytes_of(address, address + 8), "little")


def kept_now() -> tuple[int, ...]:
    """The registers that a function keeps for its caller."""
    return tuple(register(name) for name in KEPT)


def entered() -> Caller:
    """The caller of a function that stands at its first instruction."""
    pointer = register("rsp")
    return Caller(word_at(pointer), pointer + 8, kept_now())


def step_over(address: int) -> None:
    """Goes on by one instruction. A system call is passed by, since it would wait."""
    if bytes_of(address, address + 2) == SYSTEM_CALL:
        gdb.execute("set $rip = $rip + 2")
    else:
        gdb.execute("stepi", to_string=True)


class Run:
    """A run of a program from `main` to its end, with the callers of where it stands, the innermost last."""

    def __init__(self, images: list[ImageFile]) -> None:
        self.places = Places(images)
        self.written: Counter[int] = Counter()
        self.callers = [entered()]
        self.top = self.callers[0].sp

    def is_inside(self, address: int) -> bool:
        """Whether the program itself or an image has an address, and neither a library nor a stub for one."""
        if self.places.image_at(address) is not None:
            return True
        section = gdb.execute(f"info symbol {address:#x}", to_string=True)
        return gdb.solib_name(address) is None and "section .text" in section

    def state(self) -> Object:
        """The registers and the stack, and the callers' states."""
        below = register("rsp") - RED_ZONE
        return {
            "start": {name: f"{register(name):#x}" for name in REGISTERS},
            "stack": region_object(Region(below, bytes_of(below, self.top))),
            "callers": [caller.as_object() for caller in reversed(self.callers)],
        }

    def write_state(self, file: TextIO, address: int) -> None:
        """Writes a line for the state before an instruction."""
        self.written[address] += 1
        place = self.places.at(address)
        where = {"kind": place.kind, "function": place.function, "place": place.part}
        file.write(json.dumps(where | self.state()) + "\n")

    def left(self) -> None:
        """A function was left: its caller has what was noted at its entry."""
        caller = self.callers.pop()
        if (register("rip"), register("rsp"), kept_now()) != (caller.ra, caller.sp, caller.kept):
            raise gdb.GdbError(f"stepped: the state after a return to {caller.ra:#x} isn't its caller's")

    def go_on(self) -> None:
        """Goes on by one instruction, and notes what it entered or left."""
        address = register("rip")
        instruction = gdb.newest_frame().architecture().disassemble(address)[0]
        text, after = instruction["asm"], address + instruction["length"]
        step_over(address)
        if text.startswith("call"):
            if self.is_inside(register("rip")):
                self.callers.append(entered())
            else:
                gdb.execute(f"tbreak *{after:#x}", to_string=True)
                gdb.execute("continue", to_string=True)
        elif text.startswith(("ret", "repz ret")):
            self.left()

    def to_the_end(self, file: TextIO | None = None) -> str:
        """Runs on to where `main` returns. How many states were written, and of how many instructions."""
        while self.callers:
            address = register("rip")
            if file and self.written[address] < MOST_AT_ONE_PLACE:
                self.write_state(file, address)
            self.go_on()
        return f"{self.written.total()} states at {len(self.written)} of {len(self.places.known)} instructions"

    def to_wait(self) -> None:
        """Runs on to the first system call of the program itself."""
        while bytes_of(register("rip"), register("rip") + len(SYSTEM_CALL)) != SYSTEM_CALL:
            self.go_on()


def images_in(files: list[str]) -> list[ImageFile]:
    """The images in files."""
    found = []
    for file in files:
        with open(file, "rb") as stream:
            found.append(image_file(stream.read()))
    return found


def begun(images: list[ImageFile]) -> Run:
    """Runs the program to `main`."""
    gdb.execute("tbreak *main", to_string=True)
    gdb.execute("run", to_string=True)
    return Run(images)


def clear_below() -> None:
    """Clears the stack below where the program stands, before it is run from there."""
    gdb.selected_inferior().write_memory(register("rsp") - CLEARED, bytes(CLEARED))


def tables_of(images: list[ImageFile], options: str = "--interrupted") -> Object:
    """A snapshot of the program's own module and of images, without its stack."""
    module = os.path.basename(gdb.current_progspace().filename)
    with tempfile.TemporaryDirectory() as folder:
        file = os.path.join(folder, "snapshot.json")
        gdb.execute(f"snapshot {file} {options} --limit 64 --stack-bytes 8 --frame-tables --module {module}", to_string=True)
        found = read_snapshot(file)
    pointer = int(found["start"]["rsp"], 16)
    regions = [region for region in regions_of(found) if not region.start <= pointer < region.end]
    for image in images:
        regions += [Region(place.start, bytes_of(place.start, place.end)) for place in image.places]
        found["modules"].append(image.module)
    found["regions"] = [region_object(region) for region in sorted(regions, key=lambda region: region.start)]
    return found


class SteppedCommand(gdb.Command):
    """Run the program instruction by instruction from main, and write the callers of each state: stepped FILE [IMAGE]..."""

    def __init__(self) -> None:
        super().__init__("stepped", gdb.COMMAND_RUNNING, gdb.COMPLETE_FILENAME)

    def invoke(self, argument: str, from_tty: bool) -> None:
        """Runs the command."""
        name, *files = gdb.string_to_argv(argument)
        images = images_in(files)
        run = begun(images)
        with open(name, "w", encoding="ascii") as file:
            file.write(json.dumps(tables_of(images)) + "\n")
            told = run.to_the_end(file)
        gdb.execute("kill", to_string=True)
        print(f"wrote {name}: {told}")


class SteppedToWaitCommand(gdb.Command):
    """Run the program instruction by instruction from main to its first system call, and write a snapshot and the
true callers there: stepped_to_wait SNAPSHOT FRAMES [IMAGE]..."""

    def __init__(self) -> None:
        super().__init__("stepped_to_wait", gdb.COMMAND_RUNNING, gdb.COMPLETE_FILENAME)

    def invoke(self, argument: str, from_tty: bool) -> None:
        """Runs the command."""
        name, frames, *files = gdb.string_to_argv(argument)
        images = images_in(files)
        run = begun(images)
        clear_below()
        run.to_wait()
        state, tables = run.state(), tables_of(images)
        run.to_the_end()
        snapshot = tables | {"regions": [*tables["regions"], state["stack"]], "start": state["start"]}
        with open(name, "w", encoding="ascii") as file:
            file.write(text_of(snapshot))
        with open(frames, "w", encoding="ascii") as file:
            file.writelines(f"{line}\n" for line in due_lines(state))
        gdb.execute("kill", to_string=True)
        print(f"wrote {name}: {len(state['callers'])} callers")


SteppedCommand()
SteppedToWaitCommand()
