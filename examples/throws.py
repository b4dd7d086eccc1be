"""A command of gdb that shows what `thrown_formats` does with its exception, and takes a snapshot at the throw.

    gdb -nx -q -batch -ix ../tools/snapshot.py -x ../tools/frames.py -x ../tools/landings.py -x throws.py \\
        -ex "thrown SNAPSHOT REPORT PE MACHO" --args PROGRAM FORMAT

The program is run from `main` instruction by instruction to its throw, so that the frames are those that the run has shown
(../tools/stepped.py); gdb knows neither format. From there it goes on to each landing pad: the unwinder of libgcc chooses
it by the tables that the program has registered, and the personality of C++ (../tools/landings.py). At each pad the
registers that a call keeps have to be those of its frame. From the handler's it is run to the end of `main` instruction by
instruction: at each `ret` the state has to be the one that was noted at the call, and `main` answers 0 where the
destructors ran in their order. REPORT is written from the process alone, in the form of a delivery's report, and SNAPSHOT
with the return addresses after the cleanups as `resumes`.
"""
from __future__ import annotations

import contextlib
import io
from dataclasses import dataclass

import gdb

# tools/snapshot.py is read first, and lets its folder be found.
from compare_stepped import due_lines
from image_files import MACHO
from snapshot_file import Object, text_of
from stepped import KEPT, Run, begun, clear_below, images_in, kept_now, tables_of

CALL_OF_THROW = "<__cxa_throw@plt>"


def state_at_throw(run: Run) -> Object:
    """Runs on to the call that throws. The state that it would return to, with its callers and the stack."""
    while True:
        instruction = gdb.newest_frame().architecture().disassemble(register_now("rip"))[0]
        if instruction["asm"].endswith(CALL_OF_THROW):
            break
        run.go_on()
    state = run.state()
    state["start"]["rip"] = f"{instruction['addr'] + instruction['length']:#x}"
    return state


def thrown_from(state: Object) -> Throw:
    """Goes on to the throw, which gdb has to find in the same frame."""
    throw = Throw(1)
    for name in ("rip", "rsp", *KEPT):
        if int(gdb.selected_frame().read_register(name)) % WORDS != int(state["start"][name], 16):
            raise gdb.GdbError(f"thrown: {name} of the frame that threw isn't the one that the run has shown")
    return throw


@dataclass(frozen=True)
class Pads:
    """What came of an exception: the lines of its pads and its outcome, each cleanup's pad and what its call of _Unwind_Resume
    would return to, whether it was handled, and the stack pointer of the last pad."""

    lines: list[str]
    resumes: list[list[str]]
    is_handled: bool
    pointer: int


def check_kept(state: Object) -> None:
    """The registers at a pad are those of its frame. It is entered past the arguments that the frame has pushed."""
    kept_at = {int(caller["sp"], 16): [int(caller[name], 16) for name in KEPT] for caller in state["callers"]}
    frame = max((pointer for pointer in kept_at if pointer <= register_now("rsp")), default=0)
    if kept_at.get(frame) != list(kept_now()):
        raise gdb.GdbError(f"thrown: the registers at the pad {register_now('rip'):#x} aren't those of its frame")


def pads_of(throw: Throw, state: Object) -> Pads:
    """Goes on to the handler's pad, or to where there is none."""
    written, is_cleanup, met = io.StringIO(), True, ""
    while is_cleanup:
        met = throw.next_pad()
        pointer = register_now("rsp")
        if met == SET_PLACE:
            check_kept(state)
        with contextlib.redirect_stdout(written):
            is_cleanup = throw.is_passed(met)
    lines = written.getvalue().splitlines()
    resumes = [line.split()[1:] for line in lines if line.startswith("resume")]
    return Pads([line for line in lines if not line.startswith("resume")], resumes, met == SET_PLACE, pointer)


def visited(state: Object, pads: Pads) -> list[str]:
    """The frames that the search visits: those up to the handler's, or all."""
    pointers = [int(each["sp"], 16) for each in ({"sp": state["start"]["rsp"]}, *state["callers"])]
    frames = zip(due_lines(state), pointers)
    return [line for line, pointer in frames if not pads.is_handled or pointer <= pads.pointer]


def run_to_end(run: Run, pads: Pads) -> None:
    """Runs on from the handler's pad."""
    run.callers = [caller for caller in run.callers if caller.sp > pads.pointer]
    run.to_the_end()
    if register_now("rax") % 2**32:
        raise gdb.GdbError("thrown: the destructors didn't run in their order")


def cut_unwinding(snapshot: Object) -> None:
    """Leaves out the zeros with which LLD fills the last page of compact unwinding, up to 4096 bytes."""
    starts = [module["unwind_info"] for module in snapshot["modules"] if module["kind"] == MACHO]
    for region in snapshot["regions"]:
        if region["address"] in starts:
            used = bytes.fromhex(region["bytes"]).rstrip(b"\0")
            region["bytes"] = (used + bytes(16 - len(used) % 16)).hex()


class ThrownCommand(gdb.Command):
    """Run thrown_formats, and write a snapshot of its throw and what came of it: thrown SNAPSHOT REPORT [IMAGE]..."""

    def __init__(self) -> None:
        super().__init__("thrown", gdb.COMMAND_RUNNING, gdb.COMPLETE_FILENAME)

    def invoke(self, argument: str, from_tty: bool) -> None:
        """Runs the command."""
        name, report, *files = gdb.string_to_argv(argument)
        images = images_in(files)
        run = begun(images)
        clear_below()
        state = state_at_throw(run)
        snapshot = tables_of(images, "--called --exception 0x0")
        throw = thrown_from(state)
        pads = pads_of(throw, state)
        if pads.is_handled:
            run_to_end(run, pads)
        gdb.execute("kill", to_string=True)
        snapshot |= {"regions": [*snapshot["regions"], state["stack"]], "start": state["start"]}
        snapshot |= {"exception": f"{throw.word:#x}", "class": f"{throw.kind:#x}", "resumes": pads.resumes}
        cut_unwinding(snapshot)
        with open(name, "w", encoding="ascii") as file:
            file.write(text_of(snapshot))
        with open(report, "w", encoding="ascii") as file:
            file.writelines(f"{line}\n" for line in visited(state, pads) + pads.lines)
        print(f"wrote {name}: {len(state['callers'])} callers, {len(pads.resumes)} cleanups")


ThrownCommand()
