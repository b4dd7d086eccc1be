"""Commands of gdb that show what a program does with an exception, in the form of a delivery's report.

    gdb -p PID -batch -x tools/frames.py -x tools/landings.py -ex "landings"
    gdb -p PID -batch -x tools/frames.py -x tools/landings.py -ex "landings CATCHER 2"
    gdb -batch -ix tools/snapshot.py -x tools/frames.py -x tools/landings.py -ex "take_throw SNAPSHOT REPORT" --args PROGRAM

The process waits in a system call, stands anywhere else, or isn't there yet: then the program is run.

    raised [COUNT]
        lets it go on to its next throw, or to one after that, selects the frame that threw, and prints which exception it
        is, as options of `snapshot`
    landings [CATCHER [COUNT]]
        does that, and then stops at each landing pad: it prints the frames from the one that threw to the one whose name
        begins with CATCHER (or to the outermost), each pad with the stack pointer there, the registers at the handler's pad,
        and a line `resume PAD RETURN` for each cleanup, which holds what the call of _Unwind_Resume after it would return to
    take_throw SNAPSHOT REPORT [COUNT] [OPTION]...
        writes a snapshot of the throw for `unwind_cli throw`, with the modules on its stack or, by options of `snapshot`,
        with others, and as a report of that command what the process then did: the frames that the search visited (where
        the first phase failed, all), each pad, and the registers at the handler's

Everything is read from the running process. After a command it stands at the handler's pad, so that another one takes the
throws that follow.

It stops at the calls that every language makes (Itanium C++ ABI: Exception Handling, "Base ABI"): _Unwind_RaiseException, to
which a rethrow by _Unwind_Resume_or_Rethrow leads too, _Unwind_SetIP and _Unwind_Resume. A pad is the handler's where its
stack pointer isn't below the one that the first phase noted in the exception's second private word, as libgcc and LLVM's
libunwind do. That word is set to 0 at the throw, which no one reads before it is noted.
Where _Unwind_RaiseException returns, nothing took the exception. Where the exception is caught (__cxa_begin_catch) or raised
again between two pads, or the process terminates there, the personality ended it, as gcc's tables ask at a function that is
noexcept: in the first phase where nothing is noted yet, and then the search visited the frames up to the one that the last
personality was asked of. clang's tables have a handler there, whose pad ends the process: that is a landing, and a line after
it says so, as far as the symbol __clang_call_terminate is there.
A forced unwinding (_Unwind_ForcedUnwind), as the end of a thread, has no first phase, and isn't taken.
`landings` prints a landing whose pad ends the process as `terminate`, since nothing is caught there. The report of take_throw has
what the tables say, as `unwind_cli throw` follows them: a landing.
"""
from __future__ import annotations

import contextlib
import io

import gdb

RAISE, SET_PLACE, RESUME = "_Unwind_RaiseException", "_Unwind_SetIP", "_Unwind_Resume"
# Where C++ ends a process: in the personality, in a pad, and last of all.
ENDS = ("__cxa_call_terminate", "_ZSt9terminatev", "abort")
# What pads of C++ call first: those of handlers, and clang's at a function that is noexcept. The classes of such exceptions.
BEGIN_CATCH, CALL_TERMINATE = "__cxa_begin_catch", "__clang_call_terminate"
CLASSES_OF_CXX = (0x474E5543432B2B00, 0x434C4E47432B2B00)
# What is asked of each frame of C++, and what tells which frame a personality is asked of.
PERSONALITY, POINTER_OF = "__gxx_personality_v0", "_Unwind_GetCFA"
# What is called between the frame that throws and the search: the frames of these are the runtime's.
RUNTIME = ("_Unwind_", "__cxa_throw", "__cxa_rethrow")
# The words of an exception before the language's own part: class, a function, and two that belong to the unwinder.
NOTED_POINTER = 24
OUTCOMES = {5: "end of stack", 3: "fatal phase 1", 2: "fatal phase 2"}
ENDED_IN_HANDLER = "the handler ended the process"
WORDS = 2**64


def go_on_to(*places: str) -> str:
    """Lets the process go on to one of the places, functions or `*ADDRESS`, and answers which it is. A function's name may
    stand for several, one in each library. It is answered with no name where the process ends before or stops elsewhere.
    Where there is no process yet, the program is run; its libraries come then."""
    is_there = gdb.selected_inferior().pid != 0
    points = {place: gdb.Breakpoint(place, internal=True) for place in places if not is_there or is_known(place)}
    for point in points.values():
        point.silent = True
    gdb.execute("continue" if is_there else "run", to_string=True)
    met = [place for place, point in points.items() if point.is_valid() and point.hit_count > 0]
    for point in points.values():
        if point.is_valid():
            point.delete()
    return met[0] if met else ""


def is_known(place: str) -> bool:
    """Whether a place is an address, or a function that a loaded file has."""
    if place.startswith("*"):
        return True
    try:
        gdb.decode_line(place)
        return True
    except gdb.error:
        return False


def function_beside(name: str, address: int) -> int:
    """Where a function begins in the file that has code at an address, 0 where it has none: of unwinders there may be several."""
    library = gdb.current_progspace().solib_name
    for place in gdb.decode_line(name)[1] or () if is_known(name) else ():
        if library(place.pc) == library(address):
            named = gdb.execute(f"info symbol {place.pc:#x}", to_string=True).split(" in ")[0]
            return place.pc - int(named.partition(" + ")[2] or 0)
    return 0


def leave_wait() -> None:
    """Ends the system call that the process waits in, if it does: it isn't begun anew."""
    if gdb.selected_inferior().pid != 0:
        gdb.execute("set $orig_rax = -1")


def register_now(name: str) -> int:
    """A register of the newest frame. (gdb's expressions have other types in other languages.)"""
    return int(gdb.newest_frame().read_register(name)) % WORDS


def word_at(address: int) -> int:
    """A word of the process's memory."""
    return int.from_bytes(gdb.selected_inferior().read_memory(address, 8).tobytes(), "little")


def frame_that_threw() -> gdb.Frame:
    """The innermost frame that isn't the runtime's."""
    frame = gdb.newest_frame()
    while frame.older() is not None and (frame.name() or "").startswith(RUNTIME):
        frame = frame.older()
    return frame


class Throw:
    """An exception that is being thrown: its word, and the pointer that its handler's frame will be known by."""

    def __init__(self, count: int) -> None:
        """Goes on to the throw with this number."""
        leave_wait()
        for number in range(1, count + 1):
            if go_on_to(RAISE) != RAISE:
                raise gdb.GdbError(f"landings: the process ended, or stopped elsewhere, before its throw {number}")
        self.word = register_now("rdi")
        self.kind = word_at(self.word)
        self.back = gdb.newest_frame().older().pc()
        self.asked = self.asker = self.found = 0
        gdb.selected_inferior().write_memory(self.word + NOTED_POINTER, bytes(8))
        frame_that_threw().select()

    def options(self) -> str:
        """Which exception it is, as options of `snapshot`."""
        return f"--exception {self.word:#x} --class {self.kind:#x}"

    def next_pad(self) -> str:
        """Goes on to the next landing pad of this exception, or to where there is none: what it met there."""
        while True:
            searched = [PERSONALITY] if not self.noted() else []
            met = go_on_to(SET_PLACE, RAISE, BEGIN_CATCH, *searched, *ENDS, f"*{self.back:#x}")
            if met == PERSONALITY:
                self.asked, self.asker = register_now("r8"), gdb.newest_frame().older().pc()
                continue
            if met in (RAISE, BEGIN_CATCH) and register_now("rdi") != self.word:
                continue
            if met != SET_PLACE:
                return met
            pad = register_now("rsi")
            if go_on_to(f"*{pad:#x}") and register_now("rax") == self.word:
                return SET_PLACE

    def noted(self) -> int:
        """The stack pointer of the frame that the first phase found, and 0 before. It is kept in `found`."""
        self.found = word_at(self.word + NOTED_POINTER)
        return self.found

    def ended_at(self) -> int:
        """The stack pointer of the frame that the last personality of the first phase was asked of, which is being asked still."""
        asks = function_beside(POINTER_OF, self.asker) if self.asked else 0
        call = f"((unsigned long (*)(void *)) {asks:#x})((void *) {self.asked:#x})"
        return int(gdb.execute(f"with language c -- output/u {call}", to_string=True)) if asks else 0

    def is_at_handler(self) -> bool:
        """Whether the pad is that of the frame that the first phase found. It is entered past the arguments that the frame has
        pushed, and pads of frames inside of it further down."""
        return register_now("rsp") >= self.noted()

    def ends_in_handler(self) -> bool:
        """Whether the handler's pad ends the process, in place of catching the exception."""
        if self.kind not in CLASSES_OF_CXX or not is_known(CALL_TERMINATE):
            return False
        return go_on_to(BEGIN_CATCH, CALL_TERMINATE, *ENDS) in (CALL_TERMINATE, *ENDS)

    def next_landing(self) -> bool:
        """Goes on to the next landing pad, and answers as `is_passed` does."""
        return self.is_passed(self.next_pad())

    def is_passed(self, met: str) -> bool:
        """Prints the pad that was met, goes on to the end of a cleanup, and answers whether it was one. Where there is no
        pad it prints the outcome."""
        if met in (RAISE, BEGIN_CATCH, *ENDS):
            print(f"outcome fatal phase {2 if self.noted() else 1}\nthe personality ended the process")
            self.found = self.found or self.ended_at()
            return False
        if met != SET_PLACE:
            answer = OUTCOMES.get(register_now("rax") & 0xFFFFFFFF, "unknown") if met else "unknown: the process stopped"
            print(f"outcome {answer}")
            return False
        pad, pointer, registers = register_now("rip"), register_now("rsp"), frame_line(0, gdb.newest_frame())
        returned = f"rax={register_now('rax'):#x} rdx={register_now('rdx'):#x}"
        if self.is_at_handler():
            print(f"landing {registers.removeprefix('frame 0 ')} {returned}\noutcome installed")
            if self.ends_in_handler():
                print(ENDED_IN_HANDLER)
            return False
        print(f"cleanup pad={pad:#x} sp={pointer:#x}")
        while (met := go_on_to(RESUME, *ENDS)) == RESUME and register_now("rdi") != self.word:
            pass
        if met != RESUME:
            print("outcome fatal phase 2\nthe cleanup ended the process")
            return False
        print(f"resume {pad:#x} {gdb.newest_frame().older().pc():#x}")
        return True


def frames_to(frame: gdb.Frame, catcher: str) -> list[tuple[int, str]]:
    """The stack pointers and the lines of the frames from one to that whose name begins so, or to the outermost."""
    found: list[tuple[int, str]] = []
    while frame is not None:
        if frame.type() not in MADE_UP_FRAMES:
            found.append((int(frame.read_register("rsp")) % WORDS, frame_line(len(found), frame)))
        if catcher and frame.name() is not None and frame.name().startswith(catcher):
            break
        frame = frame.older()
    return found


def frames_of_throw() -> list[tuple[int, str]]:
    """All frames from the one that threw on, and the state outside of the outermost one, where there is none further out."""
    with frames_above_main():
        thrower = last = frame_that_threw()
        found = frames_to(thrower, "")
        while last.older() is not None:
            last = last.older()
        with contextlib.suppress(gdb.GdbError):
            found.append((WORDS, outside_line(len(found), last)))
        thrower.select()
    return found


def modules_on_stack() -> list[str]:
    """The names of the files in whose code the frames stand."""
    space, found, frame = gdb.current_progspace(), {}, gdb.selected_frame()
    with frames_above_main():
        while frame is not None:
            found[space.solib_name(frame.pc()) or space.filename] = None
            frame = frame.older()
    return list(found)


def taken_throw(throw: Throw, options: list[str]) -> dict[str, object]:
    """A snapshot of the selected frame, which threw, without what the process shows later."""
    if "--module" not in options:
        options += [word for name in modules_on_stack() for word in ("--module", name)]
    return snapshot_object(arguments().parse_args(["throw", *throw.options().split(), "--languages", *options]))


def lines_to_end(throw: Throw) -> list[str]:
    """What comes of an exception, line by line."""
    written = io.StringIO()
    with contextlib.redirect_stdout(written):
        while throw.next_landing():
            pass
    return written.getvalue().splitlines()


def report_of(frames: list[tuple[int, str]], noted: int, lines: list[str]) -> list[str]:
    """The lines of a report: the frames that the search visits, up to the one where it ended or else all, and what came."""
    visited = [line for pointer, line in frames if not noted or pointer <= noted]
    return visited + [line for line in lines if line.startswith(("cleanup", "landing", "outcome"))]


def without_terminate(lines: list[str]) -> list[str]:
    """The same for a reader: a handler's pad that ends the process is no landing, since nothing takes the exception there."""
    if lines[-1] != ENDED_IN_HANDLER:
        return lines
    address, pointer = lines[-3].split()[1:3]
    return [*lines[:-3], f"terminate pad={address.removeprefix('ra=')} {pointer}", f"outcome {OUTCOMES[2]}", ENDED_IN_HANDLER]


class RaisedCommand(gdb.Command):
    """Go on to the next throw, or to the one with a number, and select the frame that threw: raised [COUNT]"""

    def __init__(self) -> None:
        super().__init__("raised", gdb.COMMAND_RUNNING)

    def invoke(self, argument: str, from_tty: bool) -> None:
        """Runs the command."""
        print(Throw(int(argument or 1)).options())


class LandingsCommand(gdb.Command):
    """Go on to the throw and through all landing pads: landings [CATCHER [COUNT]]"""

    def __init__(self) -> None:
        super().__init__("landings", gdb.COMMAND_RUNNING)

    def invoke(self, argument: str, from_tty: bool) -> None:
        """Runs the command."""
        words = argument.split()
        throw = Throw(int(words[1]) if len(words) > 1 else 1)
        for _, line in frames_to(frame_that_threw(), words[0] if words else ""):
            print(line)
        print("\n".join(without_terminate(lines_to_end(throw))))
        print(throw.options())


class TakeThrowCommand(gdb.Command):
    """Write a snapshot of the next throw, or of the one with a number, and what came of it:
take_throw SNAPSHOT REPORT [COUNT] [OPTION of snapshot]..."""

    def __init__(self) -> None:
        super().__init__("take_throw", gdb.COMMAND_RUNNING, gdb.COMPLETE_FILENAME)

    def invoke(self, argument: str, from_tty: bool) -> None:
        """Runs the command."""
        name, report, *options = gdb.string_to_argv(argument)
        throw = Throw(int(options.pop(0)) if options and options[0].isdecimal() else 1)
        frames = frames_of_throw()
        try:
            taken = taken_throw(throw, options)
            lines = lines_to_end(throw)
            taken["resumes"] = [line.split()[1:] for line in lines if line.startswith("resume")]
            write_whole(name, text_of(taken))
        except Refused as error:
            raise gdb.GdbError(f"take_throw: {error}")
        with open(report, "w", encoding="ascii") as file:
            file.writelines(f"{line}\n" for line in report_of(frames, throw.found, lines))
        print(f"wrote {name}: {len(frames)} frames, {len(taken['resumes'])} cleanups, {lines[-1]}")


RaisedCommand()
LandingsCommand()
TakeThrowCommand()
