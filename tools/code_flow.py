"""What is known of frames at each instruction of a file's described functions, by following the code alone.

A function starts at what is called, named or kept in data, and where no code of another function jumps to; a description
that is none of these is a part of the functions that jump into it, as compilers' `.cold` parts are. A jump to another
function's start is a tail call. A call is followed by the next instruction where the called function can return: unless it
is known by name that it doesn't, or no way through its code leads to a return or out of what is known. Where a place after a
call would be reached with another depth than by the other ways to it, the call is taken not to return. Exceptions land where
the language table says, with the frame of their call less the arguments that its row says were pushed.
"""
from __future__ import annotations

import heapq
import itertools
import re
from collections import defaultdict

from code_file import CodeFile
from jump_tables import JumpTables
from known_frame import AT_ENTRY, OUTERMOST, Frame, after, at_depth, in_call, meet, number_of
from machine_code import Instruction, Way, is_direct

ENDLESS = re.compile(
    r"(abort|_?exit|_Exit|quick_exit|__assert_fail|__assert_perror_fail|__assert|__stack_chk_fail|__fortify_fail|__chk_fail|"
    r"_?longjmp|siglongjmp|__longjmp_chk|_Unwind_Resume|__cxa_throw|__cxa_rethrow|__cxa_bad_cast|__cxa_bad_typeid|"
    r"__cxa_throw_bad_array_new_length|__cxa_throw_bad_array_length|__cxa_pure_virtual|__cxa_deleted_virtual|"
    r"_ZSt9terminatev|_ZSt10unexpectedv|_ZSt\d+__throw_\w+|_ZSt21__glibcxx_assert_fail\w*|pthread_exit|__libc_fatal|errx?|"
    r"verrx?|__cxa_call_unexpected|__cxa_call_terminate|_dl_fatal_printf|rust_panic)(@[^+]*)?$"
)
FIRST_OF_OUTERMOST = "xor ebp,ebp"


class CodeFlow:
    """The facts of a file's code: `frames` has what is known at each place, and None where no way leads."""

    def __init__(self, file: CodeFile) -> None:
        """Follows the code of a file."""
        self.file, code = file, file.code
        self.frames: list[Frame | None] = [None] * len(code)
        self.late: list[tuple[int, int, Frame]] = []
        self.counted = itertools.count()
        self.work: list[int] = []
        self.returning: set[int] = set()
        self.waiting: dict[int, set[int]] = defaultdict(set)
        self.leaving: dict[int, set[int]] = defaultdict(set)
        self.doubted: set[int] = set()
        self.functions = self._called() | self._named()
        self.functions |= file.words(self._read_tables().cells)
        self.tables = self._read_tables().found
        self.parts = self._entered() - self.functions
        self._follow()

    # ---- where functions start

    def _read_tables(self) -> JumpTables:
        """The jump tables, where functions start at what is known by now."""
        return JumpTables(self.file, self.functions)

    def _called(self) -> set[int]:
        """What is called by name."""
        return {one.target for one in self.file.code if one.way is Way.CALL and is_direct(one) and one.target is not None}

    def _named(self) -> set[int]:
        """The starts that symbols or other instructions than branches name."""
        file, starts = self.file, set(self.file.starts)
        found = {start for start, name in file.functions.items() if not re.search(r"\.cold(\.\d+)?$", name)}
        found.add(file.entry)
        for one in file.code:
            if one.way is Way.NEXT and one.effect is not None:
                value = one.target if one.target is not None else number_of(one.text.rpartition(",")[2])
                if value in starts:
                    found.add(value)
        return found

    def _entered(self) -> set[int]:
        """The starts of descriptions into which others jump, or in which exceptions of others land."""
        file, ways = self.file, []
        for place, one in enumerate(file.code):
            if one.way in (Way.JUMP, Way.CONDITION):
                targets = [one.target] if is_direct(one) else self.tables.get(place, [])
                ways += [(file.owner[place], target) for target in targets if target is not None]
        for owner, description in enumerate(file.descriptions):
            ways += [(owner, site.pad) for site in description.sites]
        owners = {(owner, file.description_at(target)) for owner, target in ways}
        return {file.starts[other] for owner, other in owners if other is not None and other != owner}

    # ---- following

    def _follow(self) -> None:
        """Follows all functions to where nothing more becomes known."""
        for number, description in enumerate(self.file.descriptions):
            start = description.covers.start
            if start not in self.parts and self.file.bounds[number][0] < self.file.bounds[number][1]:
                self._arrive(self.file.bounds[number][0], OUTERMOST if start == self.file.entry else AT_ENTRY)
        while self.work or self.late:
            if self.work:
                self._run(self.work.pop())
            else:
                place, _number, frame = heapq.heappop(self.late)
                self._come_back(place, frame)

    def _arrive(self, place: int, frame: Frame) -> bool:
        """Comes to a place with what is known. Whether that changes what is known there."""
        old = self.frames[place]
        if self._begins_outermost(place, frame):
            frame = OUTERMOST
        new = frame if old is None else meet(old, frame)
        if new == old:
            return False
        self.frames[place] = new
        self.work.append(place)
        return True

    def _begins_outermost(self, place: int, frame: Frame) -> bool:
        """Whether RBP is cleared at a description's start although its value is nowhere else (psABI, section 3.4.1)."""
        one = self.file.code[place]
        if one.text != FIRST_OF_OUTERMOST or one.address != self.file.starts[self.file.owner[place]]:
            return False
        return "rbp" in frame.kept and not any(register == "rbp" for _distance, register in frame.saved)

    def _run(self, place: int) -> None:
        """Goes on from a place, along instructions that lead to the next one alone."""
        code, frames, end = self.file.code, self.frames, self.file.bounds[self.file.owner[place]][1]
        while True:
            one, frame = code[place], frames[place]
            assert frame is not None
            if one.way is not Way.NEXT:
                self._branch(place, one, frame)
                return
            frame = frame if one.effect is None else after(frame, one.effect)
            place += 1
            if place == end:
                self._leave(self.file.owner[place - 1])
                return
            old = frames[place]
            new = frame if old is None else meet(old, frame)
            if new == old:
                return
            frames[place] = new

    def _branch(self, place: int, one: Instruction, frame: Frame) -> None:
        """Goes on from an instruction that leads elsewhere too."""
        owner = self.file.owner[place]
        if one.way is Way.CALL:
            self._call(place, one, frame)
        elif one.way is Way.RETURN:
            self._leave(owner)
        elif one.way is not Way.STOP:
            targets = [one.target] if is_direct(one) else self.tables.get(place, [])
            for target in targets:
                self._jump(owner, target, frame, one)
            if not targets:
                self._leave(owner)
            if one.way is Way.CONDITION and place + 1 < self.file.bounds[owner][1]:
                self._arrive(place + 1, frame)

    def _jump(self, owner: int, target: int | None, frame: Frame, one: Instruction) -> None:
        """Goes to a jump's target; to another function's start it is a tail call."""
        place = self.file.place.get(target or 0)
        if place is None:
            if not self._is_endless(one):
                self._leave(owner)
            return
        other = self.file.owner[place]
        if other != owner:
            self.leaving[other].add(owner)
            if other in self.returning:
                self._leave(owner)
            if target in self.functions:
                return
        self._arrive(place, frame)

    def _is_endless(self, one: Instruction) -> bool:
        """Whether a branch leads to a function that is known by name not to return."""
        name = one.name.removesuffix("@plt")
        if one.target is not None and not is_direct(one):
            name = self.file.names.get(one.target, name)
        return ENDLESS.match(self.file.functions.get(one.target or 0, name)) is not None

    def _call(self, place: int, one: Instruction, frame: Frame) -> None:
        """Goes on after a call where that returns, and where its exceptions land."""
        owner = self.file.owner[place]
        description = self.file.descriptions[owner]
        for site in description.sites:
            if site.start <= one.address < site.end and site.pad in self.file.place:
                self._arrive(self.file.place[site.pad], self._landing(owner, one, in_call(frame)))
        if self._is_endless(one):
            return
        callee = self.file.place.get(one.target or 0) if is_direct(one) else None
        if callee is not None and one.target in self.file.starts_set:
            self.waiting[self.file.owner[callee]].add(place)
            if self.file.owner[callee] not in self.returning:
                return
        self._put_off(place + 1, in_call(frame))

    def _landing(self, owner: int, one: Instruction, frame: Frame) -> Frame:
        """What is known where an exception of a call lands."""
        row = self.file.descriptions[owner].row(one.address)
        size = int(row["arguments"], 16) if row else 0
        return frame if frame.depth is None or not size else at_depth(frame, frame.depth - size)

    def _put_off(self, place: int, frame: Frame) -> None:
        """Keeps the way to the place after a call until there is no other way to go on."""
        heapq.heappush(self.late, (place, next(self.counted), frame))

    def _come_back(self, place: int, frame: Frame) -> None:
        """Comes to the place after a call, unless that contradicts the other ways to it."""
        owner = self.file.owner[place - 1]
        end = self.file.bounds[owner][1]
        if place == end:
            self._leave(owner)
            return
        following = place
        while following + 1 < end and self.file.code[following].is_padding and self.frames[following] is None:
            following += 1
        there = self.frames[following]
        if there is not None and None not in (there.depth, frame.depth) and there.depth != frame.depth:
            self.doubted.add(place - 1)
            return
        self._arrive(place, frame)

    def _leave(self, owner: int) -> None:
        """A way out of a description is known: the calls of it return, and so do those of what jumps to it."""
        work = [owner]
        while work:
            number = work.pop()
            if number in self.returning:
                continue
            self.returning.add(number)
            work += self.leaving[number]
            for place in self.waiting[number]:
                frame = self.frames[place]
                if frame is not None:
                    self._put_off(place + 1, in_call(frame))
