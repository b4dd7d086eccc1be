"""Tests of thread_reports.py: which runs of the programs find the frames of threads, and frame pointers."""
from __future__ import annotations

import json
import os
import pathlib
import tempfile
import unittest
from unittest import mock

import thread_reports
from core import Loaded, Taken
from core_image import Thread, thread_of
from elf_image import Range, Refused
from loaded_module import Module
from process_image import status_note
from programs import built_path
from snapshot_file import Object, Region
from thread_reports import Answer, Programs, built_programs, reports_of, run, stacks_under


def thread_with(number: int, **words: int) -> Thread:
    """A thread with these registers, by `struct user_regs_struct`."""
    places = {"rbp": 4, "rip": 16, "rsp": 19}
    registers = {places[name]: word for name, word in words.items()}
    return thread_of(status_note(number, b"".join(registers.get(index, 0).to_bytes(8, "little") for index in range(27))))


class RunsTest(unittest.TestCase):
    """A program in place of each built one, which notes what it is asked."""

    WALKS = ["frame 0 ra=0x1 sp=0x2\nframe 1 ra=0x0 sp=0x3\nend\n", "refused: unmapped 0x8\n", "frame 0 ra=0x5 sp=0x6\nend\n"]

    def reports(self, threads: list[Thread], programs: Programs, again: list[str]) -> tuple[list[str], list[list[str]]]:
        """The reports of threads, and the words of each run. `again` is what `backtrace` says of each that is walked once more."""
        asked: list[list[str]] = []

        def answer(words: list[str], text: bytes) -> Answer:
            asked.append(words)
            if words[1:] == ["core"]:
                return Answer("".join(f"thread {index}\n{walk}" for index, walk in enumerate(self.WALKS)))
            if "--samples" in words:
                count = len(json.loads(text)["samples"])
                return Answer("".join(f"thread {index}\n{report}" for index, report in enumerate(again[:count])))
            return Answer("#0  0x7\nend: alone\n")

        with mock.patch.object(thread_reports, "run", answer):
            return reports_of(Taken(threads, [], []), programs), asked

    def test_what_is_no_whole_walk_is_walked_once_more_in_one_run(self) -> None:
        threads = [thread_with(number) for number in (1, 2, 3)]
        again = ["#0  0x9\nend: a reason\n", "#0  0x8\nend: another\n"]
        found, asked = self.reports(threads, Programs("backtrace", "unwind_cli"), again)
        self.assertEqual(found, [self.WALKS[0], *again])
        self.assertEqual(asked, [["unwind_cli", "core"], ["backtrace", "--samples"]])
        self.assertEqual(self.reports(threads, Programs(None, "unwind_cli"), again), (self.WALKS, [["unwind_cli", "core"]]))

    def test_one_of_the_programs(self) -> None:
        threads = [thread_with(number) for number in (1, 2, 3)]
        again = [f"#0  {index:#x}\nend: a reason\n" for index in range(3)]
        self.assertEqual(self.reports(threads, Programs("backtrace", None), again), (again, [["backtrace", "--samples"]]))
        found = self.reports(threads[:1], Programs("backtrace", "unwind_cli"), [])
        self.assertEqual(found, (["#0  0x7\nend: alone\n"], [["backtrace"]]))

    def test_more_frames_than_a_sample_has(self) -> None:
        threads = [thread_with(number) for number in (1, 2)]
        again = ["#0  0x9\nend: a reason\n", "#0  0x8\nend: more frames than the limit\n"]
        found, asked = self.reports(threads, Programs("backtrace", None), again)
        self.assertEqual(found, [again[0], "#0  0x7\nend: alone\n"])
        self.assertEqual(asked, [["backtrace", "--samples"], ["backtrace"]])

    def test_fewer_walks_than_threads(self) -> None:
        threads = [thread_with(number) for number in (1, 2)]
        with self.assertRaisesRegex(Refused, "^backtrace printed 1 walks of 2 threads$"):
            self.reports(threads, Programs("backtrace", None), ["#0  0x9\nend: a reason\n"])

    def test_programs_that_fail(self) -> None:
        """What a program says stands in the line, also where it ends before it has read anything."""
        thread = thread_with(1)
        with tempfile.TemporaryDirectory() as folder:
            program = pathlib.Path(folder) / "program"
            program.write_text("#!/bin/sh\necho bad snapshot: modules\nexit 7\n")
            program.chmod(0o755)
            said = f"{program} ended with status 7: bad snapshot: modules"
            self.assertEqual(run([str(program)], bytes(2**20)).fault, said)
            for programs in (Programs(str(program), None), Programs(None, str(program)), Programs(str(program), str(program))):
                for threads in ([thread], [thread, thread_with(2)]):
                    with self.assertRaisesRegex(Refused, f"^{said}$"):
                        reports_of(Taken(threads, [], []), programs)
            self.assertIn("can't be run: No such file", run([f"{folder}/none"], b"").fault or "")
            paths = {"backtrace": f"{folder}/none", "unwind_cli": str(program)}
            self.assertEqual(built_programs(paths), Programs(None, str(program)))
            with self.assertRaisesRegex(Refused, "none isn't built: "):
                built_programs(paths | {"unwind_cli": f"{folder}/none"})

    def test_stacks_of_one_thread(self) -> None:
        """By `struct sigcontext_64`: the interrupted RSP, 24 bytes before the segments of user space."""
        signal_frame = bytes(8) + (0x9010).to_bytes(8, "little") + bytes(16) + bytes.fromhex("3300000000002b00")
        first, other, third = Region(0x7000, bytes(8) + signal_frame), Region(0x8000, bytes(64)), Region(0x9000, bytes(64))
        self.assertEqual(stacks_under([first, other, third], [0x7008]), [first, third])
        self.assertEqual(stacks_under([first, other, third], [0x7FF0]), [other])
        self.assertEqual(stacks_under([first, other, third], [0x7FF0, 0x7008]), [first, other, third])
        self.assertEqual(stacks_under([first], [0x9000]), [])


class PointersTest(unittest.TestCase):
    """Stops in code without a table, with frame pointers."""

    # The chain of RBP: from 0x7010 to code with a table, from there to code without one, and from there to no code.
    WORDS = {0x7010: 0x7030, 0x7018: 0x401006, 0x7030: 0x7050, 0x7038: 0x900020, 0x7050: 0x7060, 0x7058: 0x9999}
    AT_LIMIT = "#0  0x0000000000900010\nend: more frames than the limit\n"

    def taken(self, pointers: list[int]) -> Taken:
        """Threads that stand in code without a table, by their RBP. The module's table is empty."""
        content = b"".join(self.WORDS.get(address, 0).to_bytes(8, "little") for address in range(0x7000, 0x7080, 8))
        threads = [thread_with(number, rip=0x900010, rsp=0x7008, rbp=rbp) for number, rbp in enumerate(pointers, 1)]
        module = Module("/bin/a", 0, None, [Range(0x401000, 0x402000)], Range(0x500000, 0x500004), None, [], [])
        code: list[Object] = [{"start": "0x900000", "end": "0x901000", "path": "/lib/bare", "bias": "0x0"}]
        return Taken(threads, [Region(0x7000, content)], [Loaded(module, Region(0x500000, bytes(4)))], code)

    def reports(self, pointers: list[int], said: list[str]) -> tuple[list[str], list[tuple[list[str], Object]]]:
        """The reports, and what `backtrace` was asked in each run. It says this of each thread of samples, and `alone` of one."""
        asked: list[tuple[list[str], Object]] = []

        def answer(words: list[str], text: bytes) -> Answer:
            asked.append((words[1:], json.loads(text)))
            if "--samples" not in words:
                return Answer("alone\n")
            return Answer("".join(f"thread {index}\n{report}" for index, report in enumerate(said)))

        with mock.patch.object(thread_reports, "run", answer):
            return reports_of(self.taken(pointers), Programs("backtrace", None), True), asked

    def test_one_run_goes_on_for_all(self) -> None:
        found, asked = self.reports([0x7010, 0x70], ["first\n", "second\n"])
        self.assertEqual(found, ["first\n", "second\n"])
        (words, samples), = asked
        self.assertEqual(words, ["--frame-pointers", "--samples"])
        self.assertEqual([sample["start"]["rbp"] for sample in samples["samples"]], ["0x7010", "0x70"])
        self.assertEqual([sample["interrupted"] for sample in samples["samples"]], [True, True])
        self.assertEqual(self.reports([0x7010], [])[0], ["alone\n"])
        self.assertEqual([words for words, _ in self.reports([0x7010], [])[1]], [["--frame-pointers"]])

    def test_the_code_is_named(self) -> None:
        """`backtrace` reads which code has no table."""
        for pointers in ([0x7010], [0x7010, 0x70]):
            for _, one in self.reports(pointers, ["", ""])[1]:
                self.assertEqual(one["code"], self.taken(pointers).code)

    def test_more_frames_than_a_sample_has(self) -> None:
        found, asked = self.reports([0x7010, 0x70], ["first\n", self.AT_LIMIT])
        self.assertEqual(found, ["first\n", "alone\n"])
        self.assertEqual([words for words, _ in asked], [["--frame-pointers", "--samples"], ["--frame-pointers"]])

    @unittest.skipUnless(os.access(built_path("backtrace"), os.X_OK), "backtrace isn't built")
    def test_the_built_program_goes_on(self) -> None:
        """By RBP to code with an empty table, to code without one, and no further: 0x9999 is no code. 0x70 isn't on the stack."""
        programs = Programs(built_path("backtrace"), None)
        chain = (
            "#0  0x0000000000900010\n#1  0x0000000000401006 in a+0x401006 (a guess, by the frame pointer)\n"
            "#2  0x0000000000900020 (a guess, by the frame pointer)\nend: code without a table at 0x000000000090001f in bare\n"
        )
        alone = "#0  0x0000000000900010\nend: code without a table at 0x0000000000900010 in bare\n"
        self.assertEqual(reports_of(self.taken([0x7010]), programs, True), [chain])
        self.assertEqual(reports_of(self.taken([0x7010, 0x70]), programs, True), [chain, alone])
        self.assertEqual(reports_of(self.taken([0x7010]), programs), [alone])


if __name__ == "__main__":
    unittest.main()
