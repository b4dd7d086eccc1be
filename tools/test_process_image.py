"""Tests of process_image.py, process_status.py and process_backtrace.py: processes that are started here."""
from __future__ import annotations

import os
import pathlib
import subprocess
import sys
import tempfile
import time
import unittest
from unittest import mock

import process_status
from core import by_file
from core_image import Mapped, Memory, thread_of
from elf_image import Range, Refused
from process_backtrace import process_of
from process_image import Mapping, Process, mapping_of, stack_starts, status_note, stopped
from process_status import why_no_process, why_untraced

# A program that waits, with two threads and a word that is known in its memory.
WAITING = """
import ctypes, sys, threading, time
word = ctypes.create_string_buffer(b"known to the test")
threading.Thread(target=time.sleep, args=(60,), daemon=True).start()
print(ctypes.addressof(word), flush=True)
sys.stdin.read()
"""


class Waiting:
    """Such a program, while the block runs."""

    def __enter__(self) -> tuple[int, int]:
        pipe = subprocess.PIPE
        self.process = subprocess.Popen([sys.executable, "-c", WAITING], stdin=pipe, stdout=pipe, text=True)
        assert self.process.stdout is not None
        return self.process.pid, int(self.process.stdout.readline())

    def __exit__(self, *_error: object) -> None:
        self.process.communicate()


def can_trace() -> bool:
    """Whether a child may be traced here."""
    with Waiting() as (number, _address):
        try:
            with stopped(number):
                return True
        except Refused:
            return False


@unittest.skipUnless(sys.platform == "linux" and os.uname().machine == "x86_64" and can_trace(), "no process can be traced")
class StoppedTest(unittest.TestCase):
    """What is read of a process that stands still."""

    def test_threads_and_memory(self) -> None:
        with Waiting() as (number, address):
            with stopped(number) as process:
                threads = process.threads()
                self.assertEqual(sorted(thread.number for thread in threads), sorted(map(int, os.listdir(f"/proc/{number}/task"))))
                self.assertEqual(threads[0].number, number)
                self.assertEqual(process.bytes_of(Range(address, address + 17)), b"known to the test")
                for thread in threads:
                    with open(f"/proc/{number}/task/{thread.number}/status", encoding="ascii") as stream:
                        self.assertIn(f"TracerPid:\t{os.getpid()}\n", stream.read())
                    self.assertTrue(any(m.executable and m.place.contains(thread.rip) for m in process.mappings))
                    self.assertIsNotNone(process.memory_at(thread.rsp))
                self.assertEqual(process.bytes_of(Range(8, 16)), b"")
                self.assertEqual(process.missing_at(8), "nothing is mapped there")
            with open(f"/proc/{number}/status", encoding="ascii") as stream:
                self.assertIn("TracerPid:\t0\n", stream.read())

    def test_registers_are_those_that_the_system_says(self) -> None:
        with Waiting() as (number, _address):
            while (words := pathlib.Path(f"/proc/{number}/syscall").read_text("ascii").split()) == ["running"]:
                time.sleep(0.01)
            with stopped(number) as process:
                registers = process.threads()[0].registers
            self.assertEqual([f"{registers['rsp']:#x}", f"{registers['rip']:#x}"], words[-2:])
            self.assertEqual(sorted(registers), sorted(
                "rip rsp rax rbx rcx rdx rsi rdi rbp r8 r9 r10 r11 r12 r13 r14 r15".split()
            ))

    def test_a_process_goes_on(self) -> None:
        with Waiting() as (number, _address):
            for _ in range(20):
                with stopped(number):
                    pass
            self.assertEqual(process_of(number), number)

    def test_the_first_thread_may_have_ended(self) -> None:
        program = WAITING.replace("daemon=True", "daemon=False").replace(
            "sys.stdin.read()", "ctypes.CDLL(None).pthread_exit(None)"
        )
        child = subprocess.Popen([sys.executable, "-c", program], stdout=subprocess.PIPE)
        try:
            while "Z (zombie)" not in pathlib.Path(f"/proc/{child.pid}/status").read_text("ascii"):
                time.sleep(0.01)
            with stopped(child.pid) as process:
                (thread,) = process.threads()
                self.assertNotEqual(thread.number, child.pid)
                self.assertIsNotNone(process.memory_at(thread.rsp))
        finally:
            child.kill()
            child.communicate()

    def test_one_tracer_at_a_time(self) -> None:
        with Waiting() as (number, _address), stopped(number), self.assertRaises(Refused) as refused:
            with stopped(number):
                pass
        self.assertIn(f"the process {os.getpid()} traces it", str(refused.exception))


class FaultsTest(unittest.TestCase):
    """Why a process isn't taken."""

    def test_no_such_process(self) -> None:
        with self.assertRaisesRegex(Refused, r"^there is no process 4194305$"):
            with stopped(4194305):
                pass

    def test_a_process_that_has_ended(self) -> None:
        child = subprocess.Popen(["true"])
        os.waitid(os.P_PID, child.pid, os.WEXITED | os.WNOWAIT)
        with self.assertRaisesRegex(Refused, "it has ended, and waits for its parent"):
            with stopped(child.pid):
                pass
        child.wait()

    def test_reasons(self) -> None:
        alive = {"TracerPid": "0", "State": "S (sleeping)", "VmSize": "1 kB"}
        with mock.patch.object(process_status, "TRACE_SCOPE", "/nonexistent"):
            self.assertEqual(why_untraced(alive | {"TracerPid": "7"}, os.geteuid()), "the process 7 traces it")
            self.assertEqual(why_untraced({"State": "S (sleeping)"}, os.geteuid()), "it is a thread of the kernel")
            self.assertIsNone(why_untraced(alive, os.geteuid()))
            with mock.patch.object(os, "geteuid", return_value=65534):
                self.assertEqual(why_untraced(alive, 0), "it is root's")

    def test_scope(self) -> None:
        with tempfile.NamedTemporaryFile("w") as file, mock.patch.object(process_status, "TRACE_SCOPE", file.name):
            file.write("1\n")
            file.flush()
            alive = {"State": "S (sleeping)", "VmSize": "1 kB"}
            self.assertIn("its own children alone", why_untraced(alive, os.geteuid()) or "")

    def test_number_of_no_process(self) -> None:
        self.assertEqual(why_no_process(4194305), "there is no process 4194305")


class PartsTest(unittest.TestCase):
    """Lines of the system, and notes."""

    def test_mappings(self) -> None:
        """As proc(5) shows them."""
        cases = {
            "00400000-00452000 r-xp 00000000 08:02 173521      /usr/bin/dbus-daemon":
                Mapping(Range(0x400000, 0x452000), True, True, 0, "/usr/bin/dbus-daemon"),
            "00e03000-00e24000 rw-p 00000000 00:00 0           [heap]":
                Mapping(Range(0xE03000, 0xE24000), True, False, 0, "[heap]"),
            "f2c6ff8c000-7f2c7078c000 ---p 00021000 00:00 0    /a b\\012c (deleted)":
                Mapping(Range(0xF2C6FF8C000, 0x7F2C7078C000), False, False, 0x21000, "/a b\nc (deleted)"),
            "7f0000000000-7f0000001000 rwxp 00000000 00:00 0 ":
                Mapping(Range(0x7F0000000000, 0x7F0000001000), True, True, 0, ""),
        }
        for line, mapping in cases.items():
            with self.subTest(line):
                self.assertEqual(mapping_of(line), mapping)
        self.assertIsNone(mapping_of("no mapping"))

    def test_a_note_is_a_cores(self) -> None:
        """By `struct user_regs_struct`: RBX is its word 5, RIP 16, RSP 19, the FS base 21."""
        words = {5: 0xB, 16: 0x401006, 19: 0x7004, 21: 0x7008}
        registers = b"".join(words.get(index, 0).to_bytes(8, "little") for index in range(27))
        note = status_note(77, registers)
        thread = thread_of(note)
        self.assertEqual((thread.number, thread.rip, thread.rsp, thread.fs_base), (77, 0x401006, 0x7004, 0x7008))
        self.assertEqual(thread.registers["rbx"], 0xB)
        self.assertEqual((len(note.description), len(note.text)), (336, 12 + 8 + 336))

    def test_a_part_of_a_heap(self) -> None:
        """A stack pointer in a mapping that may be a heap: so much above it, and no more."""
        process = object.__new__(Process)
        process.memories = [Memory(0x10000, 0x10000, 2**24, 2**24, 2**24), Memory(2**32, 2**32, 2**24, 2**24, 2**24)]
        process.starts, process.stack_starts = [0x10000, 2**32], {2**32}
        found = process.memory_from(0x20000)
        self.assertEqual(found and found.place, Range(0x10000, 0x20000 + 2**18))
        found = process.memory_from(2**32 + 5)
        self.assertEqual(found and found.place, Range(2**32, 2**32 + 2**24))

    def test_stacks_as_a_whole(self) -> None:
        """The first thread's, and mappings with the own block of one thread. A heap may have those of several."""
        places = {0x1000: "", 0x3000: "", 0x5000: "", 0x7000: "[stack]"}
        mappings = [Mapping(Range(start, start + 0x1000), True, False, 0, file) for start, file in places.items()]
        self.assertEqual(stack_starts(mappings, [0, 0x1800, 0x3100, 0x3200, 0x4800]), {0x1000, 0x7000})

    def test_the_programs_parts_come_first(self) -> None:
        parts = [Mapped(Range(0, 1), 0, "/lib/a"), Mapped(Range(1, 2), 0, "/bin/b"), Mapped(Range(2, 3), 1, "/lib/a")]
        self.assertEqual(by_file(parts, "/bin/b"), {"/bin/b": [parts[1]], "/lib/a": [parts[0], parts[2]]})


class CommandTest(unittest.TestCase):
    """backtrace.sh itself."""

    SCRIPT = pathlib.Path(__file__).parent / "backtrace.sh"

    def said(self, *words: str, script: str | None = None, **environment: str) -> tuple[int, str]:
        """The status and the last line of what a run says on standard error."""
        done = subprocess.run(
            [script or str(self.SCRIPT), *words], capture_output=True, text=True, check=False, cwd="/",
            env=dict(os.environ) | environment,
        )
        return done.returncode, (done.stderr.splitlines() or [""])[-1]

    def test_words(self) -> None:
        wrong = (("1", "--names"), ("x", "--names"), ("x", "y", "--names", "--strict"), ("x", "y", "--frame-pointers", "--names"))
        for words in ((), ("x",), ("1", "2", "3"), ("--threads",), ("",), *wrong):
            with self.subTest(words):
                self.assertEqual(self.said(*words)[0], 2)

    def test_a_process_that_isnt_there_by_a_link_from_anywhere(self) -> None:
        with tempfile.TemporaryDirectory() as folder:
            program = pathlib.Path(folder) / "backtrace"
            program.write_text("#!/bin/sh\n")
            program.chmod(0o755)
            link = pathlib.Path(folder) / "bt"
            link.symlink_to(self.SCRIPT)
            path = f"{folder}:{os.environ['PATH']}"
            expected = (1, "backtrace: there is no process 4194305")
            self.assertEqual(self.said("4194305", script=str(link), BACKTRACE=str(program)), expected)
            self.assertEqual(self.said("4194305", script="bt", PATH=path, BACKTRACE=str(program)), expected)

    def test_nothing_is_built(self) -> None:
        status, line = self.said("4194305", BACKTRACE="/nonexistent/b", UNWIND_CLI="/nonexistent/u")
        self.assertEqual(status, 1)
        self.assertIn("/nonexistent/b isn't built: run `rt run < stdin` in crates/backtrace", line)
        status, line = self.said("program", "core", "--names", CORE_STACKS="/nonexistent/c")
        self.assertEqual(status, 1)
        self.assertIn("/nonexistent/c isn't built: run `rt run` in crates/core_stacks", line)


class NamesBySymbolsTest(unittest.TestCase):
    """backtrace.sh with --names: what it prints by what core_stacks writes."""

    REGISTERS = "sp=0x7 rbx=0x0 rbp=0x0 r12=0x0 r13=0x0 r14=0x0 r15=0x0"
    LINES = (
        "thread 0", f"frame 0 ra=0x10a {REGISTERS} raise+0xa in /lib/libc.so", f"frame 1 ra=0x201 {REGISTERS} in /bin/p+0x1201",
        f"frame 2 ra=0x3 {REGISTERS}", f"frame 3 ra=0x0 {REGISTERS}", "end", "thread 1", "refused: frame limit",
    )

    def printed(self, lines: tuple[str, ...], status: int, *words: str) -> tuple[int, str, str]:
        """The status and the two outputs of a run over a program that writes these lines of the core, and ends so."""
        with tempfile.TemporaryDirectory() as folder:
            program = pathlib.Path(folder) / "core_stacks"
            said = "".join(f"echo '{line}'\n" for line in lines)
            program.write_text(f'#!/bin/sh\n[ "$*" = "--names the core" ] || exit 9\n{said}exit {status}\n')
            program.chmod(0o755)
            done = subprocess.run(
                [str(CommandTest.SCRIPT), "p", "the core", *words], capture_output=True, text=True, check=False,
                env=dict(os.environ) | {"CORE_STACKS": str(program)},
            )
            return done.returncode, done.stdout, done.stderr

    def test_the_first_thread(self) -> None:
        first = "#0 0x10a in raise+0xa from /lib/libc.so\n#1 0x201 in /bin/p+0x1201\n#2 0x3 in ??\n"
        self.assertEqual(self.printed(self.LINES, 0, "--names"), (0, first, ""))

    def test_all_threads(self) -> None:
        both = (
            "Thread 1:\n#0 0x10a in raise+0xa from /lib/libc.so\n#1 0x201 in /bin/p+0x1201\n#2 0x3 in ??\n"
            "\nThread 2:\nrefused: frame limit\n"
        )
        for words in (("--names", "--threads"), ("--threads", "--names")):
            with self.subTest(words):
                self.assertEqual(self.printed(self.LINES, 0, *words), (0, both, ""))

    def test_no_core(self) -> None:
        line = "refused: core header"
        self.assertEqual(self.printed((line,), 8, "--names"), (8, "", f"{line}\n"))


if __name__ == "__main__":
    unittest.main()
