"""Tests of tools/core.py, core_image.py, core_names.py and core_backtrace.py.

The core of `HAND` is written byte by byte by the ELF standard (System V gABI, "ELF Header", "Program Header", "Note
Section") and Linux's `struct elf_prstatus`; `readelf -hln` reads it as the comments say. Where a file of a compiler is
needed, it is built here, and readelf says what is expected.
"""
from __future__ import annotations

import contextlib
import io
import json
import os
import pathlib
import re
import shutil
import struct
import subprocess
import sys
import tempfile
import unittest
from unittest import mock

from core import (
    MOST_BYTES_WITH_ALL_TABLES, Loaded as LoadedModule, Source, Wanted, apart, biases_of, bounded, code_of_no_file, common_size,
    file_modules, frame_table, interrupted_pointers, program_name, stacks_of, within_size, words_of,
)
from core_backtrace import Options, read_words
from core_image import Core, Mapped, Memory, core_with, mapped_of, notes_of
from core_names import Loaded, ThreadStart, Walk, ending_of, frames_of, walk_of, walks_of
from elf_image import ElfImage, Range, Refused
from loaded_module import Module
from snapshot_file import Region

# e_ident: class 64, lowest byte first; e_type CORE, e_machine x86-64, e_phoff 64, e_ehsize 64, two headers of 56 bytes
HAND_HEADER = (
    "7f454c46 02010100 0000000000000000 0400 3e00 01000000 0000000000000000 4000000000000000 0000000000000000"
    "00000000 4000 3800 0200 0000 0000 0000"
)
# PT_NOTE, 356 bytes from 176 on; PT_LOAD, 16 bytes from 532 on at 0x7000, of 32 that were mapped
HAND_SEGMENTS = (
    "04000000 00000000 b000000000000000 0000000000000000 0000000000000000 6401000000000000 0000000000000000 0400000000000000"
    "01000000 06000000 1402000000000000 0070000000000000 0000000000000000 1000000000000000 2000000000000000 0100000000000000"
)
# name of 5 bytes, description of 336, NT_PRSTATUS; pr_pid 77 at 32, RIP 0x401006 at 240, RSP 0x7004 at 264, FS base 0x7008 at 280
HAND_NOTE = (
    "05000000 50010000 01000000 434f524500000000" + "00" * 32 + "4d000000" + "00" * 204 + "0610400000000000"
    + "00" * 16 + "0470000000000000" + "00" * 8 + "0870000000000000" + "00" * 48
)
HAND = bytes.fromhex(HAND_HEADER + HAND_SEGMENTS + HAND_NOTE + "0102030405060708 1112131415161718")


def changed(offset: int, content: str) -> bytes:
    """The core with other bytes."""
    replaced = bytes.fromhex(content)
    return HAND[:offset] + replaced + HAND[offset + len(replaced) :]


def core_of(content: bytes) -> Core:
    """A core of bytes."""
    return Core(io.BytesIO(content))


def note(kind: int, description: bytes, name: bytes = b"CORE\0") -> bytes:
    """A note, filled up to multiples of four."""
    filled = name + bytes(-len(name) % 4) + description + bytes(-len(description) % 4)
    return struct.pack("<III", len(name), len(description), kind) + filled


class CoreImageTest(unittest.TestCase):
    """What a core's bytes say."""

    def test_hand_written_core(self) -> None:
        core = core_of(HAND)
        (thread,) = core.threads()
        self.assertEqual((thread.number, thread.rip, thread.rsp, thread.fs_base), (77, 0x401006, 0x7004, 0x7008))
        self.assertEqual(core.memories, [Memory(0x7000, 532, 16, 16, 32)])
        self.assertEqual(core.bytes_of(Range(0x7004, 0x700A)), bytes.fromhex("05060708 1112"))
        self.assertEqual(core.bytes_of(Range(0x700C, 0x7100)), bytes.fromhex("15161718"))
        self.assertIsNone(core.cut_line())

    @unittest.skipUnless(shutil.which("readelf"), "readelf isn't installed")
    def test_hand_written_core_by_readelf(self) -> None:
        with tempfile.NamedTemporaryFile() as file:
            file.write(HAND)
            file.flush()
            text = subprocess.run(["readelf", "-hlnW", file.name], capture_output=True, text=True, check=True).stdout
        self.assertRegex(text, r"Type: +CORE \(Core file\)\n +Machine: +Advanced Micro Devices X86-64")
        self.assertRegex(text, r"LOAD +0x000214 0x0+7000 0x0+ 0x000010 0x000020 RW")
        self.assertRegex(text, r"CORE +0x00000150\s+NT_PRSTATUS")

    def test_stack_ends_at_the_threads_own_block(self) -> None:
        core = core_of(HAND)
        (stack,) = stacks_of(core, core.threads(), None)
        self.assertEqual((stack.start, stack.content), (0x7000, bytes.fromhex("0102030405060708")))

    def test_overflowed_stack_is_the_next_segment(self) -> None:
        core = core_of(changed(176 + 20 + 264, "f06f000000000000"))
        (stack,) = stacks_of(core, core.threads(), None)
        self.assertEqual(stack.start, 0x7000)

    def test_what_is_no_core(self) -> None:
        cases = {
            "it is empty": b"",
            "its first bytes are 6a 75 6e 6b": b"junk and more",
            "it is cut off at byte 0x3f, within its header (0x0-0x40)": HAND[:63],
            "it is cut off at byte 0x6e, within its program headers (0x40-0xb0)": HAND[:110],
            "an ELF file of 32 bits: its byte 0x4 is 1": changed(4, "01"),
            "its byte 0x5 is 2": changed(5, "02"),
            "it is no core but a program: its type at 0x10 is 2": changed(16, "0200"),
            "it is a core of AArch64: its machine at 0x12 is 183": changed(18, "b700"),
            "its program headers have 32 bytes each (at 0x36)": changed(54, "2000"),
        }
        for text, content in cases.items():
            with self.subTest(text), self.assertRaisesRegex(Refused, re.escape(text)):
                core_of(content)

    def test_core_without_a_thread(self) -> None:
        for content in (changed(176 + 8, "02000000"), changed(176 + 12, "4c494e55"), HAND[:500]):
            with self.assertRaisesRegex(Refused, r"it has no thread: .*\(0xb0-0x214"):
                core_of(content).threads()

    def test_cut_core(self) -> None:
        core = core_of(HAND[:540])
        self.assertEqual(len(core.threads()), 1)
        self.assertIn("it has 540 of 548 bytes, and of 1 segments memory is missing, first at 0x7008", core.cut_line() or "")
        self.assertEqual(core.missing_at(0x7008), "where the core is cut off")
        self.assertEqual(core.missing_at(0x7010), "which the core leaves out")
        self.assertEqual(core.missing_at(0x7020), "nothing was mapped there")
        self.assertEqual(core.bytes_of(Range(0x7000, 0x7010)), bytes.fromhex("0102030405060708"))

    def test_more_segments_than_the_header_counts(self) -> None:
        # e_phnum PN_XNUM, e_shoff 548; sh_info of section header 0, at its byte 44, has the number
        content = changed(40, "2402000000000000")
        content = content[:56] + b"\xff\xff" + content[58:] + bytes(44) + struct.pack("<I", 2) + bytes(16)
        self.assertEqual(len(core_of(content).threads()), 1)

    def test_notes_stop_where_one_isnt_whole(self) -> None:
        content = note(1, b"abcd") + note(2, b"efghi")
        self.assertEqual([found.kind for found in notes_of(content)], [1, 2])
        self.assertEqual([found.kind for found in notes_of(content[:-3])], [1, 2])
        self.assertEqual([found.kind for found in notes_of(content[:-4])], [1])

    def test_mapped_files(self) -> None:
        # core(5), NT_FILE: count, page size, then start, end and offset in pages of each, then the names
        rows = struct.pack("<QQ6Q", 2, 4096, 0x1000, 0x2000, 0, 0x5000, 0x7000, 3)
        names = b"/bin/a\0/lib/b\0"
        found = [Mapped(Range(0x1000, 0x2000), 0, "/bin/a"), Mapped(Range(0x5000, 0x7000), 0x3000, "/lib/b")]
        self.assertEqual(mapped_of(rows + names), found)
        with self.assertRaisesRegex(Refused, "counts 2 files, and has 1 places"):
            mapped_of(rows[:40])

    def test_made_core_is_read(self) -> None:
        memory = [(0x7000, bytes(range(64))), (0x8F00, bytes(512))]
        core = core_of(core_with(core_of(HAND).threads() * 2, memory))
        self.assertEqual([thread.note.text for thread in core.threads()], [bytes.fromhex(HAND_NOTE)] * 2)
        self.assertEqual([core.bytes_of(Range(start, start + len(content))) for start, content in memory],
                         [content for _start, content in memory])


class StacksTest(unittest.TestCase):
    """Which memory is taken."""

    def test_common_size(self) -> None:
        self.assertEqual(common_size([10, 20, 30], 100), 30)
        self.assertEqual(common_size([10, 20, 30], 50), 20)
        self.assertEqual(common_size([10, 100, 100], 50), 20)

    def test_stacks_of_one_segment_stay_whole(self) -> None:
        ends = 2**30
        places = [Range(0x1000, ends), Range(0x200000, ends), Range(0x300000, 0x300010)]
        self.assertEqual(apart(places), [Range(0x1000, 0x200000), Range(0x200000, 0x300000), Range(0x300000, 0x300010)])
        self.assertEqual(bounded(places[:2], 0xF80), [Range(0x1000, 0x2000), Range(0x200000, 0x201000)])
        self.assertEqual(bounded([Range(0x1000, 0x1010), Range(0x1008, 0x1020)], None), [Range(0x1000, 0x1020)])
        with contextlib.redirect_stderr(io.StringIO()) as said:
            taken = bounded(places[:2], None)
        self.assertEqual(taken, [Range(0x1000, 0x200000 + 2**24 - 0x1FF000)])
        self.assertIn("1 of 2 stacks are longer", said.getvalue())

    def test_stacks_that_signals_interrupted_have_a_part_of_the_same_size(self) -> None:
        # three stacks of 16 MiB: a signal's frame on each but the last says where the next one stands
        def stack(pointer: int) -> bytes:
            frame = struct.pack("<3Q4H", pointer, 0x401000, 0x202, 0x33, 0, 0, 0x2B)
            return bytes(256) + frame + bytes(2**24 - 256 - len(frame))

        starts = [0x10000000, 0x20000000, 0x30000000]
        memory = [(start, stack(after + 128)) for start, after in zip(starts, starts[1:] + [0x100])]
        standing = HAND.replace(struct.pack("<Q", 0x7004), struct.pack("<Q", starts[0] + 128))
        core = core_of(core_with(core_of(standing.replace(struct.pack("<Q", 0x7008), bytes(8))).threads(), memory))
        with contextlib.redirect_stderr(io.StringIO()) as said:
            taken = stacks_of(core, core.threads(), None)
        sizes = [len(one.content) for one in taken]
        self.assertEqual([one.start for one in taken], starts)
        self.assertEqual(sizes, [12 * 2**20, 3 * 2**20, 3 * 2**18])
        self.assertIn("1 of 1 stacks are longer than 12582912 bytes", said.getvalue())

    def test_interrupted_pointer(self) -> None:
        # `struct sigcontext_64`: RSP, RIP, flags, then CS 0x33, GS, FS and SS 0x2b
        frame = struct.pack("<3Q4H", 0x7FFC0000, 0x401000, 0x202, 0x33, 0, 0, 0x2B)
        self.assertEqual(list(interrupted_pointers(bytes(16) + frame)), [0x7FFC0000])
        self.assertEqual(list(interrupted_pointers(frame[8:])), [])

    def test_words_that_point_into_code(self) -> None:
        core = core_of(HAND)
        wanted = Wanted(words_of(core.threads(), stacks_of(core, core.threads(), None)))
        self.assertTrue(wanted.takes([Range(0x401000, 0x402000)]))
        self.assertTrue(wanted.takes([Range(0x0807060504030201, 0x0807060504030202)]))
        self.assertFalse(wanted.takes([Range(0x402000, 0x403000)]))
        self.assertTrue(Wanted(wanted.words, every=True).takes([Range(0x402000, 0x403000)]))

    def test_tables_of_modules_without_frames_are_taken_within_a_size(self) -> None:
        def module(start: int, size: int) -> LoadedModule:
            table = Region(start + 0x1000, bytes(size))
            place = Range(table.start, table.start + size)
            return LoadedModule(Module(f"{start:x}", 0, None, [Range(start, start + 16)], place, None, [], []), table)

        large, small = module(0x10000000, MOST_BYTES_WITH_ALL_TABLES), module(0x20000000, 1)
        into_large, into_small = (Wanted([one.module.code[0].start], every=True) for one in (large, small))
        self.assertEqual(within_size([small, large], Wanted([]), 0), [small])
        self.assertEqual(within_size([large], Wanted([]), 0), [large])
        with contextlib.redirect_stderr(io.StringIO()) as said:
            self.assertEqual(within_size([small, large], into_large, 0), [large])
            self.assertEqual(within_size([large, small], into_small, 0), [small])
            self.assertEqual(within_size([large, small], Wanted([]), 1), [small])
        self.assertIn("leaves out the tables of modules that no stack points into, 1, first 20000000", said.getvalue())


@unittest.skipUnless(shutil.which("gcc") and shutil.which("readelf"), "gcc or readelf isn't installed")
class ModulesTest(unittest.TestCase):
    """Where files are loaded, and their frame tables; expected is what readelf says."""

    def setUp(self) -> None:
        self.folder = tempfile.TemporaryDirectory()
        self.addCleanup(self.folder.cleanup)
        self.file = str(pathlib.Path(self.folder.name) / "program")
        self.build()

    def build(self, *words: str) -> None:
        """Builds the file, and reads what readelf says of it."""
        subprocess.run(["gcc", "-x", "c", "-", "-pie", "-o", self.file, *words], input=b"int main(void){return 0;}", check=True)
        text = subprocess.run(["readelf", "-lSW", self.file], capture_output=True, text=True, check=True).stdout
        self.loads = [[int(word, 16) for word in row.split()[1:3]] for row in re.findall(r"^ +(LOAD .*)$", text, re.M)]
        row = re.search(r"\.eh_frame +PROGBITS +([0-9a-f]+) [0-9a-f]+ ([0-9a-f]+)", text)
        assert row is not None
        self.table = (int(row[1], 16), int(row[2], 16))

    def parts(self, bias: int, name: str) -> list[Mapped]:
        """The file as Linux maps it, page by page."""
        rows = [(offset // 4096 * 4096, address // 4096 * 4096 + bias) for offset, address in self.loads]
        return [Mapped(Range(start, start + 4096), offset, name) for offset, start in rows]

    def test_bias_and_table(self) -> None:
        with open(self.file, "rb") as stream:
            image = ElfImage(stream)
            self.assertEqual(biases_of(image, self.parts(0x555500000000, "program")), [0x555500000000])
            found = frame_table(image)
            self.assertEqual((found.start, len(found.content)), self.table)
            image.sections = []
            self.assertEqual(frame_table(image).content[: self.table[1]], found.content)

    def test_file_that_wasnt_mapped(self) -> None:
        with open(self.file, "rb") as stream, self.assertRaisesRegex(Refused, "none of its segments is what was mapped"):
            biases_of(ElfImage(stream), [Mapped(Range(0x1000, 0x2000), 0x12345000, "other")])

    def moved(self, bias: int) -> tuple[Core, int]:
        """A core of the program, which had another name when it ran, and its entry point."""
        parts = self.parts(bias, "/nonexistent/program")
        rows = [word for part in parts for word in (part.place.start, part.place.end, part.offset // 4096)]
        names = b"/nonexistent/program\0" * len(parts)
        entry = parts[1].place.start
        notes = bytes.fromhex(HAND_NOTE) + note(0x46494C45, struct.pack(f"<{2 + len(rows)}Q", len(parts), 4096, *rows) + names)
        notes += note(6, struct.pack("<4Q", 9, entry, 0, 0))
        return core_of(changed(64 + 32, struct.pack("<Q", len(notes)).hex())[:176] + notes), entry

    def test_program_that_has_moved(self) -> None:
        bias = 0x555500000000
        core, entry = self.moved(bias)
        self.assertEqual(program_name(core, core.mapped()), "/nonexistent/program")
        (found,), code = file_modules(core, Source(self.file), Wanted([entry]))
        self.assertEqual((found.module.bias, found.table.start, code), (bias, bias + self.table[0], []))

    def test_program_without_a_table(self) -> None:
        self.build("-Wl,--no-eh-frame-hdr")
        subprocess.run(["objcopy", "--remove-section=.eh_frame", self.file], check=True)
        core, entry = self.moved(0x555500000000)
        with contextlib.redirect_stderr(io.StringIO()):
            loaded, code = file_modules(core, Source(self.file), Wanted([entry]))
        self.assertEqual((loaded, {entry["path"] for entry in code}), ([], {os.path.realpath(self.file)}))
        self.assertTrue(all(entry["program"] for entry in code))
        self.assertTrue(any(int(piece["start"], 16) <= entry < int(piece["end"], 16) for piece in code))

    def test_executable_memory_of_no_file(self) -> None:
        """By the gABI's flags of a segment, of which 1 says that it can be run."""
        memory = struct.pack("<IIQQQQQQ", 1, 5, 532, 0x7000, 0, 16, 32, 0)
        core = core_of(HAND[:120] + memory + HAND[176:])
        self.assertEqual(code_of_no_file(core, []), [{"start": "0x7000", "end": "0x7020"}])
        self.assertEqual(code_of_no_file(core, [Mapped(Range(0x7000, 0x7020), 0, "/bin/a")]), [])
        self.assertEqual(len(code_of_no_file(core, [Mapped(Range(0x7000, 0x7020), 0, "/memfd:jit (deleted)")])), 1)
        self.assertEqual(code_of_no_file(core_of(HAND), []), [])


class TextTest(unittest.TestCase):
    """What core.py writes of a core that doesn't say which files were mapped."""

    def setUp(self) -> None:
        self.folder = tempfile.TemporaryDirectory()
        self.addCleanup(self.folder.cleanup)
        self.core = pathlib.Path(self.folder.name) / "core"
        self.core.write_bytes(HAND)

    def written(self, *words: str) -> str:
        """What core.py prints."""
        tool = pathlib.Path(__file__).with_name("core.py")
        done = subprocess.run([sys.executable, tool, sys.executable, self.core, *words], capture_output=True, text=True, check=True)
        return done.stdout

    def test_core_has_the_threads_and_their_stacks(self) -> None:
        found = json.loads(self.written("--limit", "7"))
        self.assertEqual((found["regions"], found["modules"], found["limit"]), ([], [], 7))
        core = core_of(bytes.fromhex(found["core"]))
        self.assertEqual([thread.note.text for thread in core.threads()], [bytes.fromhex(HAND_NOTE)])
        self.assertEqual(core.bytes_of(Range(0x7000, 0x7100)), bytes.fromhex("0102030405060708"))

    def test_file_has_what_is_printed(self) -> None:
        file = self.core.with_name("core.json")
        self.assertEqual(self.written(str(file)), "")
        self.assertEqual(self.written(), file.read_text())


class WordsTest(unittest.TestCase):
    """The words of core_backtrace.py."""

    def test_words(self) -> None:
        with mock.patch.dict(os.environ, {"UNWIND_CLI": "built/unwind_cli", "BACKTRACE": "built/backtrace"}):
            built = {"backtrace": "built/backtrace", "unwind_cli": "built/unwind_cli"}
            self.assertEqual(read_words(["p", "c"]), Options("p", "c", False, built, ""))
            words = ["--root", "/r", "p", "--threads", "c", "--unwind-cli", "u"]
            self.assertEqual(read_words(words), Options("p", "c", True, built | {"unwind_cli": "u"}, "/r"))

    def test_other_words_are_refused(self) -> None:
        for words in ([], ["p"], ["p", "c", "d"], ["p", "c", "--root"], ["p", "--thread"]):
            with self.subTest(words), self.assertRaises(SystemExit):
                read_words(words)


class NamesTest(unittest.TestCase):
    """Reports as docs/FORMATS.md has them."""

    REPORT = (
        "thread 0\nframe 0 ra=0x401006 sp=0x7000 rbx=0x9 rbp=0x0 r12=0x0 r13=0x0 r14=0x0 r15=0x0\n"
        "frame 1 ra=0x0 sp=0x7010 rbx=0x5 rbp=0x0 r12=0x0 r13=0x0 r14=0x0 r15=0x0\nend\n"
        "thread 1\nrefused: unmapped 0x7008\n"
    )

    def test_walks(self) -> None:
        self.assertEqual(walks_of(self.REPORT), [Walk([0x401006, 0], "end"), Walk([], "refused: unmapped 0x7008")])

    def test_refused_thread_has_its_innermost_frame(self) -> None:
        (frame,) = frames_of(Walk([], "refused: unmapped 0x7008"), ThreadStart(77, 0x401006), set())
        self.assertEqual((frame.counter, frame.address), (0x401006, 0x401006))

    def test_address_after_a_call_and_after_a_signal(self) -> None:
        walk = Walk([0x401006, 0x500000, 0x402000, 0x403000, 0], "end")
        found = list(frames_of(walk, ThreadStart(77, 0x401006), {0x500000}))
        self.assertEqual([frame.address for frame in found], [0x401006, 0x500000, 0x402000, 0x402FFF])
        self.assertEqual([frame.is_signal for frame in found], [False, True, False, False])

    # A file at 0x400000, and code without a table, of a file and of none.
    FOUND = {
        "modules": [{"path": "/bin/a", "bias": "0x400000", "start": "0x401000", "end": "0x402000"}],
        "code": [
            {"start": "0x800000", "end": "0x801000", "path": "/bin/bare", "bias": "0x0"}, {"start": "0x900000", "end": "0x901000"},
        ],
    }

    def test_endings(self) -> None:
        cases = {
            None: Walk([0x401006, 0], "end"),
            "end: no description of a+0x1fff": Walk([0x401006, 0x402000], "end"),
            "end: no module holds 0x0000000041414140": Walk([0x401006, 0x41414141], "end"),
            "end: code without a table at 0x0000000000800006 in bare": Walk([0x401006, 0x800007], "end"),
            "end: code without a table at 0x0000000000900006": Walk([0x401006, 0x900007], "end"),
            "refused: unmapped 0x7008 (where the core is cut off)": Walk([], "refused: unmapped 0x7008"),
            "refused: table UnknownInstruction": Walk([], "refused: table UnknownInstruction"),
        }
        core = core_of(HAND[:540])
        for text, walk in cases.items():
            with self.subTest(text):
                self.assertEqual(ending_of(walk, Loaded(self.FOUND), core.missing_at), text)

    def test_endings_of_backtraces(self) -> None:
        """Their lines as docs/FORMATS.md has them."""
        cases = {
            "#0  0x0000000000401006 in a+0x1006\nend: the outermost frame, which returns to 0\n": None,
            "#0  0x0000000000401006 in a+0x1006\nend: no caller of 0x0000000000401006 in a b+0x1006: unmapped 0x7008\n":
                "end: no caller of 0x0000000000401006 in a b+0x1006: unmapped 0x7008 (where the core is cut off)",
            "#0  0x0000000000800006\nend: code without a table at 0x0000000000800006 in bare\n":
                "end: code without a table at 0x0000000000800006 in bare",
        }
        core = core_of(HAND[:540])
        for report, text in cases.items():
            with self.subTest(report):
                walk = walk_of(f"\n{report}")
                self.assertEqual(walk.addresses, [int(report.split()[1], 16)])
                self.assertEqual(ending_of(walk, Loaded(self.FOUND), core.missing_at), text)

    def test_guesses(self) -> None:
        """After a call through a null pointer the second frame is marked."""
        text = "\n#0  {}\n#1  0x0000000000401006 in a+0x1006 (return address on the stack)\nend: no module holds 0x0000000000000008\n"
        for address in (0, 0x123456):
            with self.subTest(address):
                frames = list(frames_of(walk_of(text.format(f"{address:#018x}")), ThreadStart(77, address), set()))
                self.assertEqual([frame.counter for frame in frames], [address, 0x401006])
                self.assertEqual([frame.note for frame in frames], ["", " (return address on the stack)"])
                self.assertEqual([frame.address for frame in frames], [address, 0x401005])

    def test_popped_registers(self) -> None:
        """Where popped registers were kept the first frame is marked, and no other one at the same address."""
        text = "\n#0  0x000000000040100f in a+0x100f{}\n#1  0x000000000040100f in a+0x100f\nend: no module holds 0x0000000000000008\n"
        for mark in ("", " (popped registers kept)"):
            with self.subTest(mark):
                frames = list(frames_of(walk_of(text.format(mark)), ThreadStart(77, 0x40100F), set()))
                self.assertEqual([frame.note for frame in frames], [mark, ""])
                self.assertEqual([frame.address for frame in frames], [0x40100F, 0x40100E])


if __name__ == "__main__":
    unittest.main()
