"""Tests of names.py and symbols.py: names as compilers and demanglers write them, what symbolizers print, and reports."""
from __future__ import annotations

import ctypes
import io
import os
import pathlib
import shutil
import subprocess
import tempfile
import unittest
from unittest import mock

import symbols
from elf_image import ElfImage, Function
from names import (
    Module, Part, Place, ReportedFrame, backtrace, function_at, known_line, last_line, modules_of, names_of, parts_of,
    places_of, plain_name, reported_frames,
)


class Names(unittest.TestCase):
    def test_plain_names(self) -> None:
        cases = {
            "inner": "inner",
            "Noted::~Noted()": "Noted::~Noted",
            "(anonymous namespace)::run(int, char**)": "(anonymous namespace)::run",
            "run(int) [clone .cold]": "run",
            "run(int) (.cold)": "run",
            "Shape::area(int) const": "Shape::area",
            "void std::sort<int*, bool (*)(int, int)>(int*, int*, bool (*)(int, int))":
                "std::sort<int*, bool (*)(int, int)>",
            "non-virtual thunk to Circle::area(int) const": "non-virtual thunk to Circle::area",
            "boxes::main::{{closure}}::h16ba92bdf487e9d5": "boxes::main::{{closure}}",
            "<boxes::Square as boxes::Shape>::area::h3eb193de980f1e99": "<boxes::Square as boxes::Shape>::area",
            "std[e28293b1aa0f68bd]::rt::lang_start::<()>": "std::rt::lang_start::<()>",
            "core::ops::FnOnce<fn() -> u8>::call": "core::ops::FnOnce<fn() -> u8>::call",
        }
        for name, expected in cases.items():
            with self.subTest(name):
                self.assertEqual(plain_name(name), expected)

    def test_operators(self) -> None:
        """As gdb names them in a backtrace of examples/operators.cpp, or of functions declared so."""
        cases = {
            "operator()": "operator()",
            "main::{lambda(int)#1}::operator()(int) const": "main::{lambda(int)#1}::operator()",
            "operator<<(std::ostream&, int)": "operator<<",
            "std::basic_ostream<char>& std::operator<< <std::char_traits<char> >(std::basic_ostream<char>&, char const*)":
                "std::operator<< <std::char_traits<char> >",
            "bool operator><long>(Depth const&, long)": "operator><long>",
            "bool operator< <int>(Box<int> const&, Box<int> const&)": "operator< <int>",
            "Depth::operator long*() const": "Depth::operator long*",
            "Text::operator std::vector<int, std::allocator<int> >() const":
                "Text::operator std::vector<int, std::allocator<int> >",
            "Depth::operator->*(int) const": "Depth::operator->*",
            "Depth::operator,(int) const": "Depth::operator,",
            "Depth::operator[](int) const": "Depth::operator[]",
            "operator delete[](void*)": "operator delete[]",
            "void apply<&(Left::operator<(Left const&) const)>(int)": "apply<&(Left::operator<(Left const&) const)>",
            "cooperators(int)": "cooperators",
        }
        for name, expected in cases.items():
            with self.subTest(name):
                self.assertEqual(plain_name(name), expected)

    def test_known_lines(self) -> None:
        cases = {"nested.c:12": "nested.c:12", "a.c:3 (discriminator 2)": "a.c:3",
                 "??:0": None, "??:?": None, "a.c:0": None, "a.c:?": None}
        for text, expected in cases.items():
            with self.subTest(text):
                self.assertEqual(known_line(text), expected)

    def test_output_of_symbolizers(self) -> None:
        output = "0x0000000000001156\ninner\na.c:3\nouter(int)\na.c:9\n0x2000\n??\n??:0\n"
        expected = {0x1156: [Place("inner", "a.c:3"), Place("outer", "a.c:9")], 0x2000: [Place("??", None)]}
        self.assertEqual(places_of(output), expected)

    def test_functions_by_address(self) -> None:
        functions = [Function(0x10, 0x20, "a"), Function(0x30, 0x30, "by hand"), Function(0x50, 0x60, "b")]
        cases = {0xF: None, 0x10: "a", 0x1F: "a", 0x20: None, 0x30: "by hand", 0x4F: "by hand", 0x60: None}
        for address, expected in cases.items():
            with self.subTest(hex(address)):
                self.assertEqual(function_at(functions, address), expected)


class Reports(unittest.TestCase):
    REPORT = "".join(f"frame {level} ra={address} sp=0x1\n" for level, address in enumerate(
        ["0x100", "0x205", "0x300", "0x0"]
    )) + "end\n"

    def test_frames_after_calls_and_signals(self) -> None:
        frames = reported_frames(self.REPORT, True, [(0x204, 0x20A)])
        expected = [ReportedFrame(0x100, 0x100), ReportedFrame(0x205, 0x204, True), ReportedFrame(0x300, 0x300)]
        self.assertEqual(frames, expected)

    def test_frames_of_a_backtrace(self) -> None:
        report = (
            "#0  0x0000000000000000\n#1  0x0000000000000205 in a+0x205 (return address on the stack)\n"
            "#2  0x0000000000000300 in (a)+0x300\n#10 0x0000000000000400 sp=0x1\nend: more frames than the limit\n"
        )
        registers = report.replace("stack)\n", "stack) sp=0x10 rbx=0x0 r15=0xff\n")
        expected = [
            ReportedFrame(0, 0), ReportedFrame(0x205, 0x204, note=" (return address on the stack)"),
            ReportedFrame(0x300, 0x2FF), ReportedFrame(0x400, 0x3FF),
        ]
        self.assertEqual(reported_frames(report, True, []), expected)
        self.assertEqual(reported_frames(registers, True, []), expected)
        self.assertEqual(last_line(report), "end: more frames than the limit")
        self.assertIsNone(last_line("#0  0x0000000000000100\nend: the outermost frame, which returns to 0\n"))

    def test_frames_of_a_start_after_a_call(self) -> None:
        frames = reported_frames(self.REPORT, False, [])
        self.assertEqual([frame.address for frame in frames], [0xFF, 0x204, 0x2FF])

    def test_last_lines(self) -> None:
        self.assertIsNone(last_line(self.REPORT))
        self.assertEqual(last_line("refused: frame limit\n"), "refused: frame limit")

    def test_reports_of_threads(self) -> None:
        report = "thread 0\nframe 0 ra=0x100 sp=0x1\nend\nthread 1\nrefused: unmapped 0x8\n"
        expected = [Part("thread 0", "frame 0 ra=0x100 sp=0x1\nend\n"), Part("thread 1", "refused: unmapped 0x8\n")]
        self.assertEqual(parts_of(report), expected)
        self.assertEqual(parts_of(self.REPORT), [Part(None, self.REPORT)])
        self.assertEqual(parts_of("Thread 7 a:\nend\n\nThread 8 b:\nend\n"), [Part("Thread 7 a:", "end\n"), Part("Thread 8 b:", "end\n")])
        found = {"regions": [], "modules": [], "core": ""}
        lines = ["thread 0", "#0 0x100 in ??", "", "thread 1", "refused: unmapped 0x8"]
        self.assertEqual(backtrace(report, found, []), lines)

    def test_code_without_a_table(self) -> None:
        found = {"regions": [], "modules": [], "interrupted": True, "start": {},
                 "code": [{"start": "0x100", "end": "0x200", "path": "/none/go", "bias": "0x0"}, {"start": "0x300", "end": "0x400"}]}
        for address, name, last in ((0x110, "go+0x110", " in go"), (0x310, "??", "")):
            with self.subTest(address):
                last = f"end: code without a table at {address:#018x}{last}"
                report = f"#0  {address:#018x}\n{last}\n"
                self.assertEqual(backtrace(report, found, []), [f"#0 {address:#x} in {name}", last])
        guess = "#0  0x0000000000000510\n#1  0x00000000000000c3 (return address on the stack)\nend: no module holds 0x00000000000000c2\n"
        lines = ["#0 0x510 in ??", "#1 0xc3 in ?? (return address on the stack)", "end: no module holds 0x00000000000000c2"]
        self.assertEqual(backtrace(guess, found, []), lines)

    def test_popped_registers(self) -> None:
        """The mark stays at the frame, also before its registers."""
        report = "#0  0x0000000000000510 in a+0x510 (popped registers kept){}\n#1  0x00000000000000c3\nend: no module holds 0x00000000000000c2\n"
        found = {"regions": [], "modules": [], "interrupted": True, "start": {}}
        lines = ["#0 0x510 in ?? (popped registers kept)", "#1 0xc3 in ??", "end: no module holds 0x00000000000000c2"]
        for registers in ("", " sp=0x10 rbx=0x0 r15=0xff"):
            with self.subTest(registers):
                self.assertEqual(backtrace(report.format(registers), found, []), lines)

    def test_modules_of_other_kinds(self) -> None:
        found = {"modules": [{"kind": "pe", "base": "0x1000", "size": "0x20", "path": "a.dll", "bias": "0x0"}]}
        self.assertEqual(modules_of(found), [Module("a.dll", 0, 0x1000, 0x1020, None)])


SOURCE = "int inner(void) { return 1; }\nint outer(void) { return inner() + 1; }\n"


@unittest.skipUnless(shutil.which("gcc") and shutil.which("nm"), "wants gcc and nm")
class Files(unittest.TestCase):
    """Two files at the same addresses of their own, loaded at different ones. What they have where is by `nm`."""

    @classmethod
    def setUpClass(cls) -> None:
        cls.folder = tempfile.TemporaryDirectory()
        cls.modules, cls.addresses = [], {}
        for index, options in enumerate((["-g"], [])):
            path = os.path.join(cls.folder.name, f"lib file{index}.so")
            words = ["gcc", "-shared", "-fPIC", "-O0", *options, "-o", path, "-x", "c", "-"]
            subprocess.run(words, input=SOURCE, text=True, check=True)
            listed = subprocess.run(["nm", path], capture_output=True, text=True, check=True).stdout
            starts = {line.split()[2]: int(line.split()[0], 16) for line in listed.splitlines() if " T " in line}
            bias = 0x10000 * (index + 1)
            with open(path, "rb") as stream:
                cls.modules.append(Module(path, bias, bias, bias + 0x10000, ElfImage(stream).build_id()))
            cls.addresses |= {bias + starts[name]: (name, index) for name in ("inner", "outer")}

    @classmethod
    def tearDownClass(cls) -> None:
        cls.folder.cleanup()

    def expected(self, with_lines: bool) -> dict[int, list[Place]]:
        """The names, with lines of the first file alone."""
        lines = {"inner": "<stdin>:1", "outer": "<stdin>:2"}
        return {address: [Place(name, lines[name] if with_lines and index == 0 else None)]
                for address, (name, index) in self.addresses.items()}

    def test_all_are_asked_in_one_run(self) -> None:
        with mock.patch.object(symbols, "printed_by", wraps=symbols.printed_by) as run:
            found = names_of([*self.addresses, 0x9], self.modules)
        lines = {address: [Place(place.function, place.line and place.line.split("/")[-1]) for place in places]
                 for address, places in found.items()}
        self.assertEqual(lines, self.expected(symbols.has_symbolizer()) | {0x9: []})
        if symbols.program_on_path("llvm-symbolizer"):
            self.assertEqual(run.call_count, 1)

    def test_without_a_symbolizer(self) -> None:
        with mock.patch.object(symbols, "which", return_value=None):
            self.assertEqual(names_of(self.addresses, self.modules), self.expected(False))

    def test_a_file_without_a_frame_table(self) -> None:
        """A snapshot names such files as code of which no module has a table."""
        module, address = self.modules[1], next(address for address, (name, index) in self.addresses.items() if (name, index) == ("inner", 1))
        code = {"start": f"{module.start:#x}", "end": f"{module.end:#x}", "path": module.path, "bias": f"{module.bias:#x}",
                "build_id": module.build_id, "program": True}
        report = f"#0  {address:#018x}\nend: code without a table at {address:#018x} in {os.path.basename(module.path)}\n"
        lines = [f"#0 {address:#x} in inner", report.splitlines()[1]]
        self.assertEqual(backtrace(report, {"regions": [], "modules": [], "code": [code], "interrupted": True}, []), lines)

    def test_a_file_of_another_build(self) -> None:
        other = [Module(module.path, module.bias, module.start, module.end, "00") for module in self.modules]
        self.assertEqual(names_of(self.addresses, other), {address: [] for address in self.addresses})


class Supplied(unittest.TestCase):
    """What the system maps into this process, whose functions the dynamic linker finds too."""

    def test_a_function(self) -> None:
        try:
            function = ctypes.CDLL("linux-vdso.so.1").clock_gettime
        except (OSError, AttributeError):
            self.skipTest("wants what the system maps")
        address = ctypes.cast(function, ctypes.c_void_p).value
        lines = pathlib.Path("/proc/self/maps").read_text(encoding="utf-8").splitlines()
        mapped = next(line.split()[0] for line in lines if line.endswith("[vdso]"))
        start, end = (int(digits, 16) for digits in mapped.split("-"))
        image = ElfImage(io.BytesIO(symbols.supplied_image()))
        (code,) = image.code_ranges(start)
        module = Module(symbols.SUPPLIED, start, code.start, code.end, image.build_id())
        self.assertTrue(start <= address < end)
        self.assertIn(names_of([address], [module])[address], ([Place("clock_gettime")], [Place("__vdso_clock_gettime")]))
        other = module._replace(build_id="00")
        self.assertEqual(names_of([address], [other])[address], [])


if __name__ == "__main__":
    unittest.main()
