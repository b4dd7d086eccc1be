"""Tests of flamegraph.py: reports, frames, names, and lines as other tools read them."""
import json
import re
import unittest
from pathlib import Path

from elf_image import Function, Range, Refused
from flame_picture import Name
from flamegraph import (
    Frames, Moment, Names, Stack, clean, described_functions, interrupted_starts, moment_of, named_counts, named_lines,
    options_of, program_of, stacks_of,
)
from names import Place, ReportedFrame, Symbols

REPORT = "[end] 1\n0x401006 2\n0x401060;0x401030;0x401010 7\nrefused 3\n"
STARTS = [{"start": {"rip": "0x401010", "rsp": "0x1"}, "interrupted": True}, {"start": {"rip": "0x401006"}}]
SAMPLES = {
    "regions": [],
    "modules": [{"kind": "elf", "start": "0x401000", "end": "0x401080", "eh_frame": "0x0"}],
    "samples": STARTS + [STARTS[1]] * 11,
}
DATA = Path(__file__).resolve().parent.parent / "crates" / "real_samples" / "data"

# What `nm -S` says of the program of nested-gcc-O2.json: start and size. The first three of its frames that call
# are main, countdown and middle; gdb's backtrace has their addresses.
NESTED = {
    "main": (0x401020, 0x1C), "_start": (0x401040, 0x22), "innermost": (0x401130, 0x10), "inner": (0x401140, 0x35),
    "middle": (0x401180, 0x76), "countdown": (0x401200, 0x45),
}
NESTED_REPORT = "0x40102b;0x401212;0x401212;0x401212;0x4011a8;0x401155;0x401137 1\nrefused 0\n"


def nested_samples(**names: str) -> dict:
    """A snapshot of the repository as a sample, whose module may say its file."""
    found = json.loads((DATA / "nested-gcc-O2.json").read_text())
    modules = [module | names for module in found["modules"]]
    return {"regions": found["regions"], "modules": modules, "samples": [{"start": found["start"], "interrupted": True}]}


class Reports(unittest.TestCase):
    def test_stacks(self) -> None:
        stacks = [Stack((), 1), Stack((0x401006,), 2), Stack((0x401060, 0x401030, 0x401010), 7)]
        self.assertEqual(stacks_of(REPORT), (stacks, 3))
        self.assertEqual(stacks_of("refused 0\n"), ([], 0))
        for text in ("", "refused\n", "0x1 1\n", "0x1; 1\nrefused 0\n", "[end];0x1 1\nrefused 0\n", "0x1 0\nrefused 0\n"):
            with self.subTest(text), self.assertRaises(Refused):
                stacks_of(text)

    def test_moments(self) -> None:
        self.assertEqual(moment_of(REPORT, SAMPLES).refused, 3)
        with self.assertRaisesRegex(Refused, "counts 13 samples, and there are 2"):
            moment_of(REPORT, SAMPLES | {"samples": STARTS})

    def test_frames(self) -> None:
        stack = Stack((0x500, 0x205, 0x300), 1)
        after_calls = [ReportedFrame(0x500, 0x4FF), ReportedFrame(0x205, 0x204), ReportedFrame(0x300, 0x2FF)]
        self.assertEqual(Frames([]).of(stack, set()), after_calls)
        stopped = [*after_calls[:2], ReportedFrame(0x300, 0x300)]
        self.assertEqual(Frames([]).of(stack, {0x300}), stopped)
        in_handler = [ReportedFrame(0x500, 0x500), ReportedFrame(0x205, 0x204, True), after_calls[2]]
        self.assertEqual(Frames([(0x204, 0x20A)]).of(stack, set()), in_handler)
        self.assertEqual(Frames([]).of(Stack((), 1), {0}), [])

    def test_starts(self) -> None:
        self.assertEqual(interrupted_starts(SAMPLES), {0x401010})

    def test_words(self) -> None:
        options = options_of(["-", "a.json", "b.folded", "b.json", "--svg", "a.svg", "--file", "x", "--file", "y"])
        self.assertEqual((options.pairs, options.file), (["-", "a.json", "b.folded", "b.json"], ["x", "y"]))


class FunctionNames(unittest.TestCase):
    def test_described_functions(self) -> None:
        found = described_functions(nested_samples())
        for name, (start, size) in NESTED.items():
            with self.subTest(name):
                self.assertIn(Range(start, start + size), found)
        self.assertEqual(found, sorted(found))

    def test_by_header(self) -> None:
        found = json.loads((DATA / "nested-gcc-O2-by-header.json").read_text())
        self.assertEqual(described_functions(found), described_functions(nested_samples()))

    def test_functions_without_symbols(self) -> None:
        # no such file is there, so the frame table alone says where functions begin
        order = ["main", "countdown", "countdown", "countdown", "middle", "inner", "innermost"]
        for names, front in (({"path": "/gone/nested", "bias": "0x0"}, "nested+"), ({}, "")):
            moment = moment_of(NESTED_REPORT, nested_samples(**names))
            wanted = ";".join(f"{front}{NESTED[name][0]:#x}" for name in order)
            self.assertEqual(named_lines(named_counts([moment], [], False)), [f"{wanted} 1"])

    def test_functions_without_tables(self) -> None:
        counts = named_counts([moment_of(REPORT, SAMPLES)], [], False)
        self.assertEqual(named_lines(counts), ["[end] 1", "[refused] 3", "[unknown] 2", "[unknown];[unknown];[unknown] 7"])
        module = SAMPLES["modules"][0] | {"path": "/gone/a;b", "bias": "0x400000"}
        counts = named_counts([moment_of(REPORT, SAMPLES | {"modules": [module]})], [], True)
        lines = ["[a:b];[a:b];[a:b] 0x401010 7", "[a:b] 0x401006 2", "[end] 1", "[refused] 3"]
        self.assertEqual(named_lines(counts), lines)

    def test_inlined_functions(self) -> None:
        names = Names(nested_samples(path="/gone/nested", bias="0x0"), set(), [])
        places = {0x401137: [Place("innermost", "a.c:1"), Place("inner", "a.c:2"), Place("middle", None)], 0x401154: [Place("??")]}
        names.symbols["/gone/nested"] = Symbols(places, [Function(0x401140, 0x401175, "_ZN1a5innerEi")])
        here = [Name(text, "nested") for text in ("middle", "inner", "innermost")]
        self.assertEqual(names.of(ReportedFrame(0x401137, 0x401137)), here)
        self.assertEqual(names.of(ReportedFrame(0x401155, 0x401154)), [Name("a::inner", "nested")])
        self.assertEqual(names.of(ReportedFrame(0x401137, 0x401136, True)), [Name("<signal handler called>", "nested")])

    def test_moments_are_added(self) -> None:
        moment = moment_of(NESTED_REPORT, nested_samples(path="/gone/nested", bias="0x0"))
        moved = moment_of(NESTED_REPORT, nested_samples(path="/gone/other", bias="0x400000"))
        counts = named_counts([moment, moved, moment], [], False)
        self.assertEqual(sorted(counts.values()), [1, 2])
        self.assertEqual(program_of([moment, moved]), "nested")
        self.assertEqual(program_of([]), "")
        refused = Moment(SAMPLES, [], 4)
        self.assertEqual(named_lines(named_counts([refused, refused], [], False)), ["[refused] 8"])


def as_flamegraph_pl(line: str) -> tuple[str, str, str | None]:
    """A line's stack and counts as flamegraph.pl reads them: of two numbers the second is another profile's."""
    number = re.compile(r"^(.*)\s+?(\d+(?:\.\d*)?)$")
    stack, count = number.match(line).groups()
    second = number.match(stack)
    return (second.group(1), second.group(2), count) if second else (stack, count, None)


class Lines(unittest.TestCase):
    def test_clean(self) -> None:
        cases = {
            "a;b": "a:b", "a\nb  c": "a b c", "operator new": "operator new", "run 5": "run_5", "run 1.5": "run_1.5",
            "f<1, 2>": "f<1, 2>", "x 0x10": "x 0x10", " a ": "a",
        }
        for name, expected in cases.items():
            with self.subTest(name):
                self.assertEqual(clean(name), expected)

    def test_lines_are_read_back(self) -> None:
        for text in ("f<1, 2>", "run 5", "operator new", "a;b", "std::pair<int, 5 >", "7", "main 0x401010"):
            name = clean(text)
            (line,) = named_lines({(Name("main"), Name(name, "a")): 12})
            with self.subTest(text):
                self.assertEqual(as_flamegraph_pl(line), (f"main;{name}", "12", None))
                self.assertEqual(line.rpartition(" ")[::2], (f"main;{name}", "12"))
                self.assertEqual(line.count(";"), 1)

    def test_modules_are_left_out(self) -> None:
        lines = named_lines({(Name("b", "x"),): 2, (Name("b", "y"),): 3, (Name("a"), Name("b")): 1})
        self.assertEqual(lines, ["a;b 1", "b 5"])


if __name__ == "__main__":
    unittest.main()
