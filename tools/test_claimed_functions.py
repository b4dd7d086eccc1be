"""Tests of claimed_functions.py: the steps and bodies of functions of known shape, and what compilers' rows say at them."""
import itertools
import json
import pathlib
import re
import subprocess
import sys
import tempfile
import unittest

from claimed_functions import Function, function_object, functions_in
from code_file import Description
from code_flow import CodeFlow
from known_frame import CALLEE_SAVED
from machine_code import Way
from tables import COLUMNS, Row
from test_claims import COMPILERS, LEVELS, LIBRARY, POINTERS, PROGRAM, PROGRAM_FILE, WITH_EXCEPTIONS, flow_of

# Functions by hand. At the end of an instruction that is a step stands which, and `body` where all have ended and none is undone.
BY_HAND = """
    .globl framed
    framed: .cfi_startproc
        push %rbp                   # push rbp
        mov %rsp, %rbp              # set 0x0
        push %rbx                   # push rbx
        mov %edi, %ebx              # body
        and $-32, %rsp              # body
        sub $0x40, %rsp             # body
        call asked                  # body
        mov -8(%rbp), %rbx          # body
        leave                       # body
        ret
        .cfi_endproc
    .globl stores
    stores: .cfi_startproc
        sub $0x18, %rsp             # allocate 0x18
        mov %r12, 8(%rsp)           # store r12 at 0x8
        xor %r12d, %r12d            # body
        call asked                  # body
        test %rdi, %rdi             # body
        jne far                     # body
        mov 8(%rsp), %r12           # body
        add $0x18, %rsp             # body
        ret
        .cfi_endproc
    far: .cfi_startproc
        mov 8(%rsp), %r12
        add $0x18, %rsp
        ret
        .cfi_endproc
    .globl early
    early: .cfi_startproc
        test %rdi, %rdi
        je 1f
        push %r13                   # push r13
        mov %rdi, %r13
        push %rax                   # allocate 0x8
        call asked                  # body
        pop %rax                    # body
        pop %r13
        ret
    1:  ret
        .cfi_endproc
    .globl passes
    passes: .cfi_startproc
        push %rbx                   # push rbx
        mov %edi, %ebx              # body
        call asked                  # body
        push $1                     # body
        push $2
        call given
        add $0x10, %rsp
        mov %ebx, %edi              # body
        call asked                  # body
        pop %rbx                    # body
        ret
        .cfi_endproc
    .globl leaf
    leaf: .cfi_startproc
        lea (%rdi,%rdi,2), %rax     # body
        ret                         # body
        .cfi_endproc
    .globl _start
    _start: .cfi_startproc
        .cfi_undefined 16
        xor %ebp, %ebp              # body
        call asked                  # body
        hlt                         # body
        .cfi_endproc
"""


def said_by_hand() -> list[list[str]]:
    """What stands at the instructions of each function by hand that isn't a part."""
    found = []
    for text in re.split(r"\.cfi_startproc\n", BY_HAND)[1:]:
        lines = [line for line in text.splitlines() if re.match(r"    (1:|  )  \w", line)]
        found.append([line.partition("# ")[2] for line in lines])
    return [said for said in found if any(said)]


def step_text(step: dict[str, str]) -> str:
    """A step in words."""
    return " ".join(f"{name} {number}" for name, number in step.items() if name != "end")


def said_of(flow: CodeFlow, function: Function) -> list[str]:
    """What is said at the instructions of a function."""
    said, start = function_object(function), function.covers.start
    steps = {int(step["end"], 16): step_text(step) for step in said["steps"]}
    bodies = [(int(low, 16), int(high, 16)) for low, high in said["body"]]
    first, last = flow.file.bounds[flow.file.starts.index(start)]
    return [
        steps.get(one.end - start) or ("body" if any(low <= one.address < high for low, high in bodies) else "")
        for one in flow.file.code[first:last]
    ]


def row_after(steps: list[dict[str, str]]) -> Row:
    """The row that a table has after steps: the CFA, and where registers are saved (psABI, section 3.2.2)."""
    depth, frame, row = 8, None, {f"r{COLUMNS['ra']}": "c-8"}
    for step in steps:
        depth += 8 if "push" in step else int(step.get("allocate", "0"), 16)
        frame = depth if "set" in step else frame
        name = step.get("push") or step.get("store")
        if name:
            row[f"r{COLUMNS[name]}"] = f"c-{depth - int(step.get('at', '0'), 16)}"
    return row | {"cfa": f"r7+{depth}" if frame is None else f"r6+{frame}"}


def row_at(description: Description, address: int) -> Row:
    """The row at an address, without registers that are unchanged."""
    row = description.row(address) or {}
    return {name: rule for name, rule in row.items() if name != "arguments" and rule != "s"}


class Shapes(unittest.TestCase):
    maxDiff = None

    def test_by_hand(self) -> None:
        for compiler in COMPILERS:
            with self.subTest(compiler), tempfile.TemporaryDirectory() as folder:
                flow = flow_of(folder, BY_HAND, "s", compiler, *LIBRARY, "-Wl,-e,_start")
                found = list(functions_in(flow))
                self.assertEqual([said_of(flow, function) for function in found], said_by_hand())
                self.assertEqual([function.outermost for function in found], [False] * 5 + [True])

    def test_compiled(self) -> None:
        for options in itertools.product(COMPILERS, LEVELS, POINTERS, (LIBRARY, PROGRAM_FILE)):
            compiler, level, pointer, linked = options
            with self.subTest(" ".join([compiler, level, pointer, *linked])), tempfile.TemporaryDirectory() as folder:
                flow = flow_of(folder, PROGRAM, "c", compiler, level, pointer, *linked)
                found = list(functions_in(flow))
                self.check_rows(flow, found)
                self.check_calls(flow, found, pointer == POINTERS[1])

    def test_what_calls_ask(self) -> None:
        asked = set()
        for compiler, level in itertools.product(("g++", "clang++"), LEVELS):
            with self.subTest(f"{compiler} {level}"), tempfile.TemporaryDirectory() as folder:
                flow = flow_of(folder, WITH_EXCEPTIONS, "cpp", compiler, level, *LIBRARY)
                found = list(functions_in(flow))
                self.check_rows(flow, found)
                for function in found:
                    sites = function_object(function).get("sites", [])
                    asked |= {site[2] for site in sites}
                    self.assertTrue(all(len(site) == (3 if site[2] == "none" else 4) for site in sites), sites)
        self.assertEqual(asked, {"none", "cleanup", "catch"})

    def check_rows(self, flow: CodeFlow, found: list[Function]) -> None:
        """The rows that the compiler made are those of the steps: throughout the body, and at the end of each step but that a
        register may be recorded later, as it isn't changed yet."""
        self.assertTrue(found)
        for function in found:
            description = flow.file.descriptions[flow.file.starts.index(function.covers.start)]
            steps = function_object(function)["steps"]
            for number, step in enumerate(steps):
                row, due = row_at(description, function.covers.start + int(step["end"], 16)), row_after(steps[: number + 1])
                self.assertEqual(row, {name: rule for name, rule in due.items() if name in row}, (function, step))
            starts = [start for start, _row in description.rows]
            for body in function.bodies:
                for address in {body.start, body.end - 1} | {start for start in starts if body.contains(start)}:
                    self.assertEqual(row_at(description, address), row_after(steps), (function, hex(address)))

    def check_calls(self, flow: CodeFlow, found: list[Function], has_pointers: bool) -> None:
        """Each call of a function stands in its body, or pushed arguments stand below that. With frame pointers a function that
        calls another pushes RBP first, and sets it."""
        for function in found:
            first, last = flow.file.bounds[flow.file.starts.index(function.covers.start)]
            calls = [place for place in range(first, last) if flow.file.code[place].way is Way.CALL]
            kinds = [(step.kind, step.register) for step in function.steps]
            if calls and has_pointers:
                self.assertEqual(kinds[:2], [("push", "rbp"), ("set", "")], function)
            for place in calls:
                frame, one = flow.frames[place], flow.file.code[place]
                depth = 8 + sum(8 if step.kind == "push" else step.number for step in function.steps if step.kind != "store")
                is_in = any(body.contains(one.address) for body in function.bodies)
                self.assertTrue(is_in or frame is None or (frame.depth or 0) > depth, (function, one))


class Files(unittest.TestCase):
    def test_an_object(self) -> None:
        with tempfile.TemporaryDirectory() as folder:
            flow = flow_of(folder, BY_HAND, "s", "gcc", *LIBRARY, "-Wl,-e,_start")
            done = subprocess.run(
                [sys.executable, "claimed_functions.py", f"{folder}/built.so"],
                cwd=pathlib.Path(__file__).parent, capture_output=True, text=True, check=True,
            )
            said = json.loads(done.stdout)
            self.assertEqual(said["functions"], [function_object(function) for function in functions_in(flow)])
            self.assertEqual(list(said), ["regions", "modules", "functions"])
            self.assertEqual(said["functions"][-1]["outermost"], True)

    def test_a_file_that_is_no_elf_file_is_refused(self) -> None:
        command = [sys.executable, "claimed_functions.py", __file__]
        ran = subprocess.run(command, cwd=pathlib.Path(__file__).parent, capture_output=True, text=True, check=False)
        self.assertEqual((ran.returncode, ran.stdout), (1, ""))
        self.assertRegex(ran.stderr, r"^\S+: it is no ELF file of 64 bits\n$")


if __name__ == "__main__":
    unittest.main()
