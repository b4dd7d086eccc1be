"""Tests of claims.py: what is known at instructions of functions whose shape is known, and where rows say otherwise."""
import itertools
import pathlib
import re
import subprocess
import sys
import tempfile
import unittest

from claims import Share, share_of
from code_file import CodeFile
from code_flow import CodeFlow
from fact_rows import fault
from known_frame import AT_ENTRY, CALLEE_SAVED, RED_ZONE, Frame, after, effect_of, in_call, meet
from machine_code import Way, split

COMPILERS = ("gcc", "clang")
LEVELS = ("-O0", "-O1", "-O2", "-O3")
POINTERS = ("-fomit-frame-pointer", "-fno-omit-frame-pointer")

# A library, and a program at a fixed address, whose jump tables hold whole addresses.
LIBRARY = ("-shared", "-fPIC")
PROGRAM_FILE = ("-no-pie", "-fno-pie", "-static", "-Wl,--unresolved-symbols=ignore-all", "-Wl,-e,0")

PROGRAM = """
    extern void *given(long, long, long, long, long, long, long, long, long);
    extern long asked(long), counted(void);
    extern void __attribute__((noreturn)) abort(void);
    long leaf(long a) { return 3 * a + 1; }
    static void __attribute__((noinline, cold)) refuse(long a) { if (asked(a)) asked(a + 1); abort(); }
    long saving(long a, long b, long c) {
        long d = asked(a), e = asked(b), f = asked(c);
        if (d == e) refuse(f);
        return d * e + f * asked(d + e + f) + a * b * c;
    }
    void *pushing(long a) { return given(a, 2, 3, 4, 5, 6, 7, a + 8, 9); }
    long room(long n) { char text[n]; given((long)text, 0, 0, 0, 0, 0, 0, 0, 0); return text[n / 2] + asked(n); }
    long tail(long a) { return asked(a + 1); }
    long early(long a) { if (a < 0) return -1; long b = asked(a); return a + b * asked(b); }
    long choose(long a, long b) {
        switch (a) {
            case 0: return asked(b); case 1: return b + asked(2); case 2: return leaf(asked(b)) + b;
            case 3: asked(1); return asked(7) + b; case 4: return asked(b + 1) * b; case 5: return counted() - b;
            case 6: asked(b); asked(b + 2); return b; case 7: return counted() * counted() + b; default: return 0;
        }
    }
    long loop(long *p, long n) { long s = 0; for (long i = 0; i < n; i++) s += asked(p[i]) ^ s; return s; }
"""

WITH_EXCEPTIONS = """
    struct Held { long a; Held(long); ~Held(); };
    long asked(long);
    long cleaned(long a) { Held held(a); return asked(a) + held.a; }
    long caught(long a) {
        try { Held held(a), other(a + 1); return asked(a) * held.a + other.a; }
        catch (int thrown) { return asked(thrown); }
        catch (...) { Held held(a); return asked(a) + 1; }
    }
"""

# Functions by hand, each with what is known at each of its instructions.
BY_HAND = """
    .globl framed
    .type framed, @function
    framed: .cfi_startproc
        push %rbp                   # cfa rsp+8 saved - kept rbx rbp r12 r13 r14 r15
        .cfi_def_cfa_offset 16
        .cfi_offset 6, -16
        mov %rsp, %rbp              # cfa rsp+16 saved rbp@16 kept rbx rbp r12 r13 r14 r15
        .cfi_def_cfa_register 6
        push %rbx                   # cfa rsp+16 rbp+16 saved rbp@16 kept rbx r12 r13 r14 r15
        .cfi_offset 3, -24
        mov %edi, %ebx              # cfa rsp+24 rbp+16 saved rbp@16 rbx@24 kept rbx r12 r13 r14 r15
        and $-32, %rsp              # cfa rsp+24 rbp+16 saved rbp@16 rbx@24 kept r12 r13 r14 r15
        call asked                  # cfa rbp+16 saved rbp@16 rbx@24 kept r12 r13 r14 r15
        mov -8(%rbp), %rbx          # cfa rbp+16 saved rbp@16 rbx@24 kept r12 r13 r14 r15
        leave                       # cfa rbp+16 saved rbp@16 rbx@24 kept rbx r12 r13 r14 r15
        .cfi_def_cfa 7, 8
        ret                         # cfa rsp+8 saved rbp@16 rbx@24 kept rbx rbp r12 r13 r14 r15
        .cfi_endproc
    .globl stores
    stores: .cfi_startproc
        sub $0x18, %rsp             # cfa rsp+8 saved - kept rbx rbp r12 r13 r14 r15
        .cfi_def_cfa_offset 32
        mov %r12, 8(%rsp)           # cfa rsp+32 saved - kept rbx rbp r12 r13 r14 r15
        .cfi_offset 12, -24
        xor %r12d, %r12d            # cfa rsp+32 saved r12@24 kept rbx rbp r12 r13 r14 r15
        test %rdi, %rdi             # cfa rsp+32 saved r12@24 kept rbx rbp r13 r14 r15
        jne far                     # cfa rsp+32 saved r12@24 kept rbx rbp r13 r14 r15
        movl $1, 12(%rsp)           # cfa rsp+32 saved r12@24 kept rbx rbp r13 r14 r15
        ud2                         # cfa rsp+32 saved - kept rbx rbp r13 r14 r15
        .cfi_endproc
    far: .cfi_startproc
        .cfi_def_cfa_offset 32
        .cfi_offset 12, -24
        mov 8(%rsp), %r12           # cfa rsp+32 saved r12@24 kept rbx rbp r13 r14 r15
        .cfi_restore 12
        add $0x18, %rsp             # cfa rsp+32 saved r12@24 kept rbx rbp r12 r13 r14 r15
        .cfi_def_cfa_offset 8
        jmp framed                  # cfa rsp+8 saved r12@24 kept rbx rbp r12 r13 r14 r15
        .cfi_endproc
    .globl pushes
    pushes: .cfi_startproc
        test %rdi, %rdi             # cfa rsp+8 saved - kept rbx rbp r12 r13 r14 r15
        je 1f                       # cfa rsp+8 saved - kept rbx rbp r12 r13 r14 r15
        push $1                     # cfa rsp+8 saved - kept rbx rbp r12 r13 r14 r15
        .cfi_def_cfa_offset 16
    1:  nop                         # cfa unknown saved - kept rbx rbp r12 r13 r14 r15
        call 2f                     # cfa unknown saved - kept rbx rbp r12 r13 r14 r15
        int3                        # unreached
        .cfi_endproc
    2:  .cfi_startproc
        hlt                         # cfa rsp+8 saved - kept rbx rbp r12 r13 r14 r15
        .cfi_endproc
    .globl _start
    _start: .cfi_startproc
        .cfi_undefined 16
        xor %ebp, %ebp              # cfa rsp+8 saved - kept rbx rbp r12 r13 r14 r15 outermost
        call asked                  # cfa rsp+8 saved - kept rbx rbp r12 r13 r14 r15 outermost
        hlt                         # cfa rsp+8 saved - kept rbx rbp r12 r13 r14 r15 outermost
        .cfi_endproc
"""


def flow_of(folder: str, source: str, kind: str, compiler: str, *options: str) -> CodeFlow:
    """The flow of a source that is compiled and linked alone."""
    text, built = pathlib.Path(folder) / f"source.{kind}", pathlib.Path(folder) / "built.so"
    text.write_text(source)
    command = [compiler, "-nostdlib", *options, "-o", str(built), str(text)]
    subprocess.run(command, check=True, capture_output=True)
    return CodeFlow(CodeFile(str(built)))


def after_all(*instructions: str) -> Frame:
    """What is known after some instructions from a function's start on."""
    frame = AT_ENTRY
    for text in instructions:
        effect = effect_of(*split(text))
        frame = frame if effect is None else after(frame, effect)
    return frame


class Instructions(unittest.TestCase):
    def test_what_an_instruction_does(self) -> None:
        every = " ".join(CALLEE_SAVED)
        for text, known in {
            "push rbx": f"cfa rsp+16 saved rbx@16 kept {every}",
            "push QWORD PTR [rdi]": f"cfa rsp+16 saved - kept {every}",
            "sub rsp,0xffffffffffffff80": f"cfa rsp+-120 saved - kept {every}",
            "lea rsp,[rsp-0x108]": f"cfa rsp+272 saved - kept {every}",
            "mov rbp,rsp": f"cfa rsp+8 rbp+8 saved - kept {every.replace('rbp ', '')}",
            "lea rbp,[rsp-0x20]": f"cfa rsp+8 rbp+40 saved - kept {every.replace('rbp ', '')}",
            "mov bl,0x1": f"cfa rsp+8 saved - kept {every.replace('rbx ', '')}",
            "cmp rbx,rbp": f"cfa rsp+8 saved - kept {every}",
            "xchg rax,rbx": f"cfa rsp+8 saved - kept {every.replace('rbx ', '')}",
            "cpuid": f"cfa rsp+8 saved - kept {every.replace('rbx ', '')}",
            "imul rbx": f"cfa rsp+8 saved - kept {every}",
            "sub rsp,rax": f"cfa unknown saved - kept {every}",
            "pop rsp": f"cfa unknown saved - kept {every}",
            "mov QWORD PTR [rsp-0x18],r13": f"cfa rsp+8 saved r13@32 kept {every}",
            "mov QWORD PTR [rsp+0x8],r13": f"cfa rsp+8 saved - kept {every}",
        }.items():
            with self.subTest(text):
                self.assertEqual(str(after_all(text)), known)

    def test_a_slot_is_lost_where_it_is_written_over(self) -> None:
        before = ("push rbx", "sub rsp,0x20")
        self.assertTrue(after_all(*before, "mov DWORD PTR [rsp+0x1c],eax").saved)
        for text in ("mov BYTE PTR [rsp+0x27],al", "movups XMMWORD PTR [rsp+0x18],xmm0", "mov QWORD PTR [rsp+0x1c],rax"):
            with self.subTest(text):
                self.assertFalse(after_all(*before, text).saved)

    def test_below_rsp_a_slot_is_known_in_the_red_zone_up_to_a_call(self) -> None:
        freed = after_all("push rbx", "pop rbx")
        self.assertEqual(freed.saved, {(16, "rbx")})
        self.assertFalse(in_call(freed).saved)
        self.assertFalse(after_all(f"sub rsp,{RED_ZONE:#x}", "push rbx", f"add rsp,{RED_ZONE + 8:#x}").saved)

    def test_where_ways_meet_what_both_know_is_known(self) -> None:
        met = meet(after_all("push rbx", "push rbp"), after_all("push rbx", "mov rbp,rsp"))
        self.assertEqual(str(met), "cfa unknown saved rbx@16 kept rbx r12 r13 r14 r15")


class Functions(unittest.TestCase):
    maxDiff = None

    def test_by_hand(self) -> None:
        expected = re.findall(r"^ .*?\S +# (.*)$", BY_HAND, re.M)
        for compiler in COMPILERS:
            with self.subTest(compiler), tempfile.TemporaryDirectory() as folder:
                flow = flow_of(folder, BY_HAND, "s", compiler, *LIBRARY, "-Wl,-e,_start")
                code = [place for place, one in enumerate(flow.file.code) if not flow.file.is_in_plt(one.address)]
                known = [str(flow.frames[place] or "unreached") for place in code]
                self.assertEqual(known, expected)

    def test_compiled(self) -> None:
        for options in itertools.product(COMPILERS, LEVELS, POINTERS, (LIBRARY, PROGRAM_FILE)):
            compiler, level, pointer, linked = options
            with self.subTest(" ".join([compiler, level, pointer, *linked])), tempfile.TemporaryDirectory() as folder:
                flow = flow_of(folder, PROGRAM, "c", compiler, level, pointer, *linked)
                self.check_shape(flow, pointer == POINTERS[1])
                self.check_share(share_of(flow))

    def test_what_exceptions_reach(self) -> None:
        for compiler, level in itertools.product(("g++", "clang++"), LEVELS):
            with self.subTest(f"{compiler} {level}"), tempfile.TemporaryDirectory() as folder:
                flow = flow_of(folder, WITH_EXCEPTIONS, "cpp", compiler, level, *LIBRARY)
                self.assertTrue(any(description.sites for description in flow.file.descriptions))
                self.check_shape(flow, False)
                self.check_share(share_of(flow))

    def check_shape(self, flow: CodeFlow, has_pointers: bool) -> None:
        """By the psABI RSP is a multiple of 16 at a call, each register of the caller is somewhere, and a `ret` finds all as it
        was at the start. Where there is a frame pointer, it is 16 below the CFA."""
        found = set()
        for one, frame in zip(flow.file.code, flow.frames):
            if frame is None:
                self.assertTrue(one.is_padding or flow.file.is_in_plt(one.address), one)
            elif one.way is Way.RETURN:
                self.assertEqual((frame.depth, frame.kept), (8, set(CALLEE_SAVED)), one)
            elif one.way is Way.CALL:
                found.add(frame.distance("rbp"))
                self.assertEqual((frame.depth or 0) % 16, 0, one)
                self.assertEqual(frame.kept | {register for _distance, register in frame.saved}, set(CALLEE_SAVED), one)
        self.assertTrue(not has_pointers or found == {16}, found)

    def check_share(self, share: Share) -> None:
        """All but padding and the linkage table is in reach."""
        self.assertEqual(share.calls.keys(), {"in reach"})
        self.assertLessEqual(share.addresses.keys(), {"in reach", "padding", "PLT"})
        self.assertEqual(share.places, [])


class Files(unittest.TestCase):
    def test_a_file_that_is_no_elf_file_is_refused(self) -> None:
        command = [sys.executable, "claims.py", __file__]
        ran = subprocess.run(command, cwd=pathlib.Path(__file__).parent, capture_output=True, text=True)
        self.assertEqual((ran.returncode, ran.stdout), (1, ""))
        self.assertRegex(ran.stderr, r"^\S+: it is no ELF file of 64 bits\n$")


class Rows(unittest.TestCase):
    def test_what_a_row_says(self) -> None:
        frame = after_all("push rbp", "mov rbp,rsp", "push rbx", "xor ebx,ebx")
        row = {"cfa": "r6+16", "r3": "c-24", "r6": "c-16", "r16": "c-8", "arguments": "0x0"}
        self.assertEqual(fault(frame, row), "")
        self.assertEqual(fault(frame, row | {"cfa": "r7+24", "r12": "s", "arguments": "0x10"}), "")
        for change, reason in (
            ({"cfa": "r7+16"}, "CFA is another"),
            ({"cfa": "r10+0"}, "CFA by another register"),
            ({"cfa": "exp"}, "CFA by an expression"),
            ({"r3": "s"}, "register isn't kept"),
            ({"r3": "c-16"}, "register isn't in the slot"),
            ({"r3": "r0"}, "rule of another kind"),
            ({"r16": "u"}, "return address"),
            ({"r0": "c-32"}, "rule of another column"),
        ):
            with self.subTest(reason):
                self.assertEqual(fault(frame, row | change), reason)

    def test_a_wrong_row_is_found(self) -> None:
        for old, new, reason in (
            (".cfi_offset 3, -24", ".cfi_offset 3, -32", "register isn't in the slot"),
            (".cfi_offset 12, -24\n        xor", "xor", "register isn't kept"),
            (".cfi_def_cfa 7, 8", ".cfi_def_cfa 7, 16", "CFA is another"),
            (".cfi_def_cfa_register 6", "", "CFA isn't known"),
            (".cfi_undefined 16", "", "return address"),
        ):
            with self.subTest(new or old), tempfile.TemporaryDirectory() as folder:
                self.assertEqual(BY_HAND.count(old), 1)
                flow = flow_of(folder, BY_HAND.replace(old, new), "s", "gcc", *LIBRARY, "-Wl,-e,_start")
                self.assertIn(reason, share_of(flow).addresses)


if __name__ == "__main__":
    unittest.main()
