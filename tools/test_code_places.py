"""What of functions is prologue, body and epilogue."""
from __future__ import annotations

import unittest

from code_places import code_places


def listing(*instructions: str) -> str:
    """What gdb prints of instructions that take a byte each."""
    lines = [f"   0x{0x401000 + place:016x} <+{place}>:\t{text}" for place, text in enumerate(instructions)]
    return "\n".join(["Dump of assembler code for function f:", *lines, "End of assembler dump."])


def places(*instructions: str) -> list[str]:
    """The places of the instructions."""
    return list(code_places(listing(*instructions)).values())


class CodePlacesTest(unittest.TestCase):
    """Each place is that of the state before the instruction."""

    def test_frame_pointer(self) -> None:
        """A step counts once it has run, and `leave` undoes all."""
        found = places("endbr64", "push   %rbp", "mov    %rsp,%rbp", "mov    %rbx,-0x8(%rbp)", "nop", "leave", "ret")
        self.assertEqual(found, ["prologue"] * 4 + ["body", "body", "epilogue"])

    def test_two_ends(self) -> None:
        """Each end has its epilogue, and what a jump leads to after it is body again."""
        found = places("push   %rbx", "sub    $0x10,%rsp", "je     0x401006", "add    $0x10,%rsp", "pop    %rbx",
                       "ret", "call   0x402000", "add    $0x10,%rsp", "pop    %rbx", "jmp    0x402000")
        self.assertEqual(found, ["prologue"] * 2 + ["body"] * 2 + ["epilogue"] * 2 + ["body"] * 2 + ["epilogue"] * 2)

    def test_no_step(self) -> None:
        """A function without steps is body."""
        self.assertEqual(places("lea    (%rdi,%rsi,1),%rax", "ret"), ["body", "body"])

    def test_jump_before_a_step(self) -> None:
        """Where a path jumps over the steps, nothing is said."""
        found = places("test   %rdi,%rdi", "je     0x401005", "push   %rbx", "pop    %rbx", "ret", "ret")
        self.assertEqual(found, ["other"] * 6)

    def test_windows(self) -> None:
        """In a PE image more registers are kept, RBP may be set above the stack pointer, and of jumps in bodies nothing is said."""
        text = ["push   %rbp", "sub    $0x40,%rsp", "lea    0x20(%rsp),%rbp", "movups %xmm6,0x20(%rsp)", "movups %xmm1,(%rsp)",
                "jmp    0x401006", "movups 0x20(%rsp),%xmm6", "add    $0x40,%rsp", "pop    %rbp", "rex.W jmp *%rax"]
        found = list(code_places(listing(*text), of_windows=True).values())
        self.assertEqual(found, ["prologue"] * 4 + ["body", "other", "body", "body", "epilogue", "epilogue"])


if __name__ == "__main__":
    unittest.main()
