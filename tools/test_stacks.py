"""Tests of stacks.py: which memory is taken of stacks as they were met in programs."""
import unittest

from elf_image import Range, Refused
from stacks import StackFrame, stack_front, stack_ranges

STACK = Range(0x7FF000, 0x800000)
OTHER = Range(0x500000, 0x510000)
MAPPED = [Range(0x400000, 0x401000), OTHER, STACK]


class Stacks(unittest.TestCase):
    def test_ranges(self) -> None:
        signal = StackFrame(0x500800, is_signal=True)
        cases = {
            "from the red zone to the known end": ([0x7FF100, 0x7FF200], 0x7FF300, [(0x7FF080, 0x7FF300)]),
            "to the mapping's end without a known one": ([0x7FF100, 0x7FF200], None, [(0x7FF080, 0x800000)]),
            "not below the mapping": ([0x7FF010], 0x7FF300, [(0x7FF000, 0x7FF300)]),
            "a stack that has overflowed": ([0x7FEF00, 0x7FF010], None, [(0x7FF000, 0x800000)]),
            "a handler on another stack": (
                [StackFrame(0x500700), signal, StackFrame(0x7FF100)], 0x7FF300,
                [(0x500680, 0x500A00), (0x7FF080, 0x7FF300)],
            ),
            "a call on another stack": (
                [0x500700, 0x7FF800], None, [(0x500680, 0x510000), (0x7FF000, 0x800000)],
            ),
            "a caller that stands nowhere": ([0x7FF100, 0x10], 0x20, [(0x7FF080, 0x800000)]),
            "an end that lies elsewhere": ([0x7FF100], 0x500700, [(0x7FF080, 0x800000)]),
        }
        for name, (frames, end, expected) in cases.items():
            with self.subTest(name):
                placed = [frame if isinstance(frame, StackFrame) else StackFrame(frame) for frame in frames]
                self.assertEqual(stack_ranges(placed, end, MAPPED), [Range(*place) for place in expected])

    def test_a_handler_on_an_array_of_the_same_stack(self) -> None:
        frames = [StackFrame(0x7FF900), StackFrame(0x7FFA00, is_signal=True), StackFrame(0x7FF400)]
        self.assertEqual(stack_ranges(frames, 0x7FFF00, MAPPED), [Range(0x7FF380, 0x7FFF00)])

    def test_no_stack_above(self) -> None:
        with self.assertRaises(Refused):
            stack_ranges([StackFrame(0x900000)], None, MAPPED)

    def test_a_front(self) -> None:
        cases = [((0x7FF100, 0x200), (0x7FF080, 0x7FF300)), ((0x7FFFF8, 0x200), (0x7FFF78, 0x800000)),
                 ((0x7FEF00, 0x200), (0x7FF000, 0x7FF200))]
        for (pointer, size), expected in cases:
            with self.subTest(hex(pointer)):
                self.assertEqual(stack_front(pointer, size, MAPPED), Range(*expected))


if __name__ == "__main__":
    unittest.main()
