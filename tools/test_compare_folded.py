"""Tests of compare_folded.py: gdb's text, and what a report of it has to be."""
import unittest

from compare_folded import differences, lines_of, stacks_of
from elf_image import Refused

# Of a program of three threads, two of them in the same calls, by gdb 13.1.
BACKTRACES = """\
[New LWP 31309]
0x00007fd089cb9f16 in ?? () from /lib/x86_64-linux-gnu/libc.so.6

Thread 3 (Thread 0x7fd08942f6c0 (LWP 31311) "depth 2"):
#0  0x000055788539825c in countdown ()
#1  0x0000557885398275 in countdown ()
#2  0x00005578853982bd in run ()

Thread 2 (Thread 0x7fd089c306c0 (LWP 31309) "depth 1"):
#0  0x000055788539825c in countdown ()
#1  0x0000557885398275 in countdown ()
#2  0x00005578853982bd in run ()

Thread 1 (Thread 0x7fd089c31740 (LWP 31308) "ten_threads"):
#0  0x00007fd089cb9f16 in ?? () from /lib/x86_64-linux-gnu/libc.so.6
#1  0x000055788539811f in main ()
[Inferior 1 (process 31308) detached]
"""


class Backtraces(unittest.TestCase):
    def test_stacks(self) -> None:
        twice = (0x5578853982BD, 0x557885398275, 0x55788539825C)
        self.assertEqual(stacks_of(BACKTRACES), [twice, twice, (0x55788539811F, 0x7FD089CB9F16)])

    def test_frame_without_address(self) -> None:
        with self.assertRaisesRegex(Refused, "no address of a frame: #1  main"):
            stacks_of("Thread 1 (LWP 1):\n#0  0x0000000000000010 in f ()\n#1  main () at a.c:3\n")

    def test_lines(self) -> None:
        lines = ["0x10 1", "0x10;0x2 2", "0x10;0x10 1", "refused 0"]
        self.assertEqual(lines_of([(16, 2), (16, 16), (16,), (16, 2)]), lines)
        self.assertEqual(differences(["0x1 1", "refused 1"], ["0x1 1", "refused 0"]), ["only fold: refused 1", "only gdb:  refused 0"])


if __name__ == "__main__":
    unittest.main()
