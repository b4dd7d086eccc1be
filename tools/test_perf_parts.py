"""Tests of perf_parts.py: the samples of each program of a perf.data file, in files of a size."""
from __future__ import annotations

import os
import struct
import unittest

from perf_parts import FORK, parts_of
from perf_tables import COMM, MMAP2, SAMPLE, records_of
from test_perf_tables import BY_EXEC, mapping, perf_file, record, sample

START = 0x10000


def executed(process: int, name: str) -> bytes:
    """A process begins a program."""
    return record(COMM, BY_EXEC, struct.pack("<II16s", process, process, os.fsencode(name)))


def forked(process: int, parent: int, thread: int | None = None) -> bytes:
    """A process or a thread of one begins."""
    number = process if thread is None else thread
    return record(FORK, 0, struct.pack("<IIIIQ", process, parent, number, parent, 0))


def sampled(content: bytes) -> list[int]:
    """The processes of the samples of a file, in their order."""
    return [struct.unpack_from("<I", body, 8)[0] for kind, _misc, body in records_of(content) if kind == SAMPLE]


class Parts(unittest.TestCase):
    def test_programs(self) -> None:
        """A shell, which forks itself, and a command that it begins."""
        content = perf_file([
            executed(1, "sh"), mapping(1, START, "/bin/sh"), sample(1),
            forked(2, 1), sample(2), forked(1, 1, thread=4), forked(3, 1), executed(3, "ls"), mapping(3, START, "/bin/ls"),
            sample(3), sample(3), sample(1), sample(2), sample(3), sample(3),
        ])
        shell, command = sorted(parts_of(content), key=lambda part: part.mappings[0].path, reverse=True)
        self.assertEqual([[found.path for found in part.mappings] for part in (shell, command)], [["/bin/sh"], ["/bin/ls"]])
        self.assertEqual([sampled(file) for file in shell.files], [[1, 2, 1, 2]])
        self.assertEqual([sampled(file) for file in command.files], [[3, 3, 3, 3]])
        for part in (shell, command):
            self.assertEqual(part.samples, 4)
            kinds = [kind for kind, _misc, _body in records_of(part.files[0]) if kind != SAMPLE]
            self.assertEqual(kinds, [kind for kind, _misc, _body in records_of(content) if kind != SAMPLE])

    def test_the_most_samples_first(self) -> None:
        content = perf_file([sample(1), sample(2), sample(2), sample(3), sample(3), sample(3)])
        self.assertEqual([part.samples for part in parts_of(content)], [3, 2, 1])

    def test_a_size(self) -> None:
        records = [executed(1, "sh"), *(sample(1) for _ in range(10))]
        content = perf_file(records)
        (whole,) = parts_of(content)
        self.assertEqual([len(sampled(file)) for file in whole.files], [10])
        (part,) = parts_of(content, len(content) - 1)
        self.assertEqual([len(sampled(file)) for file in part.files], [9, 1])
        (least,) = parts_of(content, 1)
        self.assertEqual([len(sampled(file)) for file in least.files], [1] * 10)

    def test_what_was_mapped_before_is_gone(self) -> None:
        content = perf_file([
            mapping(1, START, "/a"), mapping(1, START + 0x1000, "/b"), mapping(1, START + 0x1800, "/c"),
            mapping(1, START, "/d"), sample(1),
        ])
        (part,) = parts_of(content)
        self.assertEqual(
            [(found.path, found.start, found.size, found.offset) for found in part.mappings],
            [("/b", START + 0x1000, 0x800, 0x1000), ("/c", START + 0x1800, 0x1000, 0x1000), ("/d", START, 0x1000, 0x1000)],
        )

    def test_code_in_the_place_of_another_files(self) -> None:
        """A plugin that is let go, and another one where it was; data, and code of the same file, begin no part."""
        content = perf_file([
            mapping(1, START, "/sh"), mapping(1, START + 0x4000, "/a"), sample(1), mapping(1, START + 0x4000, "/b"), sample(1),
            mapping(1, START + 0x4000, "/b"), mapping(1, START, "/data", protection=1), mapping(1, START, "//anon"), sample(1),
        ])
        after, before = parts_of(content)
        self.assertEqual([[found.path for found in part.mappings] for part in (before, after)], [["/sh", "/a"], ["/b", "//anon"]])
        self.assertEqual([part.samples for part in (before, after)], [1, 2])

    def test_the_order_of_times(self) -> None:
        """A sample that stands before the start of its program, as from another processor."""
        def timed(content: bytes, time: int, at: int) -> bytes:
            body = content[8:at] + struct.pack("<Q", time) + content[at:]
            return record(*struct.unpack_from("<IH", content), body)

        start, place = executed(1, "sh"), mapping(1, START, "/bin/sh")
        records = [timed(sample(1), 7, 24), timed(start, 5, len(start)), timed(place, 6, len(place)), record(68, 0, b"")]
        content = bytearray(perf_file(records))
        struct.pack_into("<QQQ", content, 104 + 24, 0x7, 0, 1 << 18)
        (part,) = parts_of(bytes(content))
        self.assertEqual([found.path for found in part.mappings], ["/bin/sh"])
        self.assertEqual([kind for kind, _misc, _body in records_of(part.files[0])], [68, COMM, MMAP2, SAMPLE])
        struct.pack_into("<QQQ", content, 104 + 24, 0x7, 0, 0)
        self.assertEqual(parts_of(bytes(content))[0].mappings, [])

    def test_a_part_has_no_features(self) -> None:
        content = bytearray(perf_file([sample(1)]))
        content[72] = 0xFF
        content += b"features"
        (part,) = parts_of(bytes(content))
        self.assertEqual(part.files, [perf_file([sample(1)])])


if __name__ == "__main__":
    unittest.main()
