"""Tests of perf_tables.py, over a small perf.data file and a small ELF file that are put together here."""
import contextlib
import io
import os
import struct
import tempfile
import unittest

from elf_image import Refused
from perf_tables import (
    COMM, MMAP2, SAMPLE, Mapping, Profile, program_mappings, read_profile, records_of,
    release_of, tables_of, vdso_of, with_mapping,
)
from test_elf_image import small_elf

BY_EXEC = 0x2000


def record(kind: int, misc: int, body: bytes) -> bytes:
    return struct.pack("<IHH", kind, misc, 8 + len(body)) + body


def mapping(process: int, start: int, path: str, protection: int = 5) -> bytes:
    """A mapping of 0x1000 bytes, from the file's byte 0x1000 on."""
    head = struct.pack("<IIQQQ24xII", process, process, start, 0x1000, 0x1000, protection, 2)
    return record(MMAP2, 2, head + os.fsencode(path).ljust(64, b"\0"))


def sample(process: int) -> bytes:
    """A sample with IP and TID."""
    return record(SAMPLE, 2, struct.pack("<QII", 0x71010, process, process))


def perf_file(records: list[bytes]) -> bytes:
    """A file of one event, whose samples have IP and TID."""
    attribute = struct.pack("<IIQQQQ", 1, 96, 0, 1, 0x3, 0).ljust(96, b"\0") + bytes(16)
    content = b"".join(records)
    header = struct.pack("<8sQQQQQQ", b"PERFILE2", 104, 112, 104, 112, 216, len(content))
    return header.ljust(104, b"\0") + attribute + content


class PerfTables(unittest.TestCase):
    def profile_of(self, records: list[bytes]) -> Profile:
        return read_profile(perf_file(records))

    def test_samples_are_counted_by_process(self) -> None:
        profile = self.profile_of([sample(7), sample(8), sample(8)])
        self.assertEqual(dict(profile.samples), {7: 1, 8: 2})

    def test_new_program_has_no_mappings_of_the_old_one(self) -> None:
        name = record(COMM, BY_EXEC, struct.pack("<II", 7, 7) + b"new\0\0\0\0\0")
        profile = self.profile_of([mapping(7, 0x1000, "/old"), name, mapping(7, 0x71000, "/new")])
        self.assertEqual([found.path for found in profile.mappings[7]], ["/new"])

    def test_name_alone_keeps_the_mappings(self) -> None:
        name = record(COMM, 0, struct.pack("<II", 7, 9) + b"worker\0\0")
        profile = self.profile_of([mapping(7, 0x71000, "/program"), name])
        self.assertEqual([found.path for found in profile.mappings[7]], ["/program"])

    def test_a_mapping_takes_the_place_of_what_was_there(self) -> None:
        """A loader maps a whole file as code, and then its data over a part of it."""
        file = Mapping(0x1000, 0x3000, 0x2000, 5, "/file")
        self.assertEqual(
            with_mapping([file], Mapping(0x2000, 0x800, 0, 3, "/file")),
            [
                Mapping(0x1000, 0x1000, 0x2000, 5, "/file"),
                Mapping(0x2800, 0x1800, 0x3800, 5, "/file"),
                Mapping(0x2000, 0x800, 0, 3, "/file"),
            ],
        )
        for start in (0x0, 0x4000):
            beside = Mapping(start, 0x1000, 0, 5, "/beside")
            self.assertEqual(with_mapping([file], beside), [file, beside])
        for start, size in ((0x1000, 0x3000), (0x800, 0x4000)):
            over = Mapping(start, size, 0, 5, "/over")
            self.assertEqual(with_mapping([file], over), [over])

    def test_mapped_file_gives_its_tables(self) -> None:
        with tempfile.TemporaryDirectory() as folder:
            path = os.path.join(folder, "program")
            with open(path, "wb") as stream:
                stream.write(small_elf())
            profile = self.profile_of([mapping(7, 0x71000, path)])
            tables = tables_of(profile.mappings[7])
        self.assertEqual(tables["regions"], [{"address": "0x70300", "bytes": b"table".hex()}])
        (module,) = tables["modules"]
        self.assertEqual((module["start"], module["end"]), ("0x71000", "0x72000"))
        self.assertEqual((module["eh_frame"], module["bias"], module["path"]), ("0x70300", "0x70000", path))
        self.assertEqual(tables["limit"], 1024)

    def test_data_and_missing_files_are_passed_over(self) -> None:
        told = io.StringIO()
        with contextlib.redirect_stderr(told):
            mapped = [mapping(7, 0x1000, "/data", 3), mapping(7, 0x2000, "[vdso]"), mapping(7, 0x3000, "/no/file")]
            tables = tables_of(self.profile_of(mapped).mappings[7])
        self.assertEqual((tables["regions"], tables["modules"]), ([], []))
        self.assertEqual(told.getvalue().count("passes over"), 1)

    def test_the_vdso_is_that_of_this_program(self) -> None:
        content = small_elf().ljust(0x1000, b"\0")
        (vdso,) = self.profile_of([mapping(7, 0x71000, "[vdso]")]).mappings[7]
        (module,) = tables_of([vdso], content)["modules"]
        self.assertEqual((module["start"], module["end"], module["path"]), ("0x71000", "0x72000", "[vdso]"))
        for other in (None, content + content):
            self.assertEqual(tables_of([vdso], other)["modules"], [])

    def test_the_vdso_is_taken_for_the_same_release_of_the_kernel(self) -> None:
        def of_release(release: str) -> bytes:
            content = bytearray(perf_file([sample(1)]))
            content[72] = 1 << 2 | 1 << 4 | 1 << 6
            end, text = len(content), os.fsencode(release).ljust(64, b"\0")
            content += struct.pack("<QQQQQQ", end, 0, end + 48, 4 + len(text), end, 0)
            return bytes(content + struct.pack("<I", len(text)) + text)

        release = os.uname().release
        self.assertEqual(release_of(of_release(release)), release)
        taken = vdso_of(of_release(release))
        self.assertEqual(taken[:4] if taken is not None else None, b"\x7fELF")
        self.assertIsNone(vdso_of(of_release(release + "-other")))
        self.assertIsNone(vdso_of(perf_file([sample(1)])))

    def test_what_perf_wrote_to_a_pipe_and_compressed_records_are_named(self) -> None:
        with self.assertRaisesRegex(Refused, "written to a pipe"):
            list(records_of(struct.pack("<8sQ", b"PERFILE2", 16) + sample(7)))
        for kind in (81, 83):
            with self.assertRaisesRegex(Refused, "the record at byte 240 is compressed"):
                list(records_of(perf_file([sample(7), record(kind, 0, b"12345678")])))

    def test_foreign_and_cut_files_are_refused(self) -> None:
        with self.assertRaises(Refused):
            list(records_of(b"2ELIFREP".ljust(104, b"\0")))
        with self.assertRaises(Refused):
            list(records_of(perf_file([struct.pack("<IHH", SAMPLE, 2, 64)])))
        for content in (b"PERFILE2", b"other".ljust(200), perf_file([])):
            with self.assertRaises(Refused):
                program_mappings(content)


if __name__ == "__main__":
    unittest.main()
