"""Tests of snapshot_file.py and join.py: joining, reading and writing."""
import json
import os
import shutil
import tempfile
import unittest

from elf_image import Range, Refused
from join import samples_of, without_names
from snapshot_file import (
    Object, Region, joined_regions, read_snapshot, regions_of, text_of, without_overlaps, write_folder, write_whole,
)

MODULE = {"kind": "elf", "start": "0x1000", "end": "0x2000", "eh_frame": "0x3000", "path": "/bin/a", "bias": "0x0"}
TABLES = {"regions": [{"address": "0x3000", "bytes": "00112233"}], "modules": [MODULE], "limit": 5000}


def thread(number: int, address: str, content: str) -> Object:
    """A thread's file."""
    return {
        "tables": "tables.json", "thread": {"id": number, "name": f"worker {number}"},
        "regions": [{"address": address, "bytes": content}],
        "start": {"rip": "0x1010", "rsp": address}, "interrupted": True,
    }


class Regions(unittest.TestCase):
    def test_places_are_joined_where_they_share_an_address(self) -> None:
        places = [Range(8, 12), Range(0, 4), Range(4, 6), Range(10, 11), Range(11, 14)]
        self.assertEqual(without_overlaps(places), [Range(0, 4), Range(4, 6), Range(8, 14)])

    def test_regions_are_joined_where_they_share_an_address(self) -> None:
        regions = [Region(4, b"efgh"), Region(0, b"abcde"), Region(5, b"f"), Region(8, b"ij")]
        self.assertEqual(joined_regions(regions), [Region(0, b"abcdefgh"), Region(8, b"ij")])


class Texts(unittest.TestCase):
    def test_a_text_is_as_json_writes_it(self) -> None:
        found = thread(7, "0x8000", "aabb") | {"name": '"regions": []'}
        for part in (TABLES, found, found | {"regions": []}, found | {"regions": found["regions"] * 3}):
            self.assertEqual(text_of(part), json.dumps(part, indent=1) + "\n")


class Threads(unittest.TestCase):
    def setUp(self) -> None:
        self.folder = tempfile.mkdtemp()
        self.addCleanup(shutil.rmtree, self.folder)
        parts = {"tables.json": TABLES, "thread-7.json": thread(7, "0x8000", "aabb"),
                 "thread-8.json": thread(8, "0x8001", "bbcc")}
        for name, part in parts.items():
            with open(os.path.join(self.folder, name), "w", encoding="ascii") as stream:
                json.dump(part, stream)

    def path(self, name: str) -> str:
        """The path of a file."""
        return os.path.join(self.folder, name)

    def test_a_thread_and_its_tables_are_a_snapshot(self) -> None:
        found = read_snapshot(self.path("thread-7.json"))
        self.assertEqual(regions_of(found), [Region(0x3000, bytes.fromhex("00112233")), Region(0x8000, b"\xaa\xbb")])
        self.assertEqual((found["modules"], found["limit"], found["interrupted"]), ([MODULE], 5000, True))
        self.assertEqual(found["start"], {"rip": "0x1010", "rsp": "0x8000"})

    def test_threads_are_samples_over_one_memory(self) -> None:
        found = samples_of([self.path("thread-7.json"), self.path("thread-8.json")])
        self.assertEqual(regions_of(found)[1:], [Region(0x8000, b"\xaa\xbb\xcc")])
        self.assertEqual([sample["start"]["rsp"] for sample in found["samples"]], ["0x8000", "0x8001"])
        self.assertEqual(found["limit"], 1024)
        self.assertNotIn("start", found)

    def test_names_are_left_out(self) -> None:
        code = [{"start": "0x9000", "end": "0xa000", "path": "/bin/b", "bias": "0x0"}]
        found = without_names(read_snapshot(self.path("thread-8.json")) | {"code": code})
        self.assertEqual(set(found["modules"][0]), {"kind", "start", "end", "eh_frame"})
        self.assertEqual(set(found), {"regions", "modules", "start", "limit", "interrupted", "code"})
        self.assertEqual(found["code"], [{"start": "0x9000", "end": "0xa000"}])

    def test_a_snapshot_is_no_sample(self) -> None:
        with self.assertRaises(Refused):
            samples_of([self.path("tables.json")])


class Writing(unittest.TestCase):
    def test_a_file_and_a_folder_are_whole_and_private(self) -> None:
        with tempfile.TemporaryDirectory() as folder:
            write_whole(f"{folder}/a.json", "{}\n")
            write_whole(f"{folder}/a.json", "[]\n")
            write_folder(f"{folder}/threads", {"tables.json": "{}\n"})
            self.assertEqual(sorted(os.listdir(folder)), ["a.json", "threads"])
            self.assertEqual(os.listdir(f"{folder}/threads"), ["tables.json"])
            self.assertEqual(os.stat(f"{folder}/a.json").st_mode & 0o777, 0o600)
            with open(f"{folder}/a.json", encoding="ascii") as stream:
                self.assertEqual(stream.read(), "[]\n")

    def test_a_long_text_is_refused_where_no_more_is_taken(self) -> None:
        found = {"regions": [], "limit": 2}
        self.assertIn('"limit": 2', text_of(found, most=None))
        with self.assertRaises(Refused):
            text_of(found, most=8)

    def test_what_is_there_is_left(self) -> None:
        with tempfile.TemporaryDirectory() as folder:
            write_whole(f"{folder}/a.json", "{}\n")
            tries = [lambda: write_whole(folder, ""), lambda: write_whole(f"{folder}/none/a.json", ""),
                     lambda: write_folder(folder, {}), lambda: write_folder(f"{folder}/a.json", {})]
            for attempt in tries:
                with self.assertRaises(Refused):
                    attempt()
            self.assertEqual(os.listdir(folder), ["a.json"])


if __name__ == "__main__":
    unittest.main()
