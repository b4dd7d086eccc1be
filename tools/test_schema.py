"""Tests of docs/snapshot.schema.json: it takes the shipped snapshots, and refuses what the format refuses."""
import copy
import os
import unittest

from check_schema import REPOSITORY, SCHEMA, faults_of, nearest, shipped_files
from snapshot_file import read_object


try:
    from jsonschema import Draft7Validator
except ImportError:
    Draft7Validator = None

SAMPLES = os.path.join(REPOSITORY, "examples", "pushed_rbx_samples.json")


class Schema(unittest.TestCase):
    def test_the_shipped_snapshots(self) -> None:
        files = shipped_files()
        self.assertGreater(len(files), 12)
        for file in files:
            with self.subTest(file):
                self.assertEqual(faults_of(read_object(file)), [])

    def test_what_is_refused(self) -> None:
        whole = read_object(shipped_files()[-1])
        cases = {
            "no limit": lambda found: found.pop("limit"),
            "limit 0": lambda found: found.update(limit=0),
            "no rip": lambda found: found["start"].pop("rip"),
            "a word without 0x": lambda found: found["start"].update(rip="10"),
            "a word of 17 digits": lambda found: found.update(exception="0x" + "1" * 17),
            "half a byte": lambda found: found["regions"][0].update(bytes="abc"),
            "no region's bytes": lambda found: found["regions"][0].update(bytes=""),
            "another kind": lambda found: found["modules"][0].update(kind="macho"),
            "both tables": lambda found: found["modules"][0].update(eh_frame_hdr="0x1"),
            "no table": lambda found: found["modules"][0].pop("eh_frame"),
            "half an entry": lambda found: found.update(resumes=[["0x1"]]),
            "null": lambda found: found.update(interrupted=None),
        }
        for name, change in cases.items():
            with self.subTest(name):
                found = copy.deepcopy(whole)
                change(found)
                self.assertNotEqual(faults_of(found), [])

    def test_members_that_no_schema_names(self) -> None:
        whole = read_object(shipped_files()[-1])
        cases = {
            "interupted": (lambda found: found.update(interupted=True), "snapshot", "interrupted"),
            "region": (lambda found: found.update(region=[]), "snapshot", "regions"),
            "rpi": (lambda found: found["start"].update(rpi="0x1"), "start", "rip"),
            "ehframe": (lambda found: found["modules"][0].update(ehframe="0x1"), "modules.0", "eh_frame"),
            "adress": (lambda found: found["regions"][0].update(adress="0x1"), "regions.0", "address"),
        }
        for name, (change, place, known) in cases.items():
            with self.subTest(name):
                found = copy.deepcopy(whole)
                change(found)
                self.assertEqual(faults_of(found), [f'{place}: no member "{name}" is known; the nearest is {known}'])
        self.assertEqual(nearest("x", []), "")

    def test_samples(self) -> None:
        """By docs/FORMATS.md, which has their members."""
        whole = read_object(SAMPLES)
        self.assertEqual(faults_of(whole), [])
        cases = {
            'samples.1: no member "interupted" is known; the nearest is interrupted': lambda found: found["samples"][1].update(interupted=True),
            "samples.2: start is missing": lambda found: found["samples"][2].pop("start"),
            "samples.0.start: rip is missing": lambda found: found["samples"][0]["start"].pop("rip"),
            'snapshot: no member "start" is known; the nearest is samples': lambda found: found.update(start={}),
            "limit: it is 1025, more than 1024": lambda found: found.update(limit=1025),
            "snapshot: regions is missing": lambda found: found.pop("regions"),
            'samples: "x" is no array': lambda found: found.update(samples="x"),
        }
        for fault, change in cases.items():
            with self.subTest(fault):
                found = copy.deepcopy(whole)
                change(found)
                self.assertEqual(faults_of(found), [fault])

    def test_what_is_wrong_in_a_module(self) -> None:
        found = read_object(shipped_files()[-1])
        module = found["modules"][0]
        module.update(kind="ELF", end=12)
        self.assertEqual(faults_of(found), ['modules.0.kind: "ELF" is none of elf, macho, pe', "modules.0.end: 12 is no string"])
        found["limit"] = 100.0
        self.assertIn("limit: 100.0 is no integer", faults_of(found))

    @unittest.skipUnless(Draft7Validator, "wants jsonschema")
    def test_another_reader_of_schemas_takes_and_refuses_the_same(self) -> None:
        other = Draft7Validator(read_object(SCHEMA))
        Draft7Validator.check_schema(read_object(SCHEMA))
        whole = read_object(shipped_files()[-1])
        for words in ({}, {"limit": 0}, {"limit": True}, {"start": {"rip": "0x1"}}, {"class": "0xg"}, {"resumes": [["0x1"]]},
                      {"modules": [{"kind": "pe", "base": "0x0"}]}, {"modules": [{"kind": "elf", "start": "0x1", "end": "0x2"}]},
                      {"thread": {"id": -1}}, {"code": [{"start": "0x1", "end": "0x2", "program": True}]}, {"code": [{}]}):
            with self.subTest(words):
                self.assertEqual(faults_of(whole | words) == [], other.is_valid(whole | words))

    def test_a_header_and_names_are_taken(self) -> None:
        found = read_object(shipped_files()[-1])
        module = found["modules"][0]
        module["eh_frame_hdr"] = module.pop("eh_frame")
        module.update(path="/bin/a", bias="0x0", build_id="00ff")
        self.assertEqual(faults_of(found), [])


if __name__ == "__main__":
    unittest.main()
