"""Tests of snapshot_backtrace.py: what is said of snapshots that the program refuses, and threads of samples."""
from __future__ import annotations

import json
import os
import subprocess
import sys
import tempfile
import unittest
from pathlib import Path

from snapshot_backtrace import said_of, threads_of

TOOLS = Path(__file__).resolve().parent
STORED = TOOLS.parent / "crates" / "backtrace" / "stdin"
SAMPLES = TOOLS.parent / "examples" / "pushed_rbx_samples.json"


class Said(unittest.TestCase):
    def stored(self) -> dict:
        """The snapshot of the crate `backtrace`."""
        return json.loads(STORED.read_text())

    def test_a_faulty_field_has_its_place(self) -> None:
        found = self.stored()
        found["modules"][0]["end"] = "0y12"
        lines = said_of(7, "bad snapshot: modules\n", found)
        self.assertEqual(lines[0], "bad snapshot: modules")
        self.assertEqual(len(lines), 2)
        self.assertTrue(lines[1].startswith('modules.0.end: "0y12" isn\'t as '), lines[1])

    def test_each_status_has_a_line(self) -> None:
        found = self.stored()
        self.assertEqual(said_of(9, "", found), ["out of memory"])
        self.assertEqual(said_of(4, "#0", found), ["its report can't be written"])
        self.assertEqual(said_of(6, "not json\n", found), ["not json"])
        self.assertEqual(said_of(-11, "", found), ["it was ended by the signal 11"])
        self.assertEqual(said_of(77, "", found), ["it ended with status 77"])

    def test_threads_of_samples(self) -> None:
        threads = list(threads_of(json.loads(SAMPLES.read_text())))
        self.assertEqual([thread.head for thread in threads], ["Thread 0:", "Thread 1:", "Thread 2:"])
        self.assertEqual([thread.snapshot.get("interrupted", False) for thread in threads], [False, True, False])
        self.assertNotIn("samples", threads[0].snapshot)
        self.assertEqual([thread.head for thread in threads_of(self.stored())], [None])


class Command(unittest.TestCase):
    def said(self, text: str, program: str, *words: str) -> tuple[int, str, str]:
        """What a run says of a text, with a shell's script in place of the built program."""
        with tempfile.TemporaryDirectory() as folder:
            file, built = Path(folder) / "s.json", Path(folder) / "backtrace"
            file.write_text(text)
            built.write_text(f"#!/bin/sh\n{program}\n")
            built.chmod(0o755)
            command = [sys.executable, str(TOOLS / "snapshot_backtrace.py"), str(file), *words, "--backtrace", str(built)]
            done = subprocess.run(command, capture_output=True, text=True, check=False, cwd=os.sep)
            return done.returncode, done.stdout, done.stderr.replace(f"backtrace: {file}: ", "")

    def test_frames(self) -> None:
        status, printed, _ = self.said(STORED.read_text(), "echo '#0  0x0000000000000010'; echo 'end: no module holds 0x0000000000000010'")
        self.assertEqual((status, printed), (0, "#0 0x10 in ??\nend: no module holds 0x0000000000000010\n"))

    def test_a_cut_text_has_line_and_column(self) -> None:
        status, printed, said = self.said('{"regions": [],\n "modules" []}', "exit 6")
        self.assertEqual((status, printed), (1, ""))
        self.assertIn("Expecting ':' delimiter: line 2 column 12", said)

    def test_a_misspelt_member(self) -> None:
        text = STORED.read_text().replace('"interrupted"', '"interupted"')
        self.assertEqual(self.said(text, "echo '#0  0x0000000000000010'")[0], 0)
        status, printed, said = self.said(text, "exit 0", "--strict")
        self.assertEqual((status, printed), (1, ""))
        self.assertIn('no member "interupted" is known; the nearest is interrupted', said)

    def test_no_program_and_no_words(self) -> None:
        self.assertEqual(self.said(STORED.read_text(), "exit 9"), (1, "", "out of memory\n"))
        done = subprocess.run([sys.executable, str(TOOLS / "snapshot_backtrace.py")], capture_output=True, text=True, check=False)
        self.assertEqual(done.returncode, 2)


if __name__ == "__main__":
    unittest.main()
