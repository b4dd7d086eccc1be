"""Tests of command_profile.py: what is recorded, read, named and written, with programs in place of perf and of `profile`."""
from __future__ import annotations

import os
import shutil
import subprocess
import tempfile
import unittest
from pathlib import Path
from unittest import mock

import command_profile
from command_profile import Line, counts_of, line_of, options_of, script_frames, with_offset
from elf_image import Refused
from flame_picture import Name
from flamegraph import Stack
from test_elf_image import small_elf
from test_perf_parts import executed
from test_perf_tables import mapping, perf_file, sample

SCRIPT = Path(__file__).parent / "profile.sh"
START = 0x10000

# In place of perf: a recording that is there already, and the command's own run.
PERF = """#!/bin/sh
while [ "$1" != -o ]; do shift; done
cp "$RECORDING" "$2" || exit 1
while [ "$1" != -- ]; do shift; done
shift
exec "$@"
"""

# In place of `profile`: what it reads is perf.data, and its tables are there.
WALKS = """#!/bin/sh
form=folded
if test "$1" = --script; then form=$1; shift; fi
test -s "$1" || exit 3
test "$(head -c 8)" = PERFILE2 || exit 8
if test $form = --script; then
    printf 'sh 1/1 2.000000003: 1 samples:\\n\\t0x11008 library+0x1004+0x4 (/x/library)\\n\\t0x7 [unknown] ([unknown])\\n\\t0x0 [cut] ([unknown])\\n\\n'
    exit
fi
printf 'sh;[cut];library+0x1008;library+0x1004 2\\nsh;0x7 1\\n'
"""


class Lines(unittest.TestCase):
    def test_a_line(self) -> None:
        biases = {"a.so": 0x1000, "b": 0}
        for text, expected in (
            ("sh;a.so+0x10;b+0x2;0x7 12", Line(("sh",), Stack((0x1010, 0x2, 0x7), 12))),
            ("sh;[cut];b+0x2 1", Line(("sh", "[cut]"), Stack((2,), 1))),
            ("[unknown];[no registers] 3", Line(("[unknown]", "[no registers]"), Stack((), 3))),
            ("sh;[cut];b+0x2;0x7;[popped] 4", Line(("sh", "[cut]"), Stack((2, 7), 4), ("[popped]",))),
        ):
            self.assertEqual(line_of(text, biases), expected)
        for text in ("", "sh", "sh;b+0x2 0"):
            with self.subTest(text), self.assertRaises(Refused):
                line_of(text, biases)

    def test_names(self) -> None:
        """Frames without a module have no name; a process's name, why a stack ends, and what is said of its innermost frame do."""
        lines = [Line(("sh", "[cut]"), Stack((5, 6), 2)), Line(("sh", "[cut]"), Stack((7, 8), 3)), Line(("a 1",), Stack((), 1)),
                 Line(("sh",), Stack((5,), 4), ("[popped]",))]
        counts = counts_of({"regions": [], "modules": []}, lines)
        unknown = Name("[unknown]")
        self.assertEqual(counts, {(Name("sh"), Name("[cut]"), unknown, unknown): 5, (Name("a_1"),): 1,
                                  (Name("sh"), unknown, Name("[popped]")): 4})


class Words(unittest.TestCase):
    def test_words(self) -> None:
        options = options_of(["--svg", "p.svg", "--frequency", "99", "xz", "-9", "--svg", "other"])
        self.assertEqual((options.svg, options.folded, options.frequency), ("p.svg", None, 99))
        self.assertEqual(options.command, ["xz", "-9", "--svg", "other"])
        self.assertEqual(options_of(["--", "xz"]).command, ["xz"])
        for words in ([], ["--"], ["--frequency", "0", "xz"]):
            with self.subTest(words), self.assertRaises(SystemExit), mock.patch("sys.stderr"):
                options_of(words)


class Runs(unittest.TestCase):
    def setUp(self) -> None:
        """A folder with the programs, a recording, and a library."""
        folder = tempfile.TemporaryDirectory()
        self.addCleanup(folder.cleanup)
        self.folder = Path(folder.name)
        self.programs = self.folder / "programs"
        self.programs.mkdir()
        for name, text in (("perf", PERF), ("profile", WALKS)):
            (self.programs / name).write_text(text)
            (self.programs / name).chmod(0o755)
        library = self.folder / "library"
        library.write_bytes(small_elf())
        self.record([executed(1, "sh"), mapping(1, START, str(library)), sample(1), sample(1), sample(1)])

    def record(self, records: list[bytes]) -> None:
        """What perf writes."""
        (self.folder / "recording").write_bytes(perf_file(records))

    def profiled(self, *words: str, path: str | None = None) -> subprocess.CompletedProcess[str]:
        """A run of the script."""
        environment = dict(os.environ) | {
            "PATH": f"{self.programs}:{os.environ['PATH']}" if path is None else path,
            "PROFILE": str(self.programs / "profile"), "RECORDING": str(self.folder / "recording"),
        }
        return subprocess.run([str(SCRIPT), *words], cwd=self.folder, env=environment, capture_output=True, text=True, check=False)

    def written(self) -> set[str]:
        """The files that are there beside those of the test."""
        return set(os.listdir(self.folder)) - {"programs", "recording", "library"}

    def test_a_profile(self) -> None:
        done = self.profiled("--folded", "stacks", "sh", "-c", "echo said; exit 7")
        self.assertEqual((done.returncode, done.stdout), (0, "said\n"), done.stderr)
        self.assertEqual(done.stderr.splitlines(), [
            "profile.sh: records sh -c 'echo said; exit 7'", "profile.sh: sh ended with status 7",
            "profile.sh: 3 samples of library, part 1 of 1", "profile.sh: 3 samples in 2 stacks: profile.svg and stacks",
        ])
        self.assertEqual(self.written(), {"profile.svg", "stacks"})
        self.assertRegex((self.folder / "stacks").read_text(), r"\Ash;\[cut\];\S+;\S+ 2\nsh;\[unknown\] 1\n\Z")
        picture = (self.folder / "profile.svg").read_text()
        self.assertIn("<title>[cut]: 2 samples, 66.7%</title>", picture)
        self.assertIn("sh -c 'echo said; exit 7'", picture)

    def test_a_script(self) -> None:
        done = self.profiled("--script", "samples", "true")
        self.assertEqual((done.returncode, done.stderr.splitlines()[-1]), (0, "profile.sh: 3 samples in 2 stacks: profile.svg and samples"))
        self.assertEqual(self.written(), {"profile.svg", "samples"})
        self.assertRegex((self.folder / "samples").read_text(), r"\Ash 1/1 2\.000000003: 1 samples:\n\t11008 \S+ \(/x/library\)\n"
                         r"\t7 \[unknown\] \(\[unknown\]\)\n\t0x0 \[cut\] \(\[unknown\]\)\n\n\Z")

    def test_offset_after_a_name(self) -> None:
        """Collapsers take an offset off a symbol's end, and are to keep the place of a function without a name."""
        for name, place, expected in (("main", "b+0x10+0x3", "main"), ("b+0x10", "b+0x10+0x3", "b+0x10+0x3"),
                                      ("b+0x10", "[unknown]", "b+0x10+0x0"), ("[unknown]", "[unknown]", "[unknown]")):
            with self.subTest(name, place=place):
                self.assertEqual(with_offset(name, place), expected)

    def test_frames_of_a_script(self) -> None:
        """The first frame of a sample was interrupted, and what stands in a frame's place is none."""
        lines = ["sh 1/2 0.000000001: 1 samples:", "\t0x10 b+0x10+0x0 (/b)", "\t0x1f b+0x10+0xf (/b)", "\t0x0 [cut] ([unknown])", "",
                 "sh 1/2 0.000000002: 1 samples:", "\t0x0 [popped] ([unknown])", "\t0x1f b+0x10+0xf (/b)", ""]
        frames = script_frames({"regions": [], "modules": []}, lines)
        self.assertEqual({number: (frame.counter, frame.address) for number, frame in frames.items()},
                         {1: (0x10, 0x10), 2: (0x20, 0x1f), 7: (0x1f, 0x1f)})

    def test_what_fails_is_said_and_nothing_is_written(self) -> None:
        without = self.folder / "programs" / "none"
        without.mkdir()
        for name in ("bash", "readlink", "dirname"):
            (without / name).symlink_to(shutil.which(name) or f"/bin/{name}")
        no_perf = self.profiled("true", path=str(without))
        self.assertEqual((no_perf.returncode, no_perf.stderr), (1, "profile.sh: records true\nprofile.sh: there is no perf on the "
                         "PATH (Debian: linux-perf)\n"))
        for words, said in (
            (["/no/command"], "there is no command /no/command"),
            (["--svg", "/no/folder/p.svg", "true"], "/no/folder/p.svg can't be written"),
            (["--profile", "/no/program", "true"], "/no/program isn't built: run `rt run` in crates/profile"),
            (["--profile", "/bin/false", "true"], "/bin/false ended with status 1"),
            (["--profile", "/bin/cat", "true"], "that is no line of profile: '{'"),
        ):
            with self.subTest(said):
                done = self.profiled(*words)
                self.assertEqual((done.returncode, done.stderr.splitlines()[-1]), (1, f"profile.sh: {said}"))
        self.record([executed(1, "sh")])
        done = self.profiled("true")
        self.assertEqual((done.returncode, done.stderr.splitlines()[-1]), (1, "profile.sh: perf took no sample: the command may "
                         "have run for too short a time, or have waited"))
        (self.folder / "recording").unlink()
        done = self.profiled("true")
        self.assertEqual((done.returncode, done.stderr.splitlines()[-1]), (1, "profile.sh: perf record ended with status 1, and "
                         "wrote nothing"))
        self.assertEqual(self.written(), set())

    def test_a_file_is_written_whole_or_not_at_all(self) -> None:
        path = self.folder / "file"
        with mock.patch("os.replace", side_effect=OSError("no")), self.assertRaises(OSError):
            command_profile.write_whole(str(path), "text")
        self.assertEqual(self.written(), set())
        command_profile.write_whole(str(path), "text")
        self.assertEqual((path.read_text(), path.stat().st_mode & 0o777), ("text", 0o644))

    def test_no_words(self) -> None:
        done = self.profiled()
        self.assertEqual((done.returncode, done.stdout, done.stderr[:23]), (2, "", "usage: profile.sh [--sv"))


if __name__ == "__main__":
    unittest.main()
