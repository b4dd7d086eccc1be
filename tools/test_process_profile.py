"""Tests of programs.py, process_samples.py and process_profile.py: moments of a program that waits, and how they come together."""
from __future__ import annotations

import contextlib
import io
import os
import signal
import subprocess
import sys
import tempfile
import unittest
from pathlib import Path
from unittest import mock

import process_profile
from core import Loaded
from elf_image import Range, Refused
from loaded_module import Module
from process_profile import Seen, groups_of, moments_of, options_of, profile
from process_samples import samples_object, taken_samples
from programs import Done, run_program
from snapshot_file import Region, joined_samples
from test_process_image import Waiting, can_trace

SCRIPT = Path(__file__).parent / "profile.sh"


def loaded(name: str, start: int) -> Loaded:
    """A module of 0x1000 bytes of code with an empty table after it."""
    place = Range(start, start + 0x1000)
    return Loaded(Module(name, start, None, [place], Range(place.end, place.end + 4), None, [], []), Region(place.end, bytes(4)))


def seen(*modules: Loaded, rip: int = 0x10, report: str = "0x10 1\nrefused 0\n") -> Seen:
    """A moment of one thread."""
    return Seen(list(modules), [{"start": {"rip": f"{rip:#x}", "rsp": "0x0"}, "interrupted": True}], report)


class Programs(unittest.TestCase):
    def test_text_and_answers(self) -> None:
        long = b"text\n" * 200_000
        self.assertEqual(run_program(["cat"], long), Done(0, long, b""))
        self.assertEqual(run_program(["sh", "-c", "echo said; echo why >&2; exit 7"], long), Done(7, b"said\n", b"why\n"))
        self.assertEqual(run_program(["sh", "-c", "kill -9 $$"], b""), Done(-signal.SIGKILL, b"", b""))
        with self.assertRaises(FileNotFoundError):
            run_program(["/nonexistent/program"], b"")

    def test_nothing_stays_open(self) -> None:
        before = len(os.listdir("/proc/self/fd"))
        run_program(["true"], b"text")
        self.assertEqual(len(os.listdir("/proc/self/fd")), before)


class Groups(unittest.TestCase):
    def test_modules_of_all_moments(self) -> None:
        program, library, other = loaded("program", 0x10000), loaded("library", 0x20000), loaded("other", 0x20800)
        first, second, third = seen(program), seen(program, library), seen(program, other)
        self.assertEqual(groups_of([first, second, first]), [[first, second, first]])
        self.assertEqual(groups_of([first, second, third]), [[first, second], [third]])
        moments = moments_of([first, second])
        self.assertEqual([module["path"] for module in moments[0].samples["modules"]], ["program", "library"])
        self.assertEqual(moments[0].samples["modules"], moments[1].samples["modules"])

    def test_a_process_that_ends(self) -> None:
        options = options_of(["1", "3", "--every", "1", "--unwind-cli", "/bin/true"])
        with mock.patch.object(process_profile, "seen_of", side_effect=[seen(), Refused("it has ended")]):
            with contextlib.redirect_stderr(io.StringIO()) as said:
                self.assertEqual(len(process_profile.all_seen(options)), 1)
        self.assertEqual(said.getvalue(), "profile.sh: 1 of 3 moments: it has ended\n")


class Words(unittest.TestCase):
    def test_words(self) -> None:
        options = options_of(["12", "--svg", "f.svg"])
        self.assertEqual((options.number, options.moments, options.every, options.svg), (12, 10, 50, "f.svg"))
        for words in ([], ["x"], ["1", "0"], ["1", "2", "3"], ["1", "--every", "no"]):
            with self.subTest(words), self.assertRaises(SystemExit), contextlib.redirect_stderr(io.StringIO()):
                options_of(words)

    def test_by_a_link(self) -> None:
        with tempfile.TemporaryDirectory() as folder:
            link = Path(folder) / "take-a-profile"
            link.symlink_to(SCRIPT)
            for program, said in (("/bin/true", "there is no process 4194305"), ("/none", "/none isn't built: run `rt run < stdin`")):
                words = {"env": dict(os.environ) | {"UNWIND_CLI": program}, "cwd": "/", "capture_output": True, "text": True}
                done = subprocess.run([str(link), "4194305"], check=False, **words)  # type: ignore[call-overload]
                self.assertEqual((done.returncode, done.stderr.startswith(f"profile.sh: {said}")), (1, True), done.stderr)


@unittest.skipUnless(sys.platform == "linux" and os.uname().machine == "x86_64" and can_trace(), "no process can be traced")
class Moments(unittest.TestCase):
    def test_samples_of_a_process(self) -> None:
        with Waiting() as (number, _address):
            found = samples_object(*taken_samples(number))
        self.assertEqual(found["samples"][0]["thread"]["id"], number)
        self.assertTrue(all(sample["interrupted"] for sample in found["samples"]))
        # They are as join.py makes them of gdb's files.
        joined = joined_samples({"regions": [], "modules": [], "limit": 2**20}, [])
        self.assertEqual((set(found), found["limit"]), (set(joined), joined["limit"]))
        places = sorted(Region(int(r["address"], 16), bytes.fromhex(r["bytes"])) for r in found["regions"])
        self.assertTrue(all(place.end <= after.start for place, after in zip(places, places[1:])))

    def test_a_profile(self) -> None:
        # In place of `unwind_cli fold` stands a program that says one stack of all samples.
        report = "import json, sys; n = len(json.load(sys.stdin)['samples']); print(f'0x10 {n}\\nrefused 0')"
        with tempfile.TemporaryDirectory() as folder, Waiting() as (number, _address):
            fold = Path(folder) / "fold"
            fold.write_text(f"#!{sys.executable}\n{report}\n")
            fold.chmod(0o755)
            words = [str(number), "2", "--every", "1", "--unwind-cli", str(fold), "--svg", f"{folder}/f.svg"]
            threads = len(os.listdir(f"/proc/{number}/task"))
            self.assertEqual(profile(options_of(words)), f"[unknown] {2 * threads}\n")
            self.assertIn("[unknown]", (Path(folder) / "f.svg").read_text())


if __name__ == "__main__":
    unittest.main()
