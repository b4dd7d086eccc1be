"""Tests fail_alloc.py on a small program in C, whose every failing call has a status."""
from __future__ import annotations

import contextlib
import io
import os
import shutil
import subprocess
import tempfile
import unittest

from fail_alloc import CALLS, HERE, Trial, faults_of

# Reads to the end unless it is to generate, allocates twice, and writes a line. Its last word `late` makes it
# answer 1 where the second allocation fails.
PROGRAM = r"""
#include <stdlib.h>
#include <string.h>
#include <unistd.h>

int main(int count, char **words)
{
    char taken[16];
    ssize_t size = strcmp(words[1], "generate");
    while (size)
        if ((size = read(0, taken, sizeof taken)) < 0)
            return 3;
    if (!malloc(1))
        return 9;
    if (!malloc(1))
        return strcmp(words[count - 1], "late") ? 9 : 1;
    return write(1, "end\n", 4) < 0 ? 4 : 0;
}
"""


@unittest.skipUnless(shutil.which("gcc"), "wants gcc")
class FailAllocTest(unittest.TestCase):
    """Which runs are tried, and which of them are faults."""

    def setUp(self) -> None:
        """Builds the program, and the library that makes calls fail."""
        self.folder = self.enterContext(tempfile.TemporaryDirectory())
        self.program = os.path.join(self.folder, "program")
        self.library = os.path.join(self.folder, "fail_alloc.so")
        source = os.path.join(HERE, "fail_alloc.c")
        subprocess.run(["gcc", "-O0", "-x", "c", "-", "-o", self.program], input=PROGRAM.encode(), check=True)
        subprocess.run(["gcc", "-shared", "-fPIC", "-O2", source, "-o", self.library, "-ldl"], check=True)

    def tried(self, words: tuple[str, ...], text: bytes | None) -> tuple[list[str], list[str]]:
        """The faults of all runs, and how each kind of call is summed up."""
        trial = Trial(self.program, words, text, self.library, self.folder)
        with contextlib.redirect_stdout(io.StringIO()) as printed:
            faults = [fault for call in CALLS for fault in faults_of(trial, call)]
        return faults, [line.split()[0] for line in printed.getvalue().splitlines()]

    def test_calls_of_each_kind_fail(self) -> None:
        """A run that reads has each of its calls failing."""
        self.assertEqual(self.tried(("walk",), b"{}"), ([], ["alloc:", "read:", "write:"]))

    def test_a_run_may_read_nothing(self) -> None:
        """A command with more words and no file has no read to fail."""
        self.assertEqual(self.tried(("generate", "1000", "7"), None), ([], ["alloc:", "write:"]))

    def test_a_read_without_a_file_is_a_fault(self) -> None:
        """A command that is to read nothing and does so is reported."""
        self.assertEqual(self.tried(("walk",), None)[0], ["1 calls of read were seen where nothing is to be read"])

    def test_another_status_is_a_fault(self) -> None:
        """Out of memory has a status of its own."""
        faults = ["alloc 2 failing: status 1", "alloc 2 and later failing: status 1"]
        self.assertEqual(self.tried(("generate", "late"), None)[0], faults)


if __name__ == "__main__":
    unittest.main()
