"""Tests of programs.py: where a built program is found, and what a program prints of a text."""
from __future__ import annotations

import os
import pathlib
import tempfile
import unittest
from unittest import mock

import programs
from programs import built_path, run_program, which


class BuiltTest(unittest.TestCase):
    """A program in place of `backtrace`, in the folder of its crate, in one of the PATH, and elsewhere."""

    def setUp(self) -> None:
        """A checkout and a folder of the PATH."""
        self.folder = tempfile.TemporaryDirectory()
        self.addCleanup(self.folder.cleanup)
        top = pathlib.Path(self.folder.name)
        self.built, self.on_path, self.other = top / "crates/backtrace/out/backtrace", top / "bin/backtrace", top / "mine"
        environment = {"PATH": f"{top}/none:{top}/bin"}
        for patch in (mock.patch.object(programs, "CRATES", str(top / "crates")), mock.patch.dict(os.environ, environment)):
            patch.start()
            self.addCleanup(patch.stop)
        os.environ.pop("BACKTRACE", None)

    def make(self, path: pathlib.Path, mode: int = 0o755) -> None:
        """A program that prints its place."""
        path.parent.mkdir(parents=True, exist_ok=True)
        path.write_text(f"#!/bin/sh\necho {path}\n")
        path.chmod(mode)

    def test_nothing_is_built(self) -> None:
        self.assertEqual(built_path("backtrace"), str(self.built))

    def test_on_the_path(self) -> None:
        self.make(self.on_path)
        self.assertEqual(built_path("backtrace"), str(self.on_path))
        self.assertEqual(run_program([built_path("backtrace")], b"").output, f"{self.on_path}\n".encode())

    def test_what_cannot_be_run_is_not_found(self) -> None:
        self.make(self.built, 0o644)
        self.make(self.on_path, 0o644)
        self.assertEqual(built_path("backtrace"), str(self.built))
        self.assertIsNone(which("backtrace"))

    def test_in_the_checkout_before_the_path(self) -> None:
        self.make(self.built)
        self.make(self.on_path)
        self.assertEqual(built_path("backtrace"), str(self.built))

    def test_by_a_variable_before_both(self) -> None:
        self.make(self.built)
        with mock.patch.dict(os.environ, {"BACKTRACE": str(self.other)}):
            self.assertEqual(built_path("backtrace"), str(self.other))


if __name__ == "__main__":
    unittest.main()
