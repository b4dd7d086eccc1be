#!/usr/bin/env python3
"""Tries the wrong programs of crates, also those that the gate doesn't try: each is the code of a crate with one edit, and the checker has to refuse it.

    wrong_programs.py NAME..      of each crate those in crates/NAME/wrong and crates/NAME/must-fail
    wrong_programs.py --texts     none is tried; a line says of each edit that doesn't fit its file what is amiss

They are tried by `rt must-fail` in a copy of these crates and of those below them, with what checks in this repository left in
their out/. The status is 1 where one isn't refused, or doesn't fit.
"""
from __future__ import annotations

import pathlib
import shutil
import subprocess
import sys
import tempfile

TOP = pathlib.Path(__file__).resolve().parent.parent
FOLDERS = ("must-fail", "wrong")


def edits_of(crate: pathlib.Path) -> list[pathlib.Path]:
    """The edits of a crate, those that the gate tries first."""
    return [edit for folder in FOLDERS for edit in sorted((crate / folder).glob("*.edit"))]


def fault_of(edit: str, crate: pathlib.Path) -> str | None:
    """Why an edit can't be made in a crate, if it can't: each old text has to stand in its file once, after the pairs before it."""
    texts: dict[str, str] = {}
    path, old, pairs = "", "", 0
    for line in edit.splitlines():
        word, _space, rest = line.partition(": ") if ": " in line else line.partition(":")
        if word == "file":
            path = rest.strip()
            if path not in texts:
                if not (crate / path).is_file():
                    return f"there is no file {path}"
                texts[path] = (crate / path).read_text()
        elif word == "old":
            old = rest
        elif word == "new":
            count = texts.get(path, "").count(old) if old else 0
            if count != 1:
                return f"the old text stands {count} times in {path}"
            texts[path], old, pairs = texts[path].replace(old, rest), "", pairs + 1
        elif line:
            return f"a line that begins with neither file, old nor new: {line}"
    same = all(text == (crate / name).read_text() for name, text in texts.items())
    return "it changes nothing" if same or not pairs else None


def faults(top: pathlib.Path) -> list[str]:
    """A line for each edit of the repository that doesn't fit, or has the name of another one of its crate."""
    found = []
    for crate in sorted((top / "crates").iterdir()):
        edits = edits_of(crate)
        names = [edit.name for edit in edits]
        for edit in edits:
            why = "its crate has two of its name" if names.count(edit.name) > 1 else fault_of(edit.read_text(), crate)
            found += [f"{edit.relative_to(top)}: {why}"] if why else []
    return found


def crates_for(names: list[str]) -> dict[str, str]:
    """The lines of crates.txt of some crates and of all that they stand on, by their names."""
    lines = {line.partition(":")[0].split()[0]: line for line in (TOP / "crates.txt").read_text().splitlines() if not line.startswith("#")}
    wanted = {*names}
    for name, line in reversed(lines.items()):
        if name in wanted:
            wanted |= {it for it in line.partition(":")[2].split() if it in lines}
    return {name: line for name, line in lines.items() if name in wanted}


def tried(names: list[str]) -> int:
    """Tries the edits of crates in a copy, and gives the status of `rt must-fail`."""
    with tempfile.TemporaryDirectory(prefix="wrong-programs-") as folder:
        room = pathlib.Path(folder)
        lines = crates_for(names)
        (room / "crates.txt").write_text("\n".join([*lines.values(), ""]))
        shutil.copyfile(TOP / "HANDLES", room / "HANDLES")
        for name in lines:
            shutil.copytree(TOP / "crates" / name, room / "crates" / name)
        for name in names:
            for edit in (room / "crates" / name / "wrong").glob("*.edit"):
                (room / "crates" / name / "must-fail").mkdir(exist_ok=True)
                edit.rename(room / "crates" / name / "must-fail" / edit.name)
        return subprocess.run(["rt", "must-fail", *names], cwd=room, check=False).returncode


def main(words: list[str]) -> int:
    if words == ["--texts"]:
        lines = faults(TOP)
        print("\n".join([*lines, f"{len(lines)} edits don't fit"]))
        return 1 if lines else 0
    lacking = [name for name in words if not edits_of(TOP / "crates" / name)]
    if not words or lacking:
        print(f"no wrong programs of {lacking[0]}" if lacking else "usage: wrong_programs.py NAME.. | --texts", file=sys.stderr)
        return 2
    return tried(words)


if __name__ == "__main__":
    sys.exit(main(sys.argv[1:]))
