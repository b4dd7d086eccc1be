#!/usr/bin/env python3
"""Takes throws of C++ programs, and compares what `unwind_cli throw` answers with what each process did.

    try_throws.py UNWIND_CLI [-j N] [--table FILE] [--only WORD] PROGRAM...

A PROGRAM is one of out/, built of a source in cxx/, with its build after a dash: settings-gcc-O2. Each is run within gdb once
for each of its throws (`take_throw` of ../tools/landings.py). It gets no environment, so that addresses are the same each time.
`cmake`, `gdb` and `apt` are those of the system. For each throw there are in out/throws a snapshot and the report of the
process; where the command's differs, the difference is printed. FILE gets a table of all throws. The status is 0 where all are
the same.
"""
from __future__ import annotations

import argparse
import concurrent.futures
import difflib
import os
import pathlib
import subprocess
import sys
from typing import NamedTuple

HERE = pathlib.Path(__file__).resolve().parent
TOOLS, OUT, THROWS = HERE.parent / "tools", HERE / "out", HERE / "out" / "throws"

# Of each program the words after its name, and which throws of that run are taken.
CASES: dict[str, list[tuple[str, list[int]]]] = {
    "settings": [("width", [1]), ("height", [1]), ("depth", [1]), ("nope", [1]), ("word", [1]), ("internal", [1])],
    "jobs": [
        ("again", [1, 2]), ("number", [1, 2]), ("later", [1, 2]), ("undo", [1, 2]), ("task", [1, 2]), ("thread", [1, 2]),
        ("function", [1]),
    ],
    "parser": [("[a[b?", [1]), ("!", [1]), ("*", [1]), ("0", [1]), ("[a[b", [1, 2, 3, 4, 5])],
    "transfers": [
        ("closed", [1]), ("overdrawn", [1]), ("w-number", [1]), ("foreign", [1]), ("l-overdrawn", [1]), ("l-closed", [1]),
        ("l-closed x", [1, 2]), ("l-foreign", [1]), ("n-number", [1]), ("n-foreign", [1]), ("q-number", [1]),
        ("q-foreign", [1]),
    ],
    "readings": [("31", [1]), ("100", [1]), ("0", [1]), ("-1", [1])],
    "faults": [("0x10", [1])],
    "plugins": [("plug", [1])],
    "callbacks": [("native", [1]), ("foreign", [1])],
    "mixed": [("rust-cxx-rust", [1]), ("rust-cxx", [1]), ("cxx-rust-cxx", [1]), ("cxx-rust", [1])],
}

CMAKE_SCRIPTS = {
    "json": 'string(JSON found GET "{\\"a\\":1}" b)',
    "type": 'string(JSON found TYPE "{\\"a\\":1}" a b)',
    "length": 'string(JSON found LENGTH "[1")',
    "number": 'math(EXPR found "99999999999999999999")',
    "division": 'math(EXPR found "1/0")',
    "range": "foreach(i RANGE 99999999999999999999)\nendforeach()",
}
GDB_COMMANDS = ["print 1/0", "file /nonexistent", "print nothing", "python raise ValueError()", "break nowhere"]
APT_PATTERNS = ["?foo", "?version(1", "~", "?section(["]
# Of programs of the system how each is run, what the case is called, and which throws are taken.
SYSTEM = {
    "cmake": [(["/usr/bin/cmake", "-P", f"{name}.cmake"], name, [1]) for name in CMAKE_SCRIPTS],
    "gdb": [(["/usr/bin/gdb", "-nx", "-batch", "-ex", words], words, [1]) for words in GDB_COMMANDS],
    "apt": [(["/usr/bin/apt", "list", pattern], f"list {pattern}", [1]) for pattern in APT_PATTERNS],
}


class Try(NamedTuple):
    """A throw that is tried: how the program is run, what the case is called, and which throw of the run it is."""

    build: str
    command: list[str]
    case: str
    count: int

    def file(self) -> str:
        """The name of its files: of each case its own."""
        letters = "".join(letter if letter.isalnum() else f"_{ord(letter):x}" for letter in self.case)
        return f"{self.build}-{letters}-{self.count}"


class Outcome(NamedTuple):
    """What came of it: the lines of the process, none where it threw nothing, and those of the command."""

    due: list[str]
    answered: list[str]

    def is_same(self) -> bool:
        """Whether the command answered what the process did."""
        return bool(self.due) and self.due == self.answered

    def end(self) -> str:
        """The number that the handler found, or the outcome without one."""
        landings = [line.split("rdx=")[1] for line in self.due if line.startswith("landing")]
        return f"RDX {landings[0]}" if landings else self.due[-1].removeprefix("outcome ") if self.due else "no throw"

    def row(self, tried: Try) -> str:
        """The row of a table."""
        frames, pads = (sum(line.startswith(head) for line in self.due) for head in ("frame", "cleanup"))
        same = "the same" if self.is_same() else "**not the same**"
        return f"| `{tried.build}` | `{tried.case}`, {tried.count} | {frames} | {pads} | {self.end()} | {same} |"


def tries_of(program: str) -> list[Try]:
    """The throws of a program."""
    if program in SYSTEM:
        return [Try(program, command, case, count) for command, case, counts in SYSTEM[program] for count in counts]
    name = program.split("-")[0]
    cases = [(words, count) for words, counts in CASES[name] for count in counts]
    return [Try(program, [f"../{program}", *words.split()], words, count) for words, count in cases]


def take(tried: Try) -> list[str]:
    """Takes a throw, and answers the process's report."""
    file = tried.file()
    for end in (".json", ".report"):
        (THROWS / (file + end)).unlink(missing_ok=True)
    scripts = ["-ix", TOOLS / "snapshot.py", "-x", TOOLS / "frames.py", "-x", TOOLS / "landings.py"]
    command = f"take_throw {file}.json {file}.report {tried.count}"
    signals = ["-ex", "handle SIGSEGV nostop noprint pass"]
    words = ["gdb", "-nx", "-q", "-batch", *scripts, *signals, "-ex", command, "--args", *tried.command]
    environment = {"HOME": "/nonexistent", "PATH": "/usr/bin:/bin"}
    with open(THROWS / f"{file}.log", "w", encoding="utf-8") as log:
        subprocess.run(words, cwd=THROWS, env=environment, stdin=subprocess.DEVNULL, stdout=log, stderr=log, timeout=120)
    report = THROWS / f"{file}.report"
    return report.read_text().splitlines() if report.exists() else []


def outcome_of(tried: Try, program: str) -> Outcome:
    """Takes a throw and lets the command answer to its snapshot. Prints where these differ."""
    due = take(tried)
    answered: list[str] = []
    if due:
        with open(THROWS / f"{tried.file()}.json", "rb") as snapshot:
            run = subprocess.run([program, "throw"], stdin=snapshot, capture_output=True, text=True)
        answered = run.stdout.splitlines()
    for line in difflib.unified_diff(due, answered, tried.file(), "unwind_cli throw", lineterm="", n=1):
        print(line)
    return Outcome(due, answered)


def arguments() -> argparse.Namespace:
    """The words of the program."""
    parser = argparse.ArgumentParser(prog="try_throws.py", description="Compare throws of C++ programs.")
    parser.add_argument("unwind_cli", metavar="UNWIND_CLI")
    parser.add_argument("programs", nargs="+", metavar="PROGRAM")
    parser.add_argument("-j", type=int, default=1, metavar="N", help="so many at a time")
    parser.add_argument("--table", metavar="FILE", help="write the table of the throws there")
    parser.add_argument("--only", default="", metavar="WORD", help="the cases that have this in their names")
    return parser.parse_args()


def main() -> None:
    """Runs the program."""
    options = arguments()
    THROWS.mkdir(parents=True, exist_ok=True)
    for name, script in CMAKE_SCRIPTS.items():
        (THROWS / f"{name}.cmake").write_text(script + "\n")
    tries = [each for program in options.programs for each in tries_of(program) if options.only in each.case]
    cli = os.path.abspath(options.unwind_cli)
    with concurrent.futures.ThreadPoolExecutor(options.j) as pool:
        outcomes = list(pool.map(lambda each: outcome_of(each, cli), tries))
    rows = [outcome.row(each) for each, outcome in zip(tries, outcomes)]
    head = ["| Build | Case, throw | Frames | Cleanups | End | `unwind_cli throw` |", "|---|---|---|---|---|---|"]
    if options.table:
        pathlib.Path(options.table).write_text("\n".join(head + rows) + "\n")
    same = sum(outcome.is_same() for outcome in outcomes)
    print(f"{len(tries)} throws, {same} the same, {len(tries) - same} not the same")
    sys.exit(0 if same == len(tries) else 1)


if __name__ == "__main__":
    main()
