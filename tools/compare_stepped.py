#!/usr/bin/env python3
"""Compares the walk of each state of a run with its true callers.

    compare_stepped.py UNWIND_CLI FILE..

FILE is what gdb's command `stepped` writes (tools/stepped.py). For each FILE, and each kind of module that it has, a line
of a table is printed: of each place that tools/code_places.py tells, how many instructions and states FILE has there, of
how many states the caller was exact, and of how many the whole walk; and then a line for each kind of state where one
wasn't. The status is 1 if a state had another caller where the unwind data should give it: in a prologue or in a body of
an ELF function, in these or in an epilogue of a PE function, in a body of a Mach-O function.
"""
from __future__ import annotations

import json
import os
import subprocess
import sys
from collections import Counter
from typing import Any, Iterator

PLACES = ["prologue", "body", "epilogue", "other"]
EXACT_PLACES = {"elf": ["prologue", "body"], "pe": ["prologue", "body", "epilogue"], "macho": ["body"]}
FIELDS = "rbx rbp r12 r13 r14 r15".split()

Object = dict[str, Any]


def line_of(number: int, state: Object) -> str:
    """A state as a walk prints it."""
    fields = " ".join(f"{name}={state[name]}" for name in ["ra", "sp", *FIELDS])
    return f"frame {number} {fields}"


def due_lines(state: Object) -> list[str]:
    """What is due for a state: itself, its callers, and the end."""
    start = state["start"]
    here = {"ra": start["rip"], "sp": start["rsp"]} | {name: start[name] for name in FIELDS}
    return [line_of(number, each) for number, each in enumerate([here, *state["callers"]])] + ["end"]


def walked_lines(program: str, tables: Object, state: Object) -> list[str]:
    """What the program prints for a state."""
    regions = tables["regions"] + [state["stack"]]
    snapshot = tables | {"regions": regions, "start": state["start"], "interrupted": True}
    done = subprocess.run([program, "walk"], input=json.dumps(snapshot), capture_output=True, text=True, check=False)
    return (done.stdout or done.stderr).splitlines()


def states_of(file: str) -> Iterator[Object]:
    """The lines of a file."""
    with open(file, encoding="ascii") as stream:
        yield from map(json.loads, stream)


class Tally:
    """What came of the states in modules of one kind."""

    def __init__(self) -> None:
        self.met: dict[str, set[str]] = {place: set() for place in PLACES}
        self.total: Counter[str] = Counter()
        self.exact: Counter[str] = Counter()
        self.whole: Counter[str] = Counter()
        self.others: Counter[str] = Counter()

    def add(self, state: Object, walked: list[str]) -> None:
        """Adds a state and what was walked from it."""
        place, due = state["place"], due_lines(state)
        self.total[place] += 1
        self.met[place].add(state["start"]["rip"])
        self.exact[place] += walked[:2] == due[:2]
        self.whole[place] += walked == due
        if walked != due:
            what = walked[1:2] or walked if walked[:2] != due[:2] else "a later caller"
            self.others[f"{place} of {state['function']} at {state['start']['rip']}: {what}"] += 1

    def show(self, name: str) -> None:
        """Prints the line of the table, and the states that weren't exact."""
        cells = [f"{len(self.met[place])} | {self.total[place]} | {self.exact[place]} | {self.whole[place]}" for place in PLACES]
        print(f"| {name} | " + " | ".join(cells) + " |")
        for text, count in sorted(self.others.items()):
            print(f"  {count} times {text}")

    def is_exact(self, places: list[str]) -> bool:
        """Whether each state in these places had its caller."""
        return all(self.exact[place] == self.total[place] for place in places)


def compare(program: str, file: str) -> bool:
    """Compares the states of a run, and prints its lines. Whether all had their caller where that is due."""
    states = states_of(file)
    tables = next(states)
    tallies: dict[str, Tally] = {}
    for state in states:
        tallies.setdefault(state["kind"], Tally()).add(state, walked_lines(program, tables, state))
    for kind, tally in tallies.items():
        tally.show(f"{os.path.splitext(os.path.basename(file))[0]} {kind}")
    return all(tally.is_exact(EXACT_PLACES[kind]) for kind, tally in tallies.items())


def main() -> None:
    """Compares each file."""
    program, *files = sys.argv[1:]
    done = [compare(program, file) for file in files]
    sys.exit(0 if all(done) else 1)


if __name__ == "__main__":
    main()
