"""The reports of threads: the built programs find their frames, each of the two in one run for all threads.

    reports_of(taken, programs)      of each thread what a program reports

`taken` are threads, their stacks and modules, of a process that was stopped or of a core. One run of `unwind_cli core` walks all
threads. Those whose walk doesn't come to the outermost frame are walked once more, in one run of `backtrace --samples`, which
has the frames up to there and says why there are no more. A sample has a limited number of frames: a thread with more has a
run of its own. Where one of the two programs isn't built, the other does all.

With frame pointers a report that ends in code without a table goes on by RBP (`backtrace --frame-pointers`): where that is kept
as a frame pointer, the word above it is the return address. Such a frame is marked as a guess, and from it on tables count again.
`backtrace` reads which code has no table (`code`).
"""
from __future__ import annotations

import bisect
import json
import os
import re
from typing import Iterable, NamedTuple, Sequence

from core import Taken, interrupted_pointers, object_of, text_path
from elf_image import Refused
from loaded_module import module_objects
from programs import built_path, run_program
from snapshot_file import MOST_BYTES, MOST_STATES, MOST_STATES_OF_A_SAMPLE, Object, Region, region_object

# How the report of a sample ends that has more frames.
AT_LIMIT = "end: more frames than the limit\n"


class Programs(NamedTuple):
    """The built programs, those that there are."""

    backtrace: str | None
    unwind_cli: str | None


class Answer(NamedTuple):
    """What a program prints, and why that is no report, where it is none."""

    text: str
    fault: str | None = None


# The registers of a thread that was stopped before its instruction.
Start = dict[str, int]


def built_programs(paths: dict[str, str]) -> Programs:
    """Those of the two programs that can be run. Refuses where there is none."""
    there = Programs(*(paths[name] if os.access(paths[name], os.X_OK) else None for name in Programs._fields))
    if there == Programs(None, None):
        raise Refused(f"{paths['backtrace']} isn't built: run `rt run < stdin` in crates/backtrace")
    return there


# ---- what the programs read


def short_text(found: Object) -> bytes:
    """The text in one line. Refuses one that is longer than the programs take."""
    text = json.dumps(found).encode("ascii")
    check_size(text)
    return text


def check_size(text: bytes) -> None:
    """Refuses a text that is longer than the programs take."""
    if len(text) > MOST_BYTES:
        raise Refused(f"its stacks and tables come to {len(text)} bytes of text, and {MOST_BYTES} are taken")


def text_with_regions(found: Object) -> bytes:
    """The same of what is made here, whose words and bytes are spelled as JSON has them: they aren't looked at once more."""
    regions = ",".join(f'{{"address":"{region["address"]}","bytes":"{region["bytes"]}"}}' for region in found["regions"])
    rest = short_text({name: value for name, value in found.items() if name != "regions"})
    text = b"".join([b'{"regions":[', regions.encode("ascii"), b"],", rest[1:]])
    check_size(text)
    return text


def module_entries(taken: Taken) -> list[Object]:
    """The modules as a snapshot has them."""
    entries = [entry for one in taken.loaded for entry in module_objects(one.module)]
    return [entry | {"path": text_path(entry["path"])} for entry in entries]


def stacks_under(stacks: list[Region], pointers: Iterable[int]) -> list[Region]:
    """Of the stacks those on which pointers stand, and those on which the code stood that signals interrupted there."""
    found: set[int] = set()
    left = list(pointers)
    while left:
        index = bisect.bisect_right(stacks, left.pop(), key=lambda stack: stack.end)
        if index < len(stacks) and index not in found:
            found.add(index)
            left += interrupted_pointers(stacks[index].content)
    return [stacks[index] for index in sorted(found)]


def start_object(start: Start) -> Object:
    """Where a walk begins as a snapshot and a sample have it."""
    return {"start": {name: f"{value:#x}" for name, value in start.items()}, "interrupted": True}


def shared_object(taken: Taken, starts: Sequence[Start]) -> Object:
    """The memory, the modules and the code without tables of threads that begin so."""
    stacks = stacks_under(taken.stacks, [start["rsp"] for start in starts])
    regions = [region_object(region) for region in [*(one.table for one in taken.loaded), *stacks]]
    return {"regions": regions, "modules": module_entries(taken), "code": list(taken.code)}


def snapshot_of(taken: Taken, start: Start) -> Object:
    """What `backtrace` reads of one thread."""
    return shared_object(taken, [start]) | start_object(start) | {"limit": MOST_STATES}


def samples_of(taken: Taken, starts: Sequence[Start]) -> Object:
    """What `backtrace --samples` reads of several."""
    return shared_object(taken, starts) | {"samples": [*map(start_object, starts)], "limit": MOST_STATES_OF_A_SAMPLE}


# ---- walks


def run(words: list[str], text: bytes) -> Answer:
    """What a program says of a text."""
    try:
        done = run_program(words, text)
    except OSError as error:
        return Answer("", f"{words[0]} can't be run: {error.strerror}")
    said = done.output.decode("ascii", "replace")
    if done.status < 0:
        return Answer(said, f"{words[0]} was ended by the signal {-done.status}")
    last = (said + done.errors.decode("utf-8", "replace")).strip().rpartition("\n")[2]
    return Answer(said, f"{words[0]} ended with status {done.status}: {last}".rstrip(": ") if done.status else None)


THREAD_LINE = re.compile(r"^thread \d+\n", re.MULTILINE)
WHOLE_WALK = re.compile(r"^frame \d+ ra=0x0 .*\nend\n\Z", re.MULTILINE)


def by_threads(answer: Answer, count: int, program: str) -> list[Answer]:
    """What a program prints of so many threads, one by one."""
    walks = THREAD_LINE.split(answer.text)[1:]
    if answer.fault is None and len(walks) != count:
        answer = Answer("", f"{program} printed {len(walks)} walks of {count} threads")
    return [Answer(walk) for walk in walks] if answer.fault is None else [answer] * count


def walks_of(taken: Taken, program: str) -> list[Answer]:
    """The walks of all threads in one run of `unwind_cli core`."""
    return by_threads(run([program, "core"], text_with_regions(object_of(taken, MOST_STATES))), len(taken.threads), program)


def backtrace_of(taken: Taken, start: Start, words: list[str]) -> Answer:
    """What `backtrace` reports of one thread, by a run of its own."""
    return run(words, text_with_regions(snapshot_of(taken, start)))


def backtraces_in_one(taken: Taken, starts: Sequence[Start], words: list[str]) -> list[Answer]:
    """What it reports of several by one run, of each no more frames than a sample has."""
    if len(starts) == 1:
        return [backtrace_of(taken, starts[0], words)]
    return by_threads(run([*words, "--samples"], text_with_regions(samples_of(taken, starts))), len(starts), words[0])


def whole(taken: Taken, start: Start, words: list[str], answer: Answer) -> Answer:
    """The same of one of them, by a run of its own where it has more frames."""
    return backtrace_of(taken, start, words) if answer.text.endswith(AT_LIMIT) else answer


def backtraces_of(taken: Taken, starts: Sequence[Start], words: list[str]) -> list[Answer]:
    """What it reports of each, with all its frames."""
    answers = backtraces_in_one(taken, starts, words)
    return [whole(taken, start, words, answer) for start, answer in zip(starts, answers)]


def is_whole(answer: Answer) -> bool:
    """Whether a walk comes to the outermost frame."""
    return answer.fault is None and WHOLE_WALK.search(answer.text) is not None


def answers_of(taken: Taken, programs: Programs, frame_pointers: bool) -> list[Answer]:
    """What is found of each thread. One thread alone, and those whose walks aren't whole, are `backtrace`'s to report."""
    alone = len(taken.threads) == 1 and programs.backtrace is not None
    no_walks = [Answer("", "no walk")] * len(taken.threads)
    found = no_walks if alone or programs.unwind_cli is None else walks_of(taken, programs.unwind_cli)
    rest = [index for index, answer in enumerate(found) if not is_whole(answer)]
    if programs.backtrace is None or not rest:
        return found
    words = [programs.backtrace, *(["--frame-pointers"] if frame_pointers else [])]
    starts = [taken.threads[index].registers for index in rest]
    answers = dict(zip(rest, backtraces_of(taken, starts, words)))
    return [
        answers[index] if index in answers and (answers[index].fault is None or answer.fault is not None) else answer
        for index, answer in enumerate(found)
    ]


def reports_of(taken: Taken, programs: Programs, frame_pointers: bool = False) -> list[str]:
    """The report of each thread, or the line that says why there is none. Refuses where there is none of any thread."""
    answers = answers_of(taken, programs, frame_pointers)
    faults = [answer.fault for answer in answers if answer.fault is not None]
    if faults and len(faults) == len(answers):
        raise Refused(faults[0])
    return [answer.text if answer.fault is None else f"{answer.fault}\n" for answer in answers]
