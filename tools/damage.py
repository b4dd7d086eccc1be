#!/usr/bin/env python3
"""Runs the built program on damaged snapshots, and says what it does that docs/FORMATS.md doesn't allow.

    damage.py [--runs N] [--seed WORD] [--jobs N] [--program PATH] [--keep DIR]
    damage.py --one NUMBER [--seed WORD]

Each run takes a snapshot that the repository ships, damages its memory, its modules, its registers or
its text, and gives it to `walk` or `deliver` with a limit on processor time and memory. Looked for are
a signal, a run that the limits end, a status that FORMATS.md doesn't name for such input, and output that
isn't what that status promises. No other program says what is right: a report that is well formed
and wrong isn't found.

The seed and the run's number determine the damage: --one writes the snapshot of one run to the standard
output, and how it is run to the standard error. --keep puts the snapshots of the runs that failed into a
folder. The status is 1 where a run failed.
"""
from __future__ import annotations

import argparse
import collections
import glob
import json
import multiprocessing
import os
import random
import re
import resource
import subprocess
import sys
from dataclasses import dataclass
from typing import Callable, Iterator

from snapshot_file import MOST_STATES, Object

REPOSITORY = os.path.join(os.path.dirname(os.path.abspath(__file__)), "..")
PROGRAM = os.path.join(REPOSITORY, "crates", "unwind_cli", "out", "unwind_cli")
SHIPPED = ("examples/*.json", "crates/real_samples/data/*.json")

# A run's processor time and wall time in seconds. The second is long, since other runs go on beside it.
SECONDS, WALL_SECONDS = 20, 600
# Its address space in bytes: enough for each snapshot that is made here, and too little for some.
MEMORY, LITTLE_MEMORY = 1 << 30, (1 << 23, 1 << 25, 1 << 27)

# ---- numbers and bytes

EDGES = [0, 1, 2, 3, 4, 7, 8, 0x0C, 0x7F, 0x80, 0xFF, 0x100, 0x7FFF, 0x8000, 0xFFFF, 2**31 - 1, 2**31, 2**32 - 1, 2**32]
EDGES += [2**47, 2**63 - 1, 2**63, 2**64 - 4096, 2**64 - 16, 2**64 - 8, 2**64 - 2, 2**64 - 1]


def some_word(dice: random.Random, near: int) -> int:
    """A word: near a given one, at an edge, or any."""
    kind = dice.randrange(4)
    if kind < 2:
        return (near + dice.choice([-4096, -16, -8, -2, -1, 1, 2, 4, 8, 16, 256, 4096])) % 2**64
    return dice.choice(EDGES) if kind == 2 else dice.getrandbits(64)


def damaged_bytes(dice: random.Random, content: bytes) -> bytes:
    """The bytes with one piece changed, cut, put in, repeated or moved."""
    if not content:
        return dice.randbytes(8)
    at = dice.randrange(len(content))
    size = dice.choice([1, 1, 1, 2, 4, 8, 24, 64])
    kind = dice.randrange(9)
    if kind < 3:
        return content[:at] + dice.randbytes(size) + content[at + size :]
    if kind == 3:
        edge = dice.choice(EDGES) % 2 ** (8 * min(size, 8))
        return content[:at] + edge.to_bytes(min(size, 8), "little") + content[at + min(size, 8) :]
    if kind == 4:
        return content[:at] + bytes([content[at] ^ 1 << dice.randrange(8)]) + content[at + 1 :]
    if kind == 5:
        return content[:at] + content[at + size :] or b"\0"
    if kind == 6:
        return content[:at] + dice.randbytes(size) + content[at:]
    if kind == 7:
        return content[:at] + content[at : at + size] * dice.choice([2, 3, 100]) + content[at + size :]
    return content[: max(1, at)] + content[at:][:: dice.choice([-1, 2])]


# ---- damage to a snapshot's value

Damage = Callable[[random.Random, Object], None]


def one_of(dice: random.Random, found: Object, key: str) -> Object:
    """One of the regions or modules, a new one where there is none."""
    if not found.get(key):
        found[key] = [{"address": "0x0", "bytes": "00", "start": "0x0", "end": "0x1"}]
    return dice.choice(found[key])


def damage_table(dice: random.Random, found: Object) -> None:
    """Changes bytes of a region."""
    for _ in range(dice.choice([1, 1, 2, 5, 20])):
        region = one_of(dice, found, "regions")
        region["bytes"] = damaged_bytes(dice, bytes.fromhex(region["bytes"])).hex()


def damage_region(dice: random.Random, found: Object) -> None:
    """Moves, drops, repeats, cuts, parts or empties a region."""
    region = one_of(dice, found, "regions")
    address, content = int(region["address"], 16), region["bytes"]
    half = len(content) // 4 * 2
    kind = dice.randrange(6)
    if kind == 0:
        region["address"] = f"{some_word(dice, address):#x}"
    elif kind == 1:
        found["regions"].remove(region)
    elif kind == 2:
        found["regions"].append(dict(region, address=f"{some_word(dice, address):#x}"))
    elif kind == 3:
        region["bytes"] = content[: 2 * dice.randrange(len(content) // 2 + 1)]
    elif kind == 4 and half:
        region["bytes"] = content[:half]
        found["regions"].insert(0, {"address": f"{address + half // 2:#x}", "bytes": content[half:]})
    else:
        region["bytes"] = dice.choice(["", "0", "zz", content[:-1], content.upper()])


def damage_module(dice: random.Random, found: Object) -> None:
    """Changes where a module lies, its table or its kind."""
    module = one_of(dice, found, "modules")
    kind = dice.randrange(7)
    words = [key for key in ("start", "end", "eh_frame", "eh_frame_hdr", "text_base") if key in module]
    if kind < 3:
        key = dice.choice(words)
        module[key] = f"{some_word(dice, int(module[key], 16)):#x}"
    elif kind == 3:
        region = one_of(dice, found, "regions")
        start = int(region["address"], 16) + dice.randrange(len(region["bytes"]) // 2 + 1)
        module.pop("eh_frame", None), module.pop("eh_frame_hdr", None)
        module[dice.choice(["eh_frame", "eh_frame_hdr"])] = f"{start % 2**64:#x}"
    elif kind == 4:
        module["text_base"] = f"{some_word(dice, int(module['start'], 16)):#x}"
    elif kind == 5:
        found["modules"].append(dict(module))
    else:
        module.pop(dice.choice(sorted(module)))


def damage_start(dice: random.Random, found: Object) -> None:
    """Changes registers of the start."""
    for _ in range(dice.choice([1, 1, 2, 8])):
        name = dice.choice(["rip", "rip", "rsp", "rsp", "rbp", "rbx", "r12", "r14", "rax"])
        found["start"][name] = f"{some_word(dice, int(found['start'].get(name, '0x0'), 16)):#x}"


def damage_stack(dice: random.Random, found: Object) -> None:
    """Makes words of the stack addresses of the code, or of the stack itself, so that it leads in circles."""
    region = found["regions"][-1] if found["regions"] else one_of(dice, found, "regions")
    content = bytearray.fromhex(region["bytes"])
    code, stack = int(found["start"]["rip"], 16), int(region["address"], 16)
    for _ in range(dice.choice([1, 4, 32])):
        at = dice.randrange(len(content) // 8 + 1) * 8
        word = dice.choice([code, some_word(dice, code), stack + dice.randrange(len(content) + 1), some_word(dice, stack)])
        content[at : at + 8] = (word % 2**64).to_bytes(8, "little")
    region["bytes"] = content.hex()


def damage_limit(dice: random.Random, found: Object) -> None:
    """Changes the most states of a pass."""
    found["limit"] = dice.choice([0, 1, 2, 3, 5, 1000, MOST_STATES, MOST_STATES, MOST_STATES + 1, -1, 2**64, 1e3])


def damage_resumes(dice: random.Random, found: Object) -> None:
    """Changes the resume table: other entries, cleanups that lead back, entries of another form."""
    pairs = [list(pair) for pair in found.get("resumes", [])]
    near = int(dice.choice(pairs)[0], 16) if pairs else int(found["start"]["rip"], 16)
    kind = dice.randrange(5)
    if kind == 0 and pairs:
        pairs.remove(dice.choice(pairs))
    elif kind == 1 and pairs:
        pair = dice.choice(pairs)
        pair[1] = dice.choice(pairs)[0]
    elif kind == 2:
        pairs = [[f"{pad:#x}", f"{pad:#x}"] for pad in range(near - 64, near + 64) if 0 <= pad < 2**64]
    elif kind == 3:
        pairs.append([f"{some_word(dice, near):#x}" for _ in range(dice.choice([0, 1, 3]))])
    else:
        pairs.append([f"{some_word(dice, near):#x}", f"{some_word(dice, near):#x}"])
    found["resumes"] = pairs


STRANGE = [None, True, False, -1, 0, 1.5, 2**64, "", "0x", "0x1", "0xG", "0x" + 17 * "1", " 0x1", "x", [], {}, [[]], [{}]]


def damage_member(dice: random.Random, found: Object) -> None:
    """Puts a value of another form somewhere, drops a member or adds one."""
    place = dice.choice([found, found, found.get("start"), one_of(dice, found, "regions"), one_of(dice, found, "modules")])
    key = dice.choice(sorted(place) or ["limit"])
    kind = dice.randrange(4)
    if kind < 2:
        place[key] = dice.choice(STRANGE)
    elif kind == 2:
        place.pop(key, None)
    else:
        place[dice.choice(["class", "exception", "interrupted", "path", "é", "limit"])] = dice.choice(STRANGE)


VALUE_DAMAGES: list[Damage] = 4 * [damage_table] + 2 * [damage_module, damage_start, damage_stack, damage_resumes]
VALUE_DAMAGES += [damage_region, damage_limit, damage_member]

# ---- damage to a snapshot's text


def damaged_text(dice: random.Random, text: bytes) -> bytes:
    """The text with one damage that knows nothing of its members."""
    kind = dice.randrange(6)
    if kind < 3:
        return damaged_bytes(dice, text)
    at = dice.randrange(len(text) + 1)
    if kind == 3:
        return text[:at]
    if kind == 4:
        deep = dice.choice([1, 120, 126, 127, 128, 5000])
        return b'{"regions":' + b"[" * deep + b"]" * deep + b"," + text.lstrip()[1:]
    more = [b"\xff", b"\xc3\x28", b"\0", b'\\ud800', b'"', b"{", b"}", b"[", b"]", b",", b":", b"1e999", b"-0", b"//", b"\xef\xbb\xbf"]
    return text[:at] + dice.choice(more) + text[at:]


# ---- runs


@dataclass(frozen=True)
class Run:
    """What the program is run on, and with how much memory."""

    name: str
    word: str
    text: bytes
    limit: object
    memory: int


def shipped_texts() -> dict[str, bytes]:
    """The texts of the snapshots that the repository ships, by their names."""
    files = sorted(file for pattern in SHIPPED for file in glob.glob(os.path.join(REPOSITORY, pattern)))
    texts = {}
    for file in files:
        with open(file, "rb") as opened:
            texts[os.path.basename(file)] = opened.read()
    return texts


def run_of(seed: str, number: int, texts: dict[str, bytes]) -> Run:
    """The run with this number. Large snapshots are taken seldom."""
    dice = random.Random(f"{seed} {number}")
    small = [name for name in texts if len(texts[name]) < 10_000]
    name = dice.choice(small if small and dice.randrange(50) else sorted(texts))
    found = json.loads(texts[name])
    for _ in range(dice.choice([0, 1, 1, 1, 2, 3])):
        try:
            dice.choice(VALUE_DAMAGES)(dice, found)
        except (AttributeError, IndexError, KeyError, TypeError, ValueError):
            break  # an earlier damage left another form
    text = json.dumps(found, indent=dice.choice([None, 1])).encode()
    if dice.randrange(5) == 0:
        text = damaged_text(dice, text)
    word = dice.choice(["walk", "deliver"])
    memory = dice.choice(LITTLE_MEMORY) if dice.randrange(40) == 0 else MEMORY
    return Run(name, word, text, found.get("limit"), memory)


def limits(memory: int) -> None:
    """Called in the new process before the program."""
    resource.setrlimit(resource.RLIMIT_CPU, (SECONDS, SECONDS))
    resource.setrlimit(resource.RLIMIT_AS, (memory, memory))
    resource.setrlimit(resource.RLIMIT_CORE, (0, 0))


# ---- what a run may end with

WORD = rb"0x(?:0|[1-9a-f][0-9a-f]{0,15})"
STATE = rb"ra=# sp=# rbx=# rbp=# r12=# r13=# r14=# r15=#"
FRAMES = rb"(?:frame [0-9]+ STATE\n)+"
LANDED = rb"(?:cleanup pad=# sp=#\n)*landing STATE rax=# rdx=#\noutcome installed\n"
ENDED = rb"outcome (?:end of stack|fatal phase 1)\n"
ENDED_INSIDE = rb"(?:cleanup pad=# sp=#\n)*outcome fatal phase 2\n"
FIELDS = rb"object|regions|modules|start|exception|class|resumes|limit|interrupted"
REFUSED = (
    rb"unmapped #|frame limit|pass limit|no resume #|table [A-Z][A-Za-z0-9]+"
    rb"|macho [A-Z][A-Za-z0-9]+(?: [A-Z][A-Za-z0-9]+)?|compact (?:handler|form)|pe (?:info|handler)|chain limit"
)


def pattern(text: bytes) -> re.Pattern[bytes]:
    """A pattern of whole output, in which # is a word."""
    return re.compile(text.replace(b"STATE", STATE).replace(b"#", WORD))


ALLOWED = {
    ("walk", 0): pattern(FRAMES + b"end\n"),
    ("deliver", 0): pattern(FRAMES + b"(?:" + LANDED + b"|" + ENDED + b"|" + ENDED_INSIDE + b")"),
    6: pattern(b"not json\n"),
    7: pattern(b"bad snapshot: (?:" + FIELDS + b")\n"),
    8: pattern(b"refused: (?:" + REFUSED + b")\n"),
    9: pattern(b""),
}

# What stands on the standard error, after a status that leaves no cause on the output.
COMPLAINTS = {9: b"unwind_cli: out of memory\n"}


def fault_of(run: Run, status: int, output: bytes, complaint: bytes) -> str | None:
    """What a run did that it may not do, or None."""
    if status < 0:
        return f"signal {-status}"
    allowed = ALLOWED.get(status) or ALLOWED.get((run.word, status))
    if allowed is None:
        return f"status {status}"
    if not allowed.fullmatch(output):
        return f"output of status {status}: {output[-200:]!r}"
    if complaint != COMPLAINTS.get(status, b""):
        return f"standard error: {complaint[-200:]!r}"
    if status == 0:
        return fault_of_frames(run, output)
    return None


def fault_of_frames(run: Run, output: bytes) -> str | None:
    """What is wrong with a report's frames by themselves: their numbers, how many they are, and where they end."""
    numbers, addresses = [], []
    for line in output.splitlines():
        if line.startswith(b"frame "):
            words = line.split()
            numbers.append(int(words[1]))
            addresses.append(words[2])
    if numbers != list(range(len(numbers))):
        return f"numbers of frames: {numbers[:20]}"
    if isinstance(run.limit, int) and 1 <= run.limit < len(numbers):
        return f"{len(numbers)} frames, where the limit is {run.limit}"
    if b"ra=0x0" in addresses[:-1]:
        return "a frame after the end of the stack"
    return None


@dataclass(frozen=True)
class Told:
    """What one run came to: a word to count it by, and its fault."""

    number: int
    kind: str
    fault: str | None


def try_run(program: str, seed: str, number: int, texts: dict[str, bytes], keep: str | None) -> Told:
    """Runs the program once."""
    run = run_of(seed, number, texts)
    try:
        done = subprocess.run(
            [program, run.word], input=run.text, capture_output=True, timeout=WALL_SECONDS,
            preexec_fn=lambda: limits(run.memory), check=False,
        )
        fault = fault_of(run, done.returncode, done.stdout, done.stderr)
        kind = kind_of(done.returncode, done.stdout)
    except subprocess.TimeoutExpired:
        fault, kind = f"more than {WALL_SECONDS} seconds", "hang"
    if fault and keep:
        with open(os.path.join(keep, f"{seed}-{number}-{run.word}.json"), "wb") as file:
            file.write(run.text)
    return Told(number, kind, fault)


def kind_of(status: int, output: bytes) -> str:
    """By what a run is counted: its status, and its last line without addresses."""
    last = output.splitlines()[-1] if output.strip() else b""
    return f"{status} " + re.sub(rb" 0x[0-9a-f]+", b"", last[:60]).decode(errors="replace")


# ---- the program

settings: tuple[str, str, dict[str, bytes], str | None]


def start_worker(program: str, seed: str, keep: str | None) -> None:
    """Makes a process ready to run."""
    global settings
    settings = (program, seed, shipped_texts(), keep)
    os.nice(19)


def work(number: int) -> Told:
    """One run of a worker."""
    program, seed, texts, keep = settings
    return try_run(program, seed, number, texts, keep)


def told_runs(options: argparse.Namespace) -> Iterator[Told]:
    """All runs, in any order."""
    started = (options.program, options.seed, options.keep)
    with multiprocessing.Pool(options.jobs, start_worker, started) as pool:
        yield from pool.imap_unordered(work, range(options.runs), chunksize=50)


def show_one(options: argparse.Namespace) -> None:
    """Writes the snapshot of one run."""
    run = run_of(options.seed, options.one, shipped_texts())
    print(f"{run.word} on {run.name} damaged, in {run.memory} bytes", file=sys.stderr)
    sys.stdout.buffer.write(run.text)


def main() -> None:
    """Runs the program."""
    words = argparse.ArgumentParser(description="Runs the built program on damaged snapshots.")
    words.add_argument("--program", default=PROGRAM)
    words.add_argument("--runs", type=int, default=5000)
    words.add_argument("--seed", default="0")
    words.add_argument("--jobs", type=int, default=max(1, (os.cpu_count() or 2) // 2))
    words.add_argument("--keep", metavar="DIR")
    words.add_argument("--one", type=int, metavar="NUMBER")
    options = words.parse_args()
    if options.one is not None:
        show_one(options)
        return
    if not os.access(options.program, os.X_OK):
        sys.exit(f"damage.py: {options.program} isn't there; `rt run < stdin` in crates/unwind_cli makes it")
    if options.keep:
        os.makedirs(options.keep, exist_ok=True)
    kinds: collections.Counter[str] = collections.Counter()
    failed = 0
    for told in told_runs(options):
        kinds[told.kind] += 1
        if told.fault:
            failed += 1
            print(f"run {told.number}: {told.fault}", flush=True)
    for kind, count in sorted(kinds.items()):
        print(f"{count:8} {kind}")
    print(f"{sum(kinds.values())} runs, {failed} failed")
    sys.exit(failed > 0)


if __name__ == "__main__":
    main()
