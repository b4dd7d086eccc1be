#!/usr/bin/env python3
"""Damages lists of claims at random, and says whether the built program says of each what docs/FORMATS.md has of it.

    damaged_claims.py FILE CLAIMS [--runs N] [--seed WORD] [--unwind-cli PROGRAM]

CLAIMS is an object of claims (claimed_facts.py, cut_claims.py) on code of FILE. In each of N runs (400) its list is damaged: a
byte of its text gets another value, is left out or put in, or the text ends early; two claims change places, one comes twice,
an end of a range is moved, or a member gets a value of another form or is gone. The seed says which. What the program has to
write is said by a reader of its own: that the text is no JSON; the place of the first item that says no claim; of the first
range that is empty, out of order or overlaps; and else all the lines, by the rows that `readelf` prints (expected_audit.py).

A line of a table is printed; a line for each run in which the two don't agree, and the status is then 1. It wants `readelf`
(Debian: binutils).
"""
from __future__ import annotations

import argparse
import copy
import json
import os
import random
import re
import sys
from collections import Counter
from typing import Any, Iterator

from elf_image import Refused
from expected_audit import report
from known_frame import CALLEE_SAVED
from programs import Done, built_path, run_program
from snapshot_file import Object

WORD = re.compile(r"0x[0-9a-fA-F]{1,16}")
LIST = b'"claims":['

# Values of members that say nothing, or something else than they should.
STRANGE = [None, True, False, 7, -1, 0.5, 1 << 64, "", "0x", "7", "0xg", "0x" + 17 * "1", [], {}, ["rbx"], {"rbx": 5}, "rbx"]
MEMBERS = ("from", "to", "rsp", "rbp", "saved", "kept", "outermost")

# What comes of a run, by the line that the program has to write, in the table's order.
KINDS = {
    "no JSON": r"not json", "no list": r"bad snapshot: (?:object|claims)", "no claim": r"bad snapshot: claim \d+",
    "empty": r"refused: claim \d+ empty", "out of order": r"refused: claim \d+ out of order",
    "overlaps": r"refused: claim \d+ overlaps", "read": r"differ 0x.*|claims \d+",
}
HEAD = f"| Claims | Runs | {' | '.join(KINDS)} | not as due |\n{'|---' * (len(KINDS) + 3)}|"


class Faulty(Exception):
    """A value doesn't say what it should."""


# ---- what is expected


def word_of(value: Any) -> str:
    """A word, spelled as Python does."""
    if not isinstance(value, str) or not WORD.fullmatch(value):
        raise Faulty
    return hex(int(value, 16))


def claim_of(value: Any) -> Object:
    """What an item of the list claims."""
    if not isinstance(value, dict) or not {"from", "to"} <= value.keys():
        raise Faulty
    found: Object = {name: word_of(value[name]) for name in ("from", "to", "rsp", "rbp") if name in value}
    saved, kept, outermost = value.get("saved", {}), value.get("kept", []), value.get("outermost", False)
    if not isinstance(kept, list) or not isinstance(outermost, bool):
        raise Faulty
    slots = saved if isinstance(saved, dict) else {}
    found["saved"] = {name: word_of(slots[name]) for name in CALLEE_SAVED if name in slots}
    return found | {"kept": [name for name in CALLEE_SAVED if name in kept], "outermost": outermost}


def are_whole(value: Any) -> bool:
    """Whether each number in a value is an integer of 64 bits."""
    if isinstance(value, (list, dict)):
        return all(map(are_whole, value.values() if isinstance(value, dict) else value))
    is_number = isinstance(value, (int, float)) and not isinstance(value, bool)
    return not is_number or isinstance(value, int) and -(1 << 63) <= value < 1 << 64


def disorder_of(claims: list[Object]) -> str | None:
    """The first range that is empty or begins below the end of the one before."""
    before, last = 0, 0
    for number, claim in enumerate(claims):
        start, end = int(claim["from"], 16), int(claim["to"], 16)
        if end <= start:
            return f"claim {number} empty"
        if start < last:
            return f"claim {number} {'out of order' if start < before else 'overlaps'}"
        before, last = start, end
    return None


def no_number(word: str) -> None:
    """Refuses a word that Python takes for a number, and JSON doesn't."""
    raise ValueError(word)


def lines_of(path: str, items: list[Any]) -> Iterator[str]:
    """What is written of a list."""
    claims = []
    for number, item in enumerate(items):
        try:
            claims.append(claim_of(item))
        except Faulty:
            return iter([f"bad snapshot: claim {number}"])
    disorder = disorder_of(claims)
    return report(path, claims) if disorder is None else iter([f"refused: {disorder}"])


def expected(path: str, text: bytes) -> str:
    """What is written of a text whose regions and modules are whole."""
    try:
        value = json.loads(text.decode(), parse_constant=no_number)
    except ValueError:
        return "not json\n"
    if not isinstance(value, dict) or not are_whole(value):
        return "bad snapshot: object\n"
    if not isinstance(value.get("claims"), list):
        return "bad snapshot: claims\n"
    return "".join(f"{line}\n" for line in lines_of(path, value["claims"]))


# ---- damage


def text_of(value: Object) -> bytes:
    """A value's text, without blanks."""
    return json.dumps(value, separators=(",", ":")).encode()


def damaged_text(dice: random.Random, text: bytes) -> bytes:
    """A text with a damage of its list that knows nothing of claims."""
    at, kind = dice.randrange(text.index(LIST) + len(LIST), len(text)), dice.randrange(5)
    if kind == 0:
        return text[:at] + bytes([dice.choice([value for value in range(256) if value != text[at]])]) + text[at + 1 :]
    if kind == 1:
        return text[:at] + bytes([text[at] ^ 1 << dice.randrange(8)]) + text[at + 1 :]
    if kind == 2:
        return text[:at] + text[at + 1 :]
    if kind == 3:
        return text[:at] + bytes([dice.choice([*b'0123456789abcdefx"{}[],: ', dice.randrange(256)])]) + text[at:]
    return text[:at]


def damage_order(dice: random.Random, claims: list[Any]) -> None:
    """Changes the places or the ranges of claims."""
    place, kind = dice.randrange(len(claims)), dice.randrange(4)
    if kind == 0:
        other = dice.randrange(len(claims))
        claims[place], claims[other] = claims[other], claims[place]
    elif kind == 1:
        claims.insert(dice.randrange(len(claims)), claims[place])
    else:
        name = dice.choice(["from", "to"])
        by = dice.choice([-4096, -16, -3, -2, -1, 1, 2, 3, 16, 4096, 1 << 63])
        claims[place][name] = hex((int(claims[place][name], 16) + by) % (1 << 64))


def damage_member(dice: random.Random, claims: list[Any]) -> None:
    """Gives a claim, or a member of it, another form."""
    place, kind = dice.randrange(len(claims)), dice.randrange(3)
    if kind == 0:
        claims[place] = dice.choice(STRANGE)
    elif kind == 1:
        claims[place][dice.choice(MEMBERS)] = dice.choice(STRANGE)
    else:
        del claims[place][dice.choice(sorted(claims[place]))]


def damaged(dice: random.Random, value: Object, text: bytes) -> bytes:
    """The text of an object with one damage of its list."""
    if dice.randrange(2):
        return damaged_text(dice, text)
    found = copy.deepcopy(value)
    dice.choice([damage_order, damage_member])(dice, found["claims"])
    return text_of(found)


# ---- runs


def status_of(text: str) -> int:
    """The status with which the program ends that writes a text."""
    return next((status for start, status in (("not json", 6), ("bad ", 7), ("refused: ", 8)) if text.startswith(start)), 0)


def kind_of(text: str) -> str:
    """What comes of a run by its first line."""
    first = text.partition("\n")[0]
    return next(kind for kind, form in KINDS.items() if re.fullmatch(form, first))


def tried(program: str, path: str, texts: Iterator[bytes]) -> tuple[Counter[str], list[tuple[int, str, Done]]]:
    """How many of the texts come to what, and of each of which the program says something else its number, what was expected,
    and what the program did."""
    counts, disagreeing = Counter[str](), []
    for number, text in enumerate(texts):
        said, done = expected(path, text), run_program([program, "audit"], text)
        counts[kind_of(said)] += 1
        if done != Done(status_of(said), said.encode(), b""):
            disagreeing.append((number, said, done))
    return counts, disagreeing


def main() -> None:
    """Reads the words of the command line."""
    parser = argparse.ArgumentParser(description="what the program says of damaged claims")
    parser.add_argument("file", metavar="FILE")
    parser.add_argument("claims", metavar="CLAIMS")
    parser.add_argument("--runs", type=int, default=400, metavar="N", help="how often claims are damaged (400)")
    parser.add_argument("--seed", default="claims", metavar="WORD")
    parser.add_argument("--unwind-cli", metavar="PROGRAM", default=built_path("unwind_cli"), help="the built program")
    words = parser.parse_args()
    name = os.path.basename(words.claims)
    try:
        with open(words.claims, encoding="utf-8") as stream:
            value = json.load(stream)
        dice, text = random.Random(f"{words.seed} {name}"), text_of(value)
        texts = (damaged(dice, value, text) for _ in range(words.runs))
        counts, disagreeing = tried(words.unwind_cli, words.file, texts)
    except (Refused, OSError) as fault:
        sys.exit(f"{words.claims}: {fault}")
    print(HEAD)
    print(f"| {name} | {words.runs} | " + " | ".join(str(counts[kind]) for kind in KINDS) + f" | {len(disagreeing)} |")
    for number, said, done in disagreeing:
        due = said.partition("\n")[0]
        print(f"  run {number}: {due!r} is due, and the status {done.status} came with {done.output[:200]!r}")
    sys.exit(bool(disagreeing))


if __name__ == "__main__":
    main()
