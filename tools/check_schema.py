#!/usr/bin/env python3
"""Checks snapshots against docs/snapshot.schema.json, by default those that the repository ships.

    check_schema.py [FILE]...

Each fault has a line, with the place in the snapshot; the status is 1 where there is one. A member that the schema doesn't
name is a fault here, though `unwind_cli` passes over it: a name that was misspelt changes the answer otherwise. The line has the
nearest name that the schema knows there. A FILE may be a thread's file of `snapshot DIR --threads`, or samples, by what the schema
says of the same members of a snapshot.

It reads those words of JSON Schema (draft 7) that the schema has, and refuses a schema with others. Of the shapes that a module may
have it takes the one with the module's `kind`, so that a line says what is wrong in it.
"""
from __future__ import annotations

import difflib
import glob
import json
import os
import re
import sys
from typing import Any, Iterator

from elf_image import Refused
from snapshot_file import MOST_STATES_OF_A_SAMPLE, Object, read_object, read_snapshot

REPOSITORY = os.path.join(os.path.dirname(os.path.abspath(__file__)), "..")
SCHEMA = os.path.join(REPOSITORY, "docs", "snapshot.schema.json")
# Samples have a file of their own. Core files and claims, which `unwind_cli core`, `check` and `audit` read, are other objects.
SHIPPED = ("examples/pushed_rbx.json", "crates/real_samples/data/*.json")

READ = set(
    "$schema $ref title description definitions type required properties items pattern enum minimum maximum "
    "minItems maxItems oneOf".split()
)
TYPES: dict[str, type | tuple[type, ...]] = {"object": dict, "array": list, "string": str, "integer": int, "boolean": bool}
# How much of a text that is wrong is shown.
SHOWN = 40


def shipped_files() -> list[str]:
    """The snapshots that the repository ships."""
    return sorted(file for pattern in SHIPPED for file in glob.glob(os.path.join(REPOSITORY, pattern)))


def check_words(schema: Object) -> None:
    """Refuses a schema with words that aren't read."""
    unread = set(schema) - READ
    if unread:
        raise Refused(f"the schema has {', '.join(sorted(unread))}, which isn't read")
    for name in ("properties", "definitions"):
        for part in schema.get(name, {}).values():
            check_words(part)
    for part in [*schema.get("oneOf", []), *([schema["items"]] if "items" in schema else [])]:
        check_words(part)


def is_of(value: Any, wanted: str) -> bool:
    """Whether a value has a type. A number with a fraction or an exponent is no integer in a snapshot."""
    return isinstance(value, TYPES[wanted]) and isinstance(value, bool) == (wanted == "boolean")


def shown(value: Any) -> str:
    """The beginning of a value's text."""
    text = json.dumps(value)
    return text if len(text) <= SHOWN else f"{text[:SHOWN]}.."


def bound_faults(number: int, schema: Object, least: str, most: str, what: str) -> Iterator[str]:
    """What is said where a number is too small or too large."""
    if number < schema.get(least, number):
        yield f"{what} {number}, less than {schema[least]}"
    if number > schema.get(most, number):
        yield f"{what} {number}, more than {schema[most]}"


class Checker:
    """A schema, and the faults that a value has by it. A place is the way to a value: `modules.0.eh_frame`."""

    def __init__(self, root: Object) -> None:
        check_words(root)
        self.root = root

    def resolved(self, schema: Object) -> Object:
        """A schema with what it refers to."""
        if "$ref" not in schema:
            return schema
        return self.resolved(self.root["definitions"][schema["$ref"].removeprefix("#/definitions/")])

    def faults(self, value: Any, schema: Object, place: str = "snapshot") -> Iterator[str]:
        """What of a value isn't as a schema says."""
        schema = self.resolved(schema)
        if "properties" not in schema and "oneOf" in schema:
            schema = self.shape_of(value, [self.resolved(shape) for shape in schema["oneOf"]])
        wanted = schema.get("type")
        if wanted and not is_of(value, wanted):
            yield f"{place}: {shown(value)} is no {wanted}"
        elif isinstance(value, dict):
            yield from self.faults_of_object(value, schema, place)
        elif isinstance(value, list):
            yield from bound_faults(len(value), schema, "minItems", "maxItems", f"{place}: the number of items is")
            for index, item in enumerate(value):
                yield from self.faults(item, schema.get("items", {}), f"{place}.{index}")
        else:
            yield from self.faults_of_plain(value, schema, place)

    def faults_of_plain(self, value: Any, schema: Object, place: str) -> Iterator[str]:
        """What of a text, a number or a mark isn't as a schema says."""
        if "pattern" in schema and not re.search(re.sub(r"\$$", r"\\Z", schema["pattern"]), value):
            yield f"{place}: {shown(value)} isn't as {schema['pattern']} says"
        if "enum" in schema and value not in schema["enum"]:
            yield f"{place}: {shown(value)} is none of {', '.join(schema['enum'])}"
        if is_of(value, "integer"):
            yield from bound_faults(value, schema, "minimum", "maximum", f"{place}: it is")

    def shape_of(self, value: Any, shapes: list[Object]) -> Object:
        """Of several shapes the one with the value's kind or, where none has it, one with the members of all."""
        kinds: list[str] = []
        members: Object = {}
        for shape in shapes:
            own = shape["properties"]["kind"]["enum"]
            if isinstance(value, dict) and value.get("kind") in own:
                return shape
            kinds, members = kinds + own, members | shape["properties"]
        return {"type": "object", "required": ["kind"], "properties": members | {"kind": {"enum": kinds}}}

    def faults_of_object(self, value: Object, schema: Object, place: str) -> Iterator[str]:
        """What of an object isn't as a schema says: members that are missing, that exclude each other, or that it doesn't name."""
        known = schema.get("properties", {})
        for name in schema.get("required", []):
            if name not in value:
                yield f"{place}: {name} is missing"
        choices = [choice["required"][0] for choice in schema.get("oneOf", [])]
        if choices and sum(name in value for name in choices) != 1:
            yield f"{place}: it has to have exactly one of {', '.join(choices)}"
        for name, member in value.items():
            if name in known:
                yield from self.faults(member, known[name], name if place == "snapshot" else f"{place}.{name}")
            else:
                yield f"{place}: no member {shown(name)} is known{nearest(name, list(known))}"


def nearest(name: str, known: list[str]) -> str:
    """The known name that is most like another one, in the words of a fault: one of the same letters comes first."""
    def likeness(other: str) -> tuple[bool, float]:
        return sorted(other) == sorted(name), difflib.SequenceMatcher(None, name, other).ratio()

    return f"; the nearest is {max(known, key=likeness)}" if known else ""


def faults_of(found: Object) -> list[str]:
    """What of a snapshot or of samples isn't as the schema says: places and reasons."""
    root = read_object(SCHEMA)
    if isinstance(found, dict) and "samples" in found:
        return list(faults_of_samples(found, root))
    return list(Checker(root).faults(found, root))


def faults_of_samples(found: Object, root: Object) -> Iterator[str]:
    """What of samples isn't as the schema says of snapshots: of what they share, and of each with its number. (`thread` is a
    sample's own, and `exception`, `class` and `resumes` are no sample's.)"""
    checker, properties = Checker(root), root["properties"]
    of_one = {name: properties[name] for name in ("start", "interrupted", "thread")}
    shared = {name: member for name, member in properties.items() if name in ("regions", "modules", "limit", "code")}
    shared["limit"] = properties["limit"] | {"maximum": MOST_STATES_OF_A_SAMPLE}
    shared["samples"] = {"type": "array", "items": {"type": "object", "properties": of_one, "required": ["start"]}}
    required = ["regions", "modules", "samples", "limit"]
    yield from checker.faults(found, {"type": "object", "properties": shared, "required": required})


def main() -> None:
    """Runs the program. The status is 1 where a file isn't as the schema says."""
    files = sys.argv[1:] or shipped_files()
    failed = False
    for file in files:
        try:
            faults = faults_of(read_snapshot(file))
        except (Refused, KeyError) as reason:
            sys.exit(f"check_schema.py: {reason}")
        failed = failed or bool(faults)
        name = os.path.relpath(file)
        print("\n".join(f"{name}: {fault}" for fault in faults) or f"{name}: as the schema says")
    sys.exit(1 if failed else 0)


if __name__ == "__main__":
    main()
