"""The files that the tools write and read: snapshots, and the two halves that a snapshot of all threads has.

A snapshot is as docs/FORMATS.md says. `snapshot DIR --threads` writes `tables.json`, with the regions
and modules that all threads have, and for each thread a small file that refers to it.
"""
from __future__ import annotations

import functools
import json
import os
from typing import Any, Callable, Iterable, NamedTuple

from elf_image import Range, Refused

# What `unwind_cli` takes: so many states, so many bytes of text, and of samples so many states each.
MOST_STATES = 1_048_576
MOST_BYTES = 67_108_864
MOST_STATES_OF_A_SAMPLE = 1_024

TABLES = "tables.json"

Object = dict[str, Any]


class Region(NamedTuple):
    """A piece of memory."""

    start: int
    content: bytes

    @property
    def end(self) -> int:
        """The address after it."""
        return self.start + len(self.content)


def without_overlaps(places: Iterable[Range]) -> list[Range]:
    """The places by address, joined where they share an address. A table ends where its region
    ends, so those that only touch stay apart."""
    found: list[Range] = []
    for place in sorted(places):
        if found and place.start < found[-1].end:
            found[-1] = Range(found[-1].start, max(found[-1].end, place.end))
        else:
            found.append(place)
    return found


def region_object(region: Region) -> Object:
    """A region as a snapshot spells it."""
    return {"address": f"{region.start:#x}", "bytes": region.content.hex()}


def regions_of(found: Object) -> list[Region]:
    """The regions of a snapshot."""
    return [Region(int(region["address"], 16), bytes.fromhex(region["bytes"])) for region in found["regions"]]


def joined_regions(regions: Iterable[Region]) -> list[Region]:
    """The regions by address, joined where they share an address."""
    found: list[Region] = []
    for region in sorted(regions, key=lambda region: (region.start, -region.end)):
        if not found or region.start >= found[-1].end:
            found.append(region)
        elif region.end > found[-1].end:
            last = found[-1]
            found[-1] = Region(last.start, last.content + region.content[last.end - region.start :])
    return found


REGION_TEXT = '  {{\n   "address": "{address}",\n   "bytes": "{bytes}"\n  }}'


def text_of(found: Object, most: int | None = MOST_BYTES, advice: str = "name fewer modules") -> str:
    """A snapshot's text, as `json` writes it with an indent of 1. Refuses one that is longer than
    is taken, with advice: by `unwind_cli` so many bytes, and by `profile`, of its tables, any number.
    Its digits, which need no escapes, are put in apart: the process waits."""
    text = json.dumps(found | {"regions": []}, indent=1) + "\n"
    if found["regions"]:
        regions = ",\n".join(REGION_TEXT.format(**region) for region in found["regions"])
        text = text.replace('"regions": []', f'"regions": [\n{regions}\n ]', 1)
    if most is not None and len(text) > most:
        raise Refused(f"the snapshot would have {len(text)} bytes, and {most} are taken; {advice}")
    return text


# ---- reading


def read_object(file: str) -> Object:
    """A file's JSON object."""
    try:
        with open(file, encoding="utf-8") as stream:
            found = json.load(stream)
    except OSError as error:
        raise Refused(f"{file} can't be read: {error.strerror}")
    except ValueError as error:
        raise Refused(f"{file} is no JSON text: {error}")
    if not isinstance(found, dict):
        raise Refused(f"{file} holds no snapshot")
    return found


def read_snapshot(file: str) -> Object:
    """A snapshot, or what a thread's file and the tables that it refers to make together."""
    found = read_object(file)
    if "tables" not in found:
        return found
    tables = read_object(os.path.join(os.path.dirname(file), found["tables"]))
    return joined_snapshot(tables, found)


def joined_snapshot(tables: Object, thread: Object) -> Object:
    """The snapshot of one thread."""
    regions = joined_regions(regions_of(tables) + regions_of(thread))
    return {
        "regions": [region_object(region) for region in regions],
        "modules": tables["modules"],
        "start": thread["start"],
        "limit": tables["limit"],
        "interrupted": thread["interrupted"],
        "thread": thread["thread"],
    } | code_of(tables)


def code_of(tables: Object) -> Object:
    """What tables say of code of which no module has a table, where they say it."""
    return {"code": tables["code"]} if "code" in tables else {}


def joined_samples(tables: Object, threads: list[Object]) -> Object:
    """All threads as samples over one memory."""
    regions = regions_of(tables)
    for thread in threads:
        regions += regions_of(thread)
    return {
        "regions": [region_object(region) for region in joined_regions(regions)],
        "modules": tables["modules"],
        "samples": [{key: thread[key] for key in ("start", "interrupted", "thread")} for thread in threads],
        "limit": min(tables["limit"], MOST_STATES_OF_A_SAMPLE),
    }


# ---- writing


def place_whole(target: str, make: Callable[[str], None]) -> None:
    """Makes something beside its place, and then renames it, so that no half of it is ever there."""
    import shutil  # both take long to load, and who reads has no need of them
    import tempfile

    folder = tempfile.mkdtemp(dir=os.path.dirname(target), prefix=".snapshot-")
    try:
        part = os.path.join(folder, "part")
        make(part)
        os.replace(part, target)
    finally:
        shutil.rmtree(folder, ignore_errors=True)


def write_private(text: str, file: str) -> None:
    """Writes a new file that only its owner may read."""
    with open(os.open(file, os.O_WRONLY | os.O_CREAT | os.O_EXCL, 0o600), "w", encoding="ascii") as stream:
        stream.write(text)


def write_whole(file: str, text: str) -> None:
    """Writes an ordinary file, or leaves what was there."""
    file = os.path.realpath(file)
    if os.path.exists(file) and not os.path.isfile(file):
        raise Refused(f"{file} can't be written: it is no ordinary file")
    try:
        place_whole(file, functools.partial(write_private, text))
    except OSError as error:
        raise Refused(f"{file} can't be written: {error.strerror}")


def make_folder(texts: dict[str, str], folder: str) -> None:
    """Makes a new folder with files that only its owner may read."""
    os.mkdir(folder, 0o700)
    for name, text in texts.items():
        write_private(text, os.path.join(folder, name))


def write_folder(folder: str, texts: dict[str, str]) -> None:
    """Writes a folder with files, or leaves what was there: it may be there only if it is empty."""
    folder = os.path.realpath(folder)
    if os.path.exists(folder) and (not os.path.isdir(folder) or os.listdir(folder)):
        raise Refused(f"{folder} can't be written: it is no empty folder")
    try:
        place_whole(folder, functools.partial(make_folder, texts))
    except OSError as error:
        raise Refused(f"{folder} can't be written: {error.strerror}")
