"""Names of addresses: the functions, files and lines that they stand in, by the symbols and the debug information of files.

    names_of(addresses, modules)      of each address of a process its functions, the innermost first

A module says where a file is loaded. Its file is asked once for all addresses in it, by `llvm-symbolizer` in one run for
all files or, where there is none, by `addr2line` (Debian: llvm, binutils), with debug information that lies apart in
/usr/lib/debug. Where neither is there, or a file has no debug information, the names are those of its symbols, without
lines. A file whose build id isn't the module's isn't asked. What the system maps into each process is read from this
process, where it is the same.
"""
from __future__ import annotations

import bisect
import functools
import io
import os
import re
import struct
from typing import Iterable, Iterator, NamedTuple, Sequence

from elf_image import WORD, ElfImage, Function, Range, Refused
from plain_names import plain_name
from programs import run_program, which

DEBUG_FOLDER = "/usr/lib/debug/.build-id"

# How a snapshot spells the file that the system maps, and by which number a process finds it (getauxval(3)).
SUPPLIED = "[vdso]"
ADDRESS_OF_SUPPLIED = 33

# Debian has `llvm-symbolizer` in the package llvm, and in llvm-14 `llvm-symbolizer-14` alone.
NEWEST_LLVM, OLDEST_LLVM = 30, 11


class Place(NamedTuple):
    """A function and, where debug information says them, a file and its line."""

    function: str
    line: str | None = None


class Module(NamedTuple):
    """A part of a file that is loaded: what is added to the file's addresses, and the part's addresses."""

    path: str
    bias: int
    start: int
    end: int
    build_id: str | None


class Symbols:
    """What is known of a file's addresses: places of debug information, all functions by address, and the names of the
    functions that hold addresses without lines."""

    def __init__(self, places: dict[int, list[Place]] | None = None, functions: list[Function] | None = None) -> None:
        self.places = places or {}
        self.functions = functions or []
        self.named: dict[int, str] = {}


class Question(NamedTuple):
    """A file, and the addresses in it that are asked for."""

    file: str
    addresses: list[int]


# ---- programs


def program_on_path(name: str) -> str | None:
    """A program of LLVM, by its plain name or by that of a version."""
    versions = (f"{name}-{version}" for version in range(NEWEST_LLVM, OLDEST_LLVM - 1, -1))
    return next((found for found in map(which, (name, *versions)) if found), None)


def printed_by(words: Sequence[str], text: str) -> str:
    """What a program prints of a text. One that fails prints nothing."""
    try:
        done = run_program(words, text.encode("utf-8", "surrogateescape"))
    except OSError:
        return ""
    return done.output.decode("utf-8", "surrogateescape") if done.status == 0 else ""


MANGLED = re.compile(r"\b_[ZR]|::h[0-9a-f]{16}\b")


@functools.lru_cache(maxsize=4096)
def demangled(text: str) -> str:
    """A text with its symbols as their languages write them. (llvm-symbolizer 14 doesn't know Rust's.)"""
    if not MANGLED.search(text):
        return text
    program = which("c++filt") or program_on_path("llvm-cxxfilt")
    return (printed_by([program], text) if program else "") or text


def has_symbolizer() -> bool:
    """Whether there is a program that reads debug information."""
    return program_on_path("llvm-symbolizer") is not None or which("addr2line") is not None


def answers_of(questions: list[Question]) -> list[dict[int, list[Place]]]:
    """The places of each question's addresses, those that debug information has."""
    output = output_of_llvm(questions) or "".join(map(output_of_addr2line, questions))
    return [places_of(text) for text in split_by_questions(demangled(output), questions)]


def output_of_llvm(questions: list[Question]) -> str:
    """What `llvm-symbolizer` prints of all questions, in one run."""
    program = program_on_path("llvm-symbolizer")
    quoted = [(f"'{question.file}'" if '"' in question.file else f'"{question.file}"', question) for question in questions]
    lines = [f"{file} {address:#x}\n" for file, question in quoted for address in question.addresses]
    style = ["--output-style=GNU", "--relativenames", "--no-demangle", "-a", "-f", "-i"]
    return printed_by([program, *style], "".join(lines)) if program else ""


def output_of_addr2line(question: Question) -> str:
    """What `addr2line` prints of a question."""
    program = which("addr2line")
    lines = [f"{address:#x}\n" for address in question.addresses]
    return printed_by([program, "-a", "-f", "-i", "-e", question.file], "".join(lines)) if program else ""


def split_by_questions(output: str, questions: list[Question]) -> Iterator[str]:
    """A symbolizer's lines by the questions. Each address that was asked has its line, in their order."""
    lines = output.splitlines(keepends=True)
    starts = [index for index, line in enumerate(lines) if ADDRESS_LINE.match(line)] + [len(lines)]
    answered = 0
    for question in questions:
        following = min(answered + len(question.addresses), len(starts) - 1)
        yield "".join(lines[starts[answered] : starts[following]])
        answered = following


ADDRESS_LINE = re.compile(r"0x[0-9a-f]+$")


def places_of(output: str) -> dict[int, list[Place]]:
    """The places that a symbolizer prints of each address, the innermost function first.

    An address's line is followed by two for each function: its name, and its file and line.
    """
    found: dict[int, list[Place]] = {}
    here: list[Place] = []
    function = None
    for line in output.splitlines():
        if function is None and ADDRESS_LINE.match(line):
            here = found.setdefault(int(line, 16), [])
        elif function is None:
            function = line
        else:
            here.append(Place(plain_name(function), known_line(line)))
            function = None
    return found


def known_line(text: str) -> str | None:
    """A file and its line, or nothing where one of them isn't known."""
    text = re.sub(r" \(discriminator \d+\)$", "", text)
    return text if re.fullmatch(r"(?!\?\?).+:[1-9]\d*", text) else None


# ---- files


def functions_of(path: str) -> list[Function]:
    """The functions that a file's symbols name."""
    try:
        with open(path, "rb") as stream:
            return ElfImage(stream).functions()
    except (OSError, Refused, IndexError, struct.error):
        return []


def has_build_id(path: str, build_id: str | None) -> bool:
    """Whether a file is there, and is the one that was loaded as far as it can be known."""
    try:
        with open(path, "rb") as stream:
            return ElfImage(stream).build_id() == build_id
    except (OSError, Refused, IndexError, struct.error):
        return False


def found_file(name: str) -> str:
    """A program's file: gdb finds one without a folder on the PATH too."""
    return name if "/" in name or os.path.exists(name) else which(name) or name


def supplied_image() -> bytes:
    """What the system has mapped into this process."""
    with open("/proc/self/auxv", "rb") as stream:
        known = dict(struct.iter_unpack("<QQ", stream.read()))
    start = known.get(ADDRESS_OF_SUPPLIED, 0)
    with open("/proc/self/maps", encoding="utf-8", errors="replace") as stream:
        end = next(int(line.split()[0].split("-")[1], 16) for line in stream if line.startswith(f"{start:x}-"))
    with open("/proc/self/mem", "rb") as stream:
        stream.seek(start)
        return stream.read(end - start)


def supplied_functions(module: Module) -> list[Function]:
    """The functions of what the system maps, where this process has the same: by the build id and the code's addresses."""
    try:
        image = ElfImage(io.BytesIO(supplied_image()))
        code = Range((module.start - module.bias) % WORD, (module.end - module.bias) % WORD)
        return image.functions() if image.build_id() == module.build_id and code in image.code_ranges(0) else []
    except (OSError, Refused, IndexError, StopIteration, struct.error):
        return []


def function_at(functions: list[Function], address: int) -> str | None:
    """The name of the function that holds an address. One of unknown size holds those up to the next."""
    index = bisect.bisect_right(functions, address, key=lambda function: function.start) - 1
    for function in reversed(functions[max(index - 8, 0) : index + 1]):
        if address < function.end or function.start == function.end == functions[index].start:
            return function.name
    return None


def has_lines(symbols: Symbols, address: int) -> bool:
    """Whether debug information says where an address is."""
    places = symbols.places.get(address, [])
    return bool(places) and all(place.line is not None for place in places)


def all_functions(file: str, build_id: str | None) -> list[Function]:
    """The functions of a file, by the symbols that lie apart or its own."""
    apart = f"{DEBUG_FOLDER}/{build_id[:2]}/{build_id[2:]}.debug" if build_id else ""
    return functions_of(apart) or functions_of(file)


# ---- modules


def module_at(modules: list[Module], address: int) -> Module | None:
    """The module that holds an address."""
    return next((module for module in modules if module.start <= address < module.end), None)


def asked_addresses(addresses: Iterable[int], modules: list[Module]) -> dict[tuple[str, str | None], set[int]]:
    """The addresses in each file, by its path and build id, as the file counts them."""
    found: dict[tuple[str, str | None], set[int]] = {}
    for address in set(addresses):
        module = module_at(modules, address)
        if module is not None:
            found.setdefault((module.path, module.build_id), set()).add((address - module.bias) % WORD)
    return found


def file_of(path: str, build_id: str | None, files: Sequence[str]) -> str | None:
    """The file that is asked for a module: its own or, where that is gone, one with its build id."""
    others = map(found_file, files) if build_id else ()
    return next((file for file in (path, *others) if "\n" not in file and has_build_id(file, build_id)), None)


def symbols_at(addresses: Iterable[int], modules: list[Module], files: Sequence[str] = ()) -> dict[str, Symbols]:
    """What is known of addresses of a process, by the paths of modules. Each file is asked once. `files` are asked in place
    of those that are gone."""
    asked = asked_addresses(addresses, modules)
    found = {path: Symbols() for path, _ in asked}
    kept = {key: file for key in asked if (file := file_of(*key, files)) is not None}
    questions = [Question(file, sorted(asked[key])) for key, file in kept.items()]
    for (path, _), places in zip(kept, answers_of(questions) if questions else []):
        found[path].places = places
    for (path, build_id), here in asked.items():
        symbols = found[path]
        if all(has_lines(symbols, address) for address in here):
            continue
        if path == SUPPLIED:
            symbols.functions = supplied_functions(next(module for module in modules if module.path == SUPPLIED))
        elif (path, build_id) in kept:
            symbols.functions = all_functions(kept[path, build_id], build_id)
        name_without_lines(symbols, here)
    return found


def name_without_lines(symbols: Symbols, addresses: set[int]) -> None:
    """Notes the functions of addresses without lines, by the file's symbols or, where it has none, by debug information."""
    known = {address: function_at(symbols.functions, address) for address in addresses if not has_lines(symbols, address)}
    found = [(address, name) for address, name in known.items() if name is not None]
    names = demangled("\n".join(name for _, name in found)).split("\n")
    symbols.named = {address: plain_name(name.strip()) for (address, _), name in zip(found, names)}
    for address in known.keys() - symbols.named.keys():
        places = [place.function for place in symbols.places.get(address, []) if place.function != "??"]
        if places:
            symbols.named[address] = places[-1]


def known_places(symbols: Symbols, address: int) -> list[Place]:
    """The functions at an address of a file, the innermost first: several where debug information has lines, else one or none."""
    if has_lines(symbols, address):
        return symbols.places[address]
    return [Place(symbols.named[address])] if address in symbols.named else []


def names_of(addresses: Iterable[int], modules: list[Module], files: Sequence[str] = ()) -> dict[int, list[Place]]:
    """The functions at addresses of a process, of each the innermost first; none where nothing is known of it.

    An address that a call returns to is asked by the byte before it. All are asked in one run of the symbolizer, so a
    caller with many stacks asks once for all of them.
    """
    wanted = sorted(set(addresses))
    symbols, found = symbols_at(wanted, modules, files), {}
    for address in wanted:
        module = module_at(modules, address)
        found[address] = [] if module is None else known_places(symbols[module.path], (address - module.bias) % WORD)
    return found
