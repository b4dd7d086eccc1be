"""What a snapshot says of an exception for `unwind_cli throw`: by which types the handlers on a stack take it, which
personality routines are C++'s and of which runtime, and whether the exception isn't one of that runtime.

The header of an exception of C++ is laid out by the Itanium C++ ABI, exception handling, level II, section 2.2.1; one that
`std::rethrow_exception` throws has a header of its own, and libstdc++'s leads to the first one. Which types are asked for
stands in the language tables of the functions on the stack.
"""
from __future__ import annotations

from typing import Callable, NamedTuple

from elf_image import Range, Refused
from frame_table import Table, described_at, personality_routines
from language_sites import NamedTypes, Read, types_of
from type_info import Types

# The classes of C++'s exceptions: GNUCC++ and CLNGC++ with 0 or, of those that are thrown again so, 1.
OF_LIBSTDCXX, OF_LIBCXX, AGAIN = 0x474E5543432B2B00, 0x434C4E47432B2B00, 1
# How far before the word by which unwinders know an exception its type is, or the exception that it repeats; and how far
# before a thrown object.
TYPE_BEFORE_WORD, TYPE_BEFORE_OBJECT = 80, 112
# By this type libstdc++ lets handlers name every exception of another language.
FOREIGN_TYPE = "N10__cxxabiv119__foreign_exceptionE"
# The routine that reads the language tables of C++.
PERSONALITY = "__gxx_personality_v0"
# The runtimes, by the names that snapshots have of them, and the classes of their own exceptions.
LIBSTDCXX, LIBCXXABI = "libstdc++", "libc++abi"
CLASS_OF = {LIBSTDCXX: OF_LIBSTDCXX, LIBCXXABI: OF_LIBCXX}
# How the files of their libraries begin; some builds of libc++ have libc++abi within.
LIBRARIES = {"libstdc++": LIBSTDCXX, "libc++": LIBCXXABI}
# A variable that libc++abi has and libstdc++ hasn't: it tells them apart in a program that has its runtime within.
ONLY_OF_LIBCXXABI = "__cxa_terminate_handler"


class LoadedTables(NamedTuple):
    """The frame table of a module, and its language tables."""

    frames: Table
    languages: list[Table]


class Names(NamedTuple):
    """What a process calls its addresses, as `info symbol` of gdb writes it, and whether it has a symbol."""

    of: Callable[[int], str]
    has: Callable[[str], bool]


class Thrown(NamedTuple):
    """What a snapshot says, and the memory that it asks for."""

    types: list[int]
    personalities: list[int]
    is_foreign: bool
    runtime: str
    cells: list[Range]


def library_runtime(name: str) -> str | None:
    """The runtime in whose library a routine is, by what its address is called; None where it is in none."""
    library = name.strip().rpartition(" of ")[2].rpartition("/")[2]
    return next((runtime for head, runtime in LIBRARIES.items() if library.startswith(head)), None)


def runtime_of(kind: int, routines: list[str], has_symbol: Callable[[str], bool]) -> str:
    """The runtime whose personality reads the tables of C++: by the library that its routines are in, else by the class of the
    exception, which is the runtime's own, and else by the symbols of the process."""
    found = {library_runtime(name) for name in routines} - {None}
    if len(found) == 1:
        return str(found.pop())
    if found:
        print(f"  the functions' personalities are of several runtimes: {', '.join(sorted(map(str, found)))}")
    own = [runtime for runtime, of_it in CLASS_OF.items() if of_it == kind & ~AGAIN]
    return own[0] if own else LIBCXXABI if has_symbol(ONLY_OF_LIBCXXABI) else LIBSTDCXX


def is_foreign(kind: int, runtime: str) -> bool:
    """Whether an exception of a class isn't one of a runtime."""
    return kind & ~AGAIN != CLASS_OF[runtime]


def thrown_type(word: int, kind: int, read: Read) -> int:
    """The type description of an exception of C++."""
    first = int.from_bytes(read(word - TYPE_BEFORE_WORD, 8), "little")
    return int.from_bytes(read(first - TYPE_BEFORE_OBJECT, 8), "little") if kind == OF_LIBSTDCXX | AGAIN else first


def part_from(tables: list[Table], address: int) -> Table | None:
    """A language table with what follows it in its section."""
    for table in tables:
        if table.address <= address < table.address + len(table.content):
            return Table(address, table.content[address - table.address :])
    return None


def types_asked(tables: list[LoadedTables], calls: set[int], read: Read) -> NamedTypes:
    """The types that the functions at these addresses name. A table that can't be read names none."""
    found = NamedTypes(set(), set())
    for loaded in tables:
        for described in described_at(loaded.frames, calls):
            part = part_from(loaded.languages, described.language_table or 0)
            if part is None:
                continue
            try:
                named = types_of(part, described.covers.start, read)
            except (IndexError, Refused) as error:
                print(f"  without the types of the language table {part.address:#x}: {error}")
                continue
            found.types.update(named.types)
            found.cells.update(named.cells)
    return found


def taken_types(word: int, kind: int, runtime: str, asked: set[int], read: Read) -> list[int]:
    """The type descriptions by which an exception is taken: its own, those of its bases, and all that are asked for."""
    types = Types(read, by_text=runtime != LIBCXXABI)
    if is_foreign(kind, runtime):
        return sorted(type for type in asked if types.name(type) == FOREIGN_TYPE)
    thrown = thrown_type(word, kind, read)
    return list(dict.fromkeys([*types.own(thrown), *sorted(type for type in asked if types.takes(type, thrown))]))


def thrown_of(
    word: int, kind: int, tables: list[LoadedTables], calls: set[int], read: Read, names: Names
) -> Thrown:
    """What a snapshot says of an exception that is thrown within calls at these addresses."""
    asked = types_asked(tables, calls, read)
    routines = {routine for loaded in tables for routine in personality_routines(loaded.frames, read)}
    named = {routine: name for routine in sorted(routines) if (name := names.of(routine)).startswith(PERSONALITY)}
    runtime = runtime_of(kind, list(named.values()), names.has)
    types = taken_types(word, kind, runtime, asked.types, read)
    return Thrown(types, list(named), is_foreign(kind, runtime), runtime, sorted(asked.cells))
