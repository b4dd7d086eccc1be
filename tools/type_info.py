"""Which handlers of C++ take an exception, by the type descriptions in a process's memory.

How a description lies in memory, and of which class it is: Itanium C++ ABI, section 2.9.5. Which handlers match: the
standard of C++, [except.handle]. A handler of a class takes that class and those of which it is a public base that is there
once; a handler of a pointer takes pointers that convert to its type, and null pointers without a type. (libc++abi takes
null pointers by other bases.) Nothing but the descriptions is asked: the class of one is named by the description that its
own table of functions leads to.
"""
from __future__ import annotations

from typing import Callable, Iterator, NamedTuple

# So many bytes of a process's memory from an address on.
Read = Callable[[int, int], bytes]

# The parts of a description after its table of functions and its name.
NAME, FIRST, COUNT, SECOND, CONTEXT = 8, 16, 20, 24, 32
BASE_SIZE, VIRTUAL, PUBLIC = 16, 1, 2
# What a pointer's description says of what it points to: const, volatile and restrict; and of functions, that they don't
# throw, and are safe in transactions.
CONST, QUALIFIERS, OF_FUNCTIONS = 1, 0b111, 0b1100000
# A name with this first is that of a type which other modules may name alike.
OF_ONE_MODULE = "*"
LONGEST_NAME = 1 << 16
# Names are read in pieces that no page ends within.
PIECE = 64

SINGLE, SEVERAL = "__si_class_type_info", "__vmi_class_type_info"
POINTER, MEMBER = "__pointer_type_info", "__pointer_to_member_type_info"
CLASSES, POINTERS, FUNCTION = ("__class_type_info", SINGLE, SEVERAL), (POINTER, MEMBER), "__function_type_info"
VOID, NULL_POINTER, NAMESPACE = "v", "Dn", "N10__cxxabiv1"
# The failures that streams of libstdc++ throw are also taken by that class as programs had it before C++11.
KIND_OF_FAILURE, OLD_FAILURE = "St19__iosfail_type_info", "NSt8ios_base7failureE"


# Which part of an object: the numbers of the bases on the way to it, after the last virtual one.
Place = tuple[str | int, ...]


class Base(NamedTuple):
    """A base of a class: the address of its description, and how it is inherited."""

    type: int
    is_virtual: bool
    is_public: bool


class Types:
    """The type descriptions in a memory. With `by_text` two of the same name are of one type, as libstdc++ has it; else those
    of one name in memory are, as libc++ has it."""

    def __init__(self, read: Read, by_text: bool = True) -> None:
        """Reads where it is asked."""
        self.read = read
        self.by_text = by_text

    def number(self, address: int, size: int = 8) -> int:
        """A number of the memory."""
        return int.from_bytes(self.read(address, size), "little")

    def text(self, address: int) -> str:
        """The text from an address up to a zero byte."""
        found = b""
        while b"\0" not in found and len(found) < LONGEST_NAME:
            found += self.read(address + len(found), PIECE - (address + len(found)) % PIECE)
        return found.partition(b"\0")[0].decode("latin-1")

    def name(self, type: int) -> str:
        """The name of a type, as the compiler spells it."""
        return self.text(self.number(type + NAME))

    def describer(self, type: int) -> int:
        """The description of the class that describes a type."""
        return self.number(self.number(type) - 8)

    def kind(self, type: int) -> str:
        """The class of the ABI that describes a type, without its namespace and the length of its name. A library may have
        classes of its own, which derive from these."""
        describer = self.describer(type)
        while not self.name(describer).startswith(NAMESPACE) and (bases := self.bases(describer)):
            describer = bases[0].type
        return self.name(describer).removeprefix(NAMESPACE).lstrip("0123456789").removesuffix("E")

    def identity(self, type: int) -> str | int:
        """What two descriptions of one type share."""
        place = self.number(type + NAME)
        text = self.text(place) if self.by_text else OF_ONE_MODULE
        return place if text.startswith(OF_ONE_MODULE) else text

    def bases(self, type: int) -> list[Base]:
        """The direct bases of a class."""
        kind = self.kind(type)
        if kind == SINGLE:
            return [Base(self.number(type + FIRST), False, True)]
        places = range(self.number(type + COUNT, 4) if kind == SEVERAL else 0)
        entries = [type + SECOND + BASE_SIZE * place for place in places]
        flags = [self.number(entry + 8) for entry in entries]
        return [Base(self.number(at), bool(flag & VIRTUAL), bool(flag & PUBLIC)) for at, flag in zip(entries, flags)]

    def parts(self, type: int, place: Place = (), is_public: bool = True) -> Iterator[tuple[int, Place, bool]]:
        """The class itself and all bases in an object of it: of each its description, which part of the object it is, and
        whether this way to it is public. A virtual base is one part, however many ways lead to it."""
        yield type, place, is_public
        for number, base in enumerate(self.bases(type)):
            where: Place = (self.identity(base.type),) if base.is_virtual else (*place, number)
            yield from self.parts(base.type, where, is_public and base.is_public)

    def is_base(self, handler: int, thrown: int) -> bool:
        """Whether a class is another one, or a public base of it that is there once."""
        wanted = self.identity(handler)
        same = [(place, is_public) for type, place, is_public in self.parts(thrown) if self.identity(type) == wanted]
        return len({place for place, _is_public in same}) == 1 and any(is_public for _place, is_public in same)

    def takes(self, handler: int, thrown: int) -> bool:
        """Whether a handler of a type takes an exception of another one."""
        if self.identity(handler) == self.identity(thrown):
            return True
        kinds = self.kind(handler), self.kind(thrown)
        if self.name(self.describer(thrown)) == KIND_OF_FAILURE and self.name(handler) == OLD_FAILURE:
            return True
        if kinds[0] in CLASSES and kinds[1] in CLASSES:
            return self.is_base(handler, thrown)
        if kinds[0] in POINTERS and self.name(thrown) == NULL_POINTER:
            return True
        return self.points_alike(handler, thrown, is_outermost=True)

    def points_alike(self, handler: int, thrown: int, is_outermost: bool) -> bool:
        """Whether a pointer converts to another one: it adds qualifiers or, without any pointer inside, leads to a base or
        to `void`. What it adds inside of other pointers it may add where each of these points to what is const."""
        kind = self.kind(handler)
        if kind not in POINTERS or kind != self.kind(thrown):
            return False
        to, of = self.number(handler + FIRST, 4), self.number(thrown + FIRST, 4)
        if of & ~to & QUALIFIERS or to & ~of & OF_FUNCTIONS:
            return False
        if kind == MEMBER and not self.leads_to_same(handler + CONTEXT, thrown + CONTEXT):
            return False
        if self.leads_to_same(handler + SECOND, thrown + SECOND):
            return True
        inner, inner_thrown = self.number(handler + SECOND), self.number(thrown + SECOND)
        if is_outermost and kind == POINTER and self.leads_to_base(inner, inner_thrown):
            return True
        return bool(to & CONST) and self.points_alike(inner, inner_thrown, is_outermost=False)

    def leads_to_same(self, cell: int, other: int) -> bool:
        """Whether parts of two descriptions lead to descriptions of one type."""
        return self.identity(self.number(cell)) == self.identity(self.number(other))

    def leads_to_base(self, inner: int, inner_thrown: int) -> bool:
        """Whether what a pointer leads to is `void`, or a base of what another one leads to."""
        if self.name(inner) == VOID:
            return self.kind(inner_thrown) != FUNCTION
        both = self.kind(inner), self.kind(inner_thrown)
        return both[0] in CLASSES and both[1] in CLASSES and self.is_base(inner, inner_thrown)

    def own(self, thrown: int) -> list[int]:
        """A type itself and, of a class, the bases by which it is caught."""
        parts = [part[0] for part in self.parts(thrown)] if self.kind(thrown) in CLASSES else [thrown]
        return [type for type in dict.fromkeys(parts) if self.takes(type, thrown)]
