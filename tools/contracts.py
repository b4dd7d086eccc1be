"""Reads the contracts of functions (src/*.rt) and the definitions that they cite (specs/*.antt).

It knows no more of either language than where a function's clauses and a definition's lines begin and
end, and which file a name was imported from.
"""
from __future__ import annotations

import pathlib
import re
from dataclasses import dataclass, field
from typing import Iterator

TOP = pathlib.Path(__file__).resolve().parent.parent

# A file of definitions: crate and name; and where a definition stands: crate, file and name.
File = tuple[str, str]
Place = tuple[str, str, str]

CLAUSE = re.compile(r"\b(requires|ensures)(?:\s+(\w+))?\s*\{")
GHOST = re.compile(r"\bghost \w+: \{")
FUNCTION = re.compile(r"^([ ]*)((?:pub(?:\([a-z]+\))? )?(?:const )?(?:extern \"C\" )?)fn (\w+)", re.M)
OWNER = re.compile(r"^(?:pub )?(?:impl|trait)\b[^;{]*", re.M)
IMPORT = re.compile(r"use Rattle\.(\w+)\.specs\.(\w+)(?:\.(?:\{([^{}]*)\})|(?: as (\w+)))?")
NAME = re.compile(r"[^\s(){},;.λ×⊎→←\[\]∷≡≢◌&|+*/<>=-]+(?:-[^\s(){},;.]+)?")
HEAD = re.compile(r"((?:abbrev|unfoldable|unfolding|opaque|pub|record|data) +)+(\S+)")
BRACKET = re.compile(r"[(){}\[\]]")
RELATION = re.compile(r"Type 0( where)?$")


@dataclass(frozen=True)
class Clause:
    """A clause of a contract: `requires` or `ensures`, its name (perhaps empty) and its text."""

    kind: str
    name: str
    text: str


@dataclass(frozen=True)
class Function:
    """A function, its clauses, and whether its body is empty."""

    crate: str
    path: pathlib.Path
    name: str
    owner: str
    public: bool
    clauses: list[Clause]
    is_empty: bool

    def texts(self, kind: str) -> list[str]:
        """The texts of its clauses of a kind."""
        return [clause.text for clause in self.clauses if clause.kind == kind]


@dataclass
class Definition:
    """A definition: its lines, and the names of its variants."""

    place: Place
    text: str
    parts: list[str] = field(default_factory=list)

    @property
    def type_of(self) -> str:
        """What stands between its name and its first equation or field."""
        margin = re.match(" *", self.text)[0]
        head = re.split(rf"\n(?={margin}(?:\S|  (?:pub )?\w))", self.text, maxsplit=1)[0]
        return head.strip()

    @property
    def is_relation(self) -> bool:
        """Whether it is a statement about what it takes, and not a type or a value."""
        head = self.type_of
        takes = "→" in head or "(" in head.partition(":")[0]
        return takes and RELATION.search(head) is not None


def without_comments(text: str) -> str:
    """A text of Rust without what stands after two slashes."""
    return re.sub(r"//[^\n]*", "", text)


def end_of_group(text: str, start: int) -> int:
    """The place after the bracket that closes the one at `start`."""
    depth = 0
    for bracket in BRACKET.finditer(text, start):
        depth += 1 if bracket[0] in "({[" else -1
        if depth <= 0:
            return bracket.end()
    return len(text)


def contract_after(text: str, start: int) -> tuple[list[Clause], bool]:
    """The clauses of a function whose parameters begin at `start`, and whether its body is empty."""
    clauses, i = [], start
    while i < len(text):
        clause = CLAUSE.match(text, i)
        if clause:
            end = end_of_group(text, clause.end() - 1)
            clauses.append(Clause(clause[1], clause[2] or "", text[clause.end() : end - 1].strip()))
            i = end
        elif GHOST.match(text, i):
            i = end_of_group(text, text.index("{", i))
        elif text[i] in "([":
            i = end_of_group(text, i)
        elif text[i] == "{":
            return clauses, not text[i + 1 : end_of_group(text, i) - 1].strip()
        elif text[i] == ";":
            return clauses, False
        else:
            i += 1
    return clauses, False


def owners_in(text: str) -> list[tuple[int, int, str]]:
    """Where each `impl` and `trait` of a file begins and ends, and its head."""
    heads = OWNER.finditer(text)
    return [(head.start(), end_of_group(text, head.end()), head[0].strip()) for head in heads]


def functions_in(crate: str, path: pathlib.Path, text: str) -> Iterator[Function]:
    """The functions of a file. One of a public trait is public."""
    plain = without_comments(text)
    owners = owners_in(plain)
    for found in FUNCTION.finditer(plain):
        owner = next((head for start, end, head in owners if start < found.start() < end), "")
        clauses, is_empty = contract_after(plain, found.end())
        public = found[2].startswith("pub ") or owner.startswith("pub trait")
        yield Function(crate, path, found[3], owner, public, clauses, is_empty)


def functions(top: pathlib.Path = TOP) -> list[Function]:
    """The functions of all crates, tests left out."""
    return [
        function
        for path in sorted(top.glob("crates/*/src/**/*.rt"))
        if "tests" not in path.relative_to(top).parts and path.stem != "tests"
        for function in functions_in(path.relative_to(top).parts[1], path, path.read_text())
    ]


@dataclass(frozen=True)
class Imports:
    """Which file each imported name is from, and the files that have a name of their own."""

    names: dict[str, File]
    files: dict[str, File]


def imports_of(text: str) -> Imports:
    """What a file of either language imports from files of definitions."""
    found = Imports({}, {})
    for crate, file, listed, alias in IMPORT.findall(text):
        found.names.update({name: (crate, file) for name in re.split(r"[\s,]+", listed) if name})
        if alias or not listed:
            found.files[alias or file] = (crate, file)
    return found


def declared_in(line: str) -> str | None:
    """The name that a line of a file of definitions declares, if it does."""
    inner = line.lstrip(" ")
    head = HEAD.match(inner)
    if head and (inner == line or not re.match(r"pub [^\s(){}]+ :", inner)):
        return re.split(r"[({:]", head[2])[0]
    plain = re.match(r"([^\s(){}]+) : ", line)
    return plain[1] if plain else None


def definitions_in(crate: str, file: str, text: str) -> list[Definition]:
    """The definitions of a file, in its order. Comments, imports and the heads of modules aren't of them."""
    found: list[Definition] = []
    for line in text.splitlines():
        if re.match(r" *(--|use |pub mod |mod |module )", line):
            continue
        name = declared_in(line)
        if name:
            found.append(Definition((crate, file, name), line))
        elif found:
            found[-1].text += "\n" + line
            variants = re.match(r"  ((?:[^\s(){}:]+ )+): ", line)
            found[-1].parts += variants[1].split() if variants and "data " in found[-1].type_of else []
    return found


@dataclass
class Specs:
    """All definitions by their places, of each file what it imports, and the variants that are a part of one."""

    definitions: dict[Place, Definition] = field(default_factory=dict)
    parts: dict[Place, Place] = field(default_factory=dict)
    imports: dict[File, Imports] = field(default_factory=dict)
    files: dict[File, pathlib.Path] = field(default_factory=dict)

    def add(self, crate: str, path: pathlib.Path) -> None:
        """Reads a file. Its own names stand among those that it imports."""
        text, file = path.read_text(), (crate, path.stem)
        self.files[file] = path
        self.imports[file] = imports_of(text)
        for definition in definitions_in(crate, path.stem, text):
            self.definitions.setdefault(definition.place, definition)
            self.parts.update({(*file, part): definition.place for part in definition.parts})
            self.imports[file].names.update({name: file for name in (definition.place[2], *definition.parts)})

    def at(self, file: File, name: str) -> Place | None:
        """The definition of a name, or the one that it is a part of."""
        place = (*file, name)
        return place if place in self.definitions else self.parts.get(place)

    def cited(self, text: str, imports: Imports) -> set[Place]:
        """The definitions that a text names, by what is imported where it stands."""
        found: set[Place | None] = set()
        for alias, name in re.findall(r"\b(\w+)\.([^\s(){},;.]+)", text):
            if alias in imports.files:
                found.add(self.at(imports.files[alias], name))
        for name in set(NAME.findall(text)) | {f"◌{operator}◌" for operator in re.findall(r" ([^\sλ]+) ", text)}:
            if name in imports.names:
                found.add(self.at(imports.names[name], name))
        return {place for place in found if place is not None}

    def named_by(self, place: Place, text: str) -> set[Place]:
        """The definitions that a text of the file of a definition names, but for that one."""
        return self.cited(text, self.imports[place[:2]]) - {place}


def specs(top: pathlib.Path = TOP) -> Specs:
    """The definitions of all crates."""
    found = Specs()
    for path in sorted(top.glob("crates/*/specs/*.antt")):
        found.add(path.relative_to(top).parts[1], path)
    return found
