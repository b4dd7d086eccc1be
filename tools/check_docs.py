#!/usr/bin/env python3
"""Checks the documents against the code that they speak of.

    check_docs.py [CHECK]...      without a CHECK, all of them

    map          docs/MAP.md lists each crate of crates.txt once, in the picture and in the table; modules that it names
                 in brackets are there
    definitions  the definitions that documents name as `crate/specs/File.name` are there
    names        the other names in backquotes are names of the code
    clauses      in docs/PROVED.md each call of a table is a function or a type, and has the clauses of its row; each
                 public call that has a `requires` stands in the table of those
    examples     the examples of the README, of LIBRARY.md and at the heads of libraries are lines of library_examples, and the runs
                 of `backtrace` that documents show are what the gate's run writes
    readme       the README is short
    sentences    the sentences of the documents are short, in tables too
    links        what documents link to is there
    specs        a file of definitions that no public clause cites says so in its first line, and no other does

Each fault has a line, and the status is then 1. The last line says how many there are.
"""
from __future__ import annotations

import functools
import pathlib
import re
import subprocess
import sys
from dataclasses import dataclass
from typing import Callable, Iterator

import contracts
from contracts import TOP, Function, Place, Specs

PROGRAM = TOP / "crates" / "library_examples" / "src"
README_BYTES, SENTENCE_WORDS = 10_000, 60

# ---- the documents


def documents() -> list[pathlib.Path]:
    """The documents that are checked."""
    return [TOP / "README.md", TOP / "CONTRIBUTING.md", TOP / "CHANGELOG.md", *sorted((TOP / "docs").glob("*.md"))]


def without_blocks(text: str) -> str:
    """A document without its blocks of code and its comments, by as many lines."""
    return re.sub(r"```.*?```|<!--.*?-->", lambda block: "\n" * block[0].count("\n"), text, flags=re.S)


def cells_of(line: str) -> list[str]:
    """The cells of a line of a table."""
    return [cell.strip() for cell in line.strip().strip("|").split("|")]


# ---- the map

Crates = dict[str, set[str]]


def crates_of(text: str) -> Crates:
    """The crates that a crates.txt lists, each with the names in its line."""
    found: Crates = {}
    for line in text.splitlines():
        head, _colon, names = line.partition("#")[0].partition(":")
        if head.strip():
            found[head.split()[0]] = set(names.split())
    return found


def picture_of(text: str) -> list[str]:
    """The crates in the map's picture."""
    block = text.partition("```text\n")[2].partition("```")[0]
    return [line.split()[0] for line in block.splitlines() if re.match(r"\w", line)]


def rows_of(text: str) -> list[list[str]]:
    """The rows of the map's table of crates, by their cells."""
    table = text.partition("\n| Crate |")[2].partition("\n\n")[0]
    return [cells_of(line) for line in table.splitlines()[2:]]


def listing_faults(where: str, names: list[str], crates: Crates) -> Iterator[str]:
    """Where not each crate is named once, or something else is."""
    for name in crates:
        if names.count(name) != 1:
            yield f"{name} stands {names.count(name)} times in the {where}"
    for name in sorted(set(names) - crates.keys()):
        yield f"{name} stands in the {where}, and crates.txt has no such crate"


def map_differences(text: str, crates: Crates) -> list[str]:
    """Where a map isn't as crates.txt says."""
    rows = rows_of(text)
    found = list(listing_faults("picture", picture_of(text), crates))
    found += listing_faults("table", [row[0].strip("`") for row in rows], crates)
    return found + [f"{row[0]}: {len(row)} cells, and not 2" for row in rows if len(row) != 2]


def module_faults(text: str, modules: dict[str, set[str]]) -> list[str]:
    """The names in brackets that are no modules of their row's crate. Names of crates and of types may stand there too."""
    return [
        f"{row[0]} has no module {name}"
        for row in rows_of(text)
        for group in re.findall(r"\(([^()]*)\)", row[1])
        for name in re.findall(r"`([a-z][\w/]*)`", group)
        if name.rpartition("/")[2] not in modules.get(row[0].strip("`"), set()) | modules.keys()
    ]


def check_map() -> list[str]:
    """The map against crates.txt, and its modules against the folders of crates."""
    text = (TOP / "docs" / "MAP.md").read_text()
    modules = {path.parent.name: {file.stem for file in path.rglob("*")} for path in TOP.glob("crates/*/src")}
    return map_differences(text, crates_of((TOP / "crates.txt").read_text())) + module_faults(text, modules)


# ---- definitions

# A crate's definitions: the names of each file of its specs.
Names = dict[str, set[str]]

PLACE = re.compile(r"(?:crates/)?(\w+)/specs/(\w+)(?:\.(?!antt$)(\S+))?")
NAME = re.compile(r"(?:(\w+)\.)?(?!antt$)([^\s./]+)")


DECLARED = r"^ *(?:(?:abbrev|unfoldable|opaque|pub|record|data|module) +)*([^\s(:]+)(?= *[({:]| +:)"


def names_in(text: str) -> set[str]:
    """The names that a file of definitions declares."""
    declared = re.findall(DECLARED, text, re.M)
    variants = re.findall(r"^  ((?:\w+ )+): ", text, re.M)
    return {*declared, *(name for line in variants for name in line.split())}


def specs_of(crate: pathlib.Path) -> Names:
    """A crate's definitions."""
    return {path.stem: names_in(path.read_text()) for path in (crate / "specs").glob("*.antt")}


def is_there(file: str | None, name: str | None, specs: Names) -> bool:
    """Whether a file of the specs declares the name, or any file where none is said. A name may be a file's."""
    if file is not None:
        return file in specs and (name is None or name in specs[file])
    return name in specs or any(name in names for names in specs.values())


def missing_in_cell(cell: str, crates: dict[str, Names], own: Names) -> Iterator[str]:
    """The definitions that a cell of a table, or a paragraph, names and that aren't there."""
    specs = None
    for said in re.findall(r"`([^`\s]+)`", cell):
        place, name = PLACE.fullmatch(said), NAME.fullmatch(said)
        if place:
            specs = crates.get(place[1])
            if specs is None or not is_there(place[2], place[3], specs):
                yield said
        elif specs is not None and name and cell.startswith("|") and not is_there(name[1], name[2], specs):
            yield said
        elif specs is None and name and name[1] in own and not is_there(name[1], name[2], own):
            yield said


def missing(text: str, crates: dict[str, Names], own: Names) -> list[str]:
    """The definitions that a document names and that aren't there, each with its line. After a place in a cell of a
    table others of its crate follow as `name` or `File.name`."""
    return [
        f"line {number}: `{said}`"
        for number, line in enumerate(text.splitlines(), 1)
        for cell in (["|" + cell for cell in line.split("|")] if line.startswith("|") else [line])
        for said in missing_in_cell(cell, crates, own)
    ]


def check_definitions() -> list[str]:
    """The definitions that documents name. In docs/DEFINITIONS.md `File.name` alone is one of unwind_definitions."""
    crates = {path.name: specs_of(path) for path in (TOP / "crates").iterdir()}
    found = []
    for path in documents():
        own = crates["unwind_definitions"] if path.name == "DEFINITIONS.md" else {}
        found += [f"{path.name}, {line}" for line in missing(path.read_text(), crates, own)]
    return found


# ---- names

# Names in backquotes that aren't of the code, by what they are.
EXCEPTIONS = {
    "programs and packages": "addr2line binutils bt clang gcore gdb ld64.lld llvm objdump up",
    "libraries of a system": "libasan.so.8 libc.so.6 libcrypto.so.3 libgcc_s libgcc_s.so.1 libgmp.so.10 libpython3.11.so",
    "files that a build makes": "crates/backtrace/out/backtrace crates/unwind_cli/out/unwind_cli",
    "a system's and an ABI's names": "CORE NT_FILE PATH _start _Unwind_ _Unwind_Context __register_frame __unwind_info "
    "private_2",
    "a system's files": "mach-o/compact_unwind_encoding.h",
    "operations of DWARF that aren't taken": "DW_CFA_GNU_negative_offset_extended DW_OP_addrx DW_OP_call2 DW_OP_constx",
    "operations of DWARF in short": "bra breg0 const1u constu deref deref_size div dup lit0 lit1 nop plus_uconst",
    "encodings and letters": "absptr e eh ff z zPLR zPR zR zRS P L R S",
    "machine instructions and registers": "and cpuid int3 lea mov ret sub REX.W reg6 reg16",
    "words of Rust": "ArrayVec ArrayVec::from ArrayVec::new Copy Display Drop From assert_eq! clone static std try u32 u64 "
    "usize json::Reader json::Value ensures requires Model null",
    "names of other crates": "PersonalityRoutine RegisterRule::Constant UnwindExpression UnwindExceptionCleanupFn "
    "UnwindStopFn UnwindTraceFn rust_eh_personality",
    "words of a report, of a snapshot or of an option": "in early undefined yes",
    "functions of other programs": "__mpn_addmul_1 __mpn_submul_1 ____longjmp_chk swapcontext setcontext vfork mcount "
    "__fentry__ __longjmp __libc_main __memmove_ssse3 bn_gather5 x25519_fe51_sqr _dl_runtime_resolve_ _dl_runtime_profile_ "
    "_Unwind_RaiseException longjmp snprintf x25519_fe64_sqr ossl_rsaz_amm52x20_x1_avxifma256 "
    "ossl_rsaz_amm52x40_x2_avxifma256 aesni_xts_128_encrypt_avx512 Curl_altsvc_save sqlite3Select rtreeInsertCell "
    "pcache1Unpin git_buf_dispose ossl_rsaz_amm52x30_x2_avxifma256 aesni_xts_256_decrypt_avx512 MachineRegisterInfo "
    "__longjmp_chk getVendorSignature linux_ptrace_test_ret_to_nx ossl_bsaes_xts_decrypt ossl_bsaes_xts_encrypt",
    "a build of an example": "every_instruction",
    "names that stand for any": "a File.name rC",
}

CODE_NAMES = (
    r"\b(?:fn|struct|enum|trait|type|const|static|mod|ghost|macro_rules!) (\w+)",
    r"\b(?:requires|ensures) (\w+) \{",
    r"^\s+(?:pub(?:\(\w+\))? )?(?:ghost )?(\w+): ",
    r"^\s+([A-Z]\w*)(?:\(|,| \{|$)",
)
HEADER_NAMES = r"\b(kz_\w+)|\b(KZ_\w+)"
SCRIPT_NAMES = r"\b(?:def|class) (\w+)|^(\w+)\(\)|\b(\w+)\("


def found_in(patterns: tuple[str, ...], text: str) -> set[str]:
    """What the groups of some patterns match in a text."""
    return {name for pattern in patterns for found in re.finditer(pattern, text, re.M) for name in found.groups() if name}


@functools.cache
def shipped() -> list[str]:
    """The files of the repository, and those that will be."""
    command = ["git", "ls-files", "-co", "--exclude-standard"]
    listed = subprocess.run(command, cwd=TOP, capture_output=True, text=True, check=True)
    return [name for name in listed.stdout.splitlines() if (TOP / name).exists()]


def code_names() -> set[str]:
    """The names of the code: of functions, types, fields, variants, clauses, definitions, files and crates. Names that
    only tests have aren't among them."""
    known: set[str] = set()
    for name in shipped():
        path = pathlib.PurePath(name)
        known |= {path.name, path.stem, *path.parts}
        if path.suffix == ".rt" and "tests" not in path.parts and path.stem != "tests":
            known |= found_in(CODE_NAMES, contracts.without_comments((TOP / name).read_text()))
        elif path.suffix == ".antt" and "specs" in path.parts:
            known |= names_in((TOP / name).read_text())
        elif path.parts[0] in ("tools", "bench", "examples") and path.suffix in (".py", ".sh", ".c", ".h", ".cpp", ".rs"):
            known |= found_in((SCRIPT_NAMES,), (TOP / name).read_text())
        elif path.parts[0] == "include" and path.suffix == ".h":
            known |= found_in((HEADER_NAMES,), (TOP / name).read_text())
    known |= found_in((r'"(\w+)": \{',), (TOP / "docs" / "snapshot.schema.json").read_text())
    return known | found_in((r"(\w+)",), (TOP / "crates.txt").read_text())


@functools.cache
def commands() -> list[str]:
    """The words that `unwind_cli` takes first, by its line of usage."""
    source = (TOP / "crates" / "unwind_cli" / "src" / "lines.rt").read_text()
    return re.findall(r"[a-z]+", source.partition("usage: unwind_cli ")[2].partition('"')[0])


def is_shipped(said: str) -> bool:
    """Whether a path is one of the repository's, from its top or a folder that documents leave out. One of a machine
    isn't."""
    if said.startswith("/"):
        return said.startswith("/proc/")
    path = re.sub(r"<\w+>", "*", said)
    folders = ("", "docs/", "crates/", "crates/*/", "crates/*/src/")
    return any(any(TOP.glob(folder + path + end)) for folder in folders for end in ("", ".rt"))


def is_name(said: str, known: set[str]) -> bool:
    """Whether what stands in backquotes is a name that is known, a command of the repository's, or neither."""
    first, *words = said.split(" ")
    if words and (first == "unwind_cli" or "/" in first):
        return is_name(first, known) and (first != "unwind_cli" or words[0] in commands())
    if PLACE.fullmatch(said) or said in known:
        return True
    if "/" in said and re.fullmatch(r"[\w./*<>-]+", said):
        return is_shipped(said)
    if re.fullmatch(r"[A-Za-z_][\w:.]*!?(\(\))?", said):
        return all(part in known for part in re.split(r"::|\.", said.rstrip("!()")) if part)
    return True


def unknown_names(text: str, known: set[str], upstream: bool) -> list[str]:
    """The names in a document's backquotes that are no names of the code, each with its line. Where its tables
    compare with other crates, their first cells aren't read."""
    found = []
    for number, line in enumerate(without_blocks(text).splitlines(), 1):
        read = "|".join(cells_of(line)[1:]) if upstream and line.startswith("|") else line
        found += [f"line {number}: `{said}`" for said in re.findall(r"`([^`]+)`", read) if not is_name(said, known)]
    return found


def check_names() -> list[str]:
    """The names that documents have in backquotes."""
    known = code_names() | {name for names in EXCEPTIONS.values() for name in names.split()}
    return [
        f"{path.name}, {line}"
        for path in documents()
        for line in unknown_names(path.read_text(), known, path.name == "DIFFERENCES.md")
    ]


# ---- clauses


def calls_in(cell: str) -> list[str]:
    """The names in backquotes of a cell of calls. Those in brackets are of other things."""
    plain = re.sub(r"\([^()]*\)(?!`)", "", cell)
    return [said.rstrip("()") for said in re.findall(r"`([\w:]+(?:\(\))?)`", plain)]


def named_functions(said: str, functions: list[Function]) -> list[Function]:
    """The public functions that a cell may mean by a name: `function`, `Type::function`, or all of a type's."""
    owner, _colons, name = said.rpartition("::")
    word = re.compile(rf"\b{re.escape(owner or said)}\b")
    public = [function for function in functions if function.public or function.owner.startswith("impl")]
    if owner:
        return [function for function in public if function.name == name and word.search(function.owner)]
    named = [function for function in functions if function.name == said and function.public]
    return named or [function for function in public if word.search(function.owner)]


def statements_of(functions: list[Function]) -> set[str]:
    """The names of the clauses of some functions, and of what their traits say."""
    traits = {function.path for function in functions if "trait" in function.owner}
    said = {name for path in traits for name in re.findall(r"\bghost (\w+): \{", path.read_text())}
    return said | {clause.name for function in functions for clause in function.clauses}


@dataclass
class Row:
    """A row of a table of calls: its line, its calls (those above where it names none), its clauses, and the crates
    that the heading above names."""

    line: int
    calls: list[str]
    clauses: list[str]
    crates: set[str]


def clause_rows(text: str, crates: set[str]) -> Iterator[Row]:
    """The rows of the tables of calls."""
    calls: list[str] = []
    home: set[str] = set()
    reading = False
    for number, line in enumerate(text.splitlines(), 1):
        cells = cells_of(line) if line.startswith("|") else []
        if line.startswith("#"):
            home = crates & set(re.findall(r"`(\w+)`", line))
        elif len(cells) != 3 or cells[1] == "Clause":
            reading = bool(cells) and cells[1:2] == ["Clause"]
        elif reading and not cells[0].startswith("---"):
            calls = [name for name in calls_in(cells[0]) if name not in crates] if cells[0] else calls
            yield Row(number, calls, calls_in(cells[1]), home)


def clause_faults(text: str, functions: list[Function], exports: dict[str, set[str]]) -> list[str]:
    """Where a row names a call, or a type, that isn't in the crates of its heading, or a clause that no call of it has."""
    found = []
    for row in clause_rows(text, {function.crate for function in functions}):
        near = [function for function in functions if not row.crates or function.crate in row.crates]
        meant = {said: named_functions(said, near) for said in row.calls}
        types = {name for crate in row.crates for name in exports.get(crate, ()) if name[0].isupper()}
        strangers = [said for said, those in meant.items() if not those and said not in types]
        found += [f"line {row.line}: there is no `{said}`" for said in strangers]
        named = statements_of([function for those in meant.values() for function in those])
        lost = [name for name in row.clauses if row.calls and name not in named]
        found += [f"line {row.line}: no clause `{name}` of {', '.join(row.calls)}" for name in lost]
    return found


def exports_of(sources: list[pathlib.Path]) -> set[str]:
    """The names that some files hand on (`pub use`)."""
    statements = [said for path in sources for said in re.findall(r"^pub use ([^;]*);", path.read_text(), re.M)]
    return {name for said in statements for name in re.findall(r"\w+", said)}


def is_exported(function: Function, exports: set[str]) -> bool:
    """Whether a public function, or the type that it is of, is handed on."""
    return function.public and bool(exports & set(re.findall(r"\w+", function.owner or function.name)))


def asking_faults(text: str, functions: list[Function], exports: dict[str, set[str]]) -> list[str]:
    """The calls that ask something of their caller and that the table of such calls doesn't name."""
    table = text.partition("\n| Call | Asks |")[2].partition("\n\n")[0]
    named = {name.rpartition("::")[2] for line in table.splitlines() for name in calls_in(cells_of(line)[0])}
    asking = [f for f in functions if f.texts("requires") and is_exported(f, exports[f.crate])]
    return [f"the table of calls that ask something lacks {f.crate}.{f.name}" for f in asking if f.name not in named]


@functools.cache
def functions() -> list[Function]:
    """The functions of the repository."""
    return contracts.functions()


def check_clauses() -> list[str]:
    """The calls and clauses of docs/PROVED.md."""
    text = (TOP / "docs" / "PROVED.md").read_text()
    exports = {path.parent.name: exports_of(list(path.rglob("*.rt"))) for path in TOP.glob("crates/*/src")}
    faults = clause_faults(text, functions(), exports) + asking_faults(text, functions(), exports)
    return [f"PROVED.md, {line}" for line in faults]


# ---- examples


def lines_of(text: str) -> list[str]:
    """The lines of a text without their indentation, blank lines left out."""
    return [line.strip() for line in text.splitlines() if line.strip()]


def shown_in(text: str) -> list[list[str]]:
    """The lines of each example of a file: those between `// example` and `// end`."""
    return [lines_of(body) for body in re.findall(r"// example\n(.*?)// end\n", text, re.S)]


def blocks_in(text: str) -> list[list[str]]:
    """The lines of each block of Rust in a text, without their `use` lines and the comments beside them."""
    blocks = re.findall(r"```rust\n(.*?)```", text, re.S)
    return [[re.sub(r"\s+// .*", "", line) for line in lines_of(body) if not line.startswith("use ")] for body in blocks]


def head_of(text: str) -> str:
    """The text at a library's head."""
    lines = [line[3:] for line in text.splitlines(True) if line.startswith("//!")]
    return "".join(line.lstrip(" ") for line in lines)


def runs_in(text: str) -> list[str]:
    """The blocks of a text that show what `backtrace` writes, and nothing else."""
    return re.findall(r"```text\n(#0  0x[^`]*end: [^`]*)```", text)


def check_runs() -> list[str]:
    """The runs of `backtrace` that the README and docs/FORMATS.md show. The stored one has registers besides."""
    written = re.sub(r" sp=0x.*", "", (TOP / "crates" / "backtrace" / "stdout").read_text())
    pages = (TOP / "README.md", TOP / "docs" / "FORMATS.md")
    shown = [(page.name, run) for page in pages for run in runs_in(page.read_text())]
    return [f"{name}: it shows a run that isn't the stored one" for name, run in shown if run != written]


def check_examples() -> list[str]:
    """The blocks of Rust of the README, of docs/LIBRARY.md and at the heads of libraries, and the runs that documents show."""
    shown = [lines for path in sorted(PROGRAM.glob("*.rt")) for lines in shown_in(path.read_text())]
    pages = (TOP / "README.md", TOP / "docs" / "LIBRARY.md")
    blocks = [(page.name, lines) for page in pages for lines in blocks_in(page.read_text())]
    for path in sorted((TOP / "crates").glob("*/src/lib.rt")):
        blocks += [(path.parent.parent.name, lines) for lines in blocks_in(head_of(path.read_text()))]
    strangers = [name for name, lines in blocks if lines not in shown]
    return [f"{name}: its block of Rust is no example of library_examples" for name in strangers] + check_runs()


# ---- the README


def check_readme() -> list[str]:
    """The README's size."""
    size = len((TOP / "README.md").read_bytes())
    return [f"README.md has {size} bytes, and not fewer than {README_BYTES}"] if size >= README_BYTES else []


# ---- sentences


def sentences_of(text: str) -> Iterator[str]:
    """The sentences of a document without blocks, those of each line of a list and of each cell of a table for themselves."""
    for line in text.splitlines():
        if not line.startswith(("#", "![")):
            for part in cells_of(line) if line.startswith("|") else [line]:
                yield from re.split(r"(?<=[.!?])\s+", part)


def long_sentences(text: str, most: int = SENTENCE_WORDS) -> list[str]:
    """The sentences of more words than that, by their beginnings. A link counts as its text, and what stands in backquotes as
    one word: it may be a line of output."""
    plain = re.sub(r"`[^`\n]+`", "`..`", re.sub(r"\]\([^()]*\)", "]", without_blocks(text)))
    return [f"{len(s.split())} words: {' '.join(s.split()[:8])} .." for s in sentences_of(plain) if len(s.split()) > most]


def check_sentences() -> list[str]:
    """The sentences of the documents and of the page on the examples."""
    pages = [*documents(), TOP / "examples" / "README.md"]
    return [f"{page.relative_to(TOP)}, {line}" for page in pages for line in long_sentences(page.read_text())]


# ---- links


def slug_of(heading: str) -> str:
    """What a link names a heading by."""
    return re.sub(r"[^\w\- ]", "", heading.strip("# ").lower()).replace(" ", "-")


def link_faults(path: pathlib.Path) -> Iterator[str]:
    """The links of a document that lead nowhere."""
    for target in re.findall(r"\]\(([^()\s]+)\)", without_blocks(path.read_text())):
        file, _mark, heading = target.partition("#")
        there = path.parent / file if file else path
        if "://" in target:
            continue
        if not there.exists():
            yield f"{path.name} links to {target}, which isn't there"
        elif heading and heading not in {slug_of(line) for line in there.read_text().splitlines() if line.startswith("#")}:
            yield f"{path.name} links to {target}, and there is no such heading"


def check_links() -> list[str]:
    """The links of the documents."""
    return [fault for path in [*documents(), TOP / "examples" / "README.md"] for fault in link_faults(path)]


# ---- files of definitions

UNCITED = "No public clause cites this"

# Files whose first line is to be mended when their crates change next: a change of it proves a crate and those above
# it anew.
KNOWN = {"memory_image": "ImageLaws"}


def public_texts(function: Function) -> list[str]:
    """What a public function's contract says."""
    return [clause.text for clause in function.clauses] if function.public else []


def meanings_in(text: str) -> list[str]:
    """What a file says of its types by ghost members, but for views and invariants, which are for proofs."""
    heads = re.finditer(r"\bghost (?!use\b|view\b|invariant\b)\w+(?: =|:) \{", text)
    return [text[head.end() : contracts.end_of_group(text, head.end() - 1) - 1] for head in heads]


def cited_places(specs: Specs, functions: list[Function]) -> set[Place]:
    """The definitions that public clauses cite, directly or through others."""
    texts: dict[pathlib.Path, list[str]] = {}
    for function in functions:
        texts.setdefault(function.path, []).extend(public_texts(function))
    waiting: list[Place] = []
    for path, said in texts.items():
        text = path.read_text()
        imports = contracts.imports_of(text)
        for part in said + meanings_in(contracts.without_comments(text)):
            waiting += specs.cited(part, imports)
    cited: set[Place] = set()
    while waiting:
        place = waiting.pop()
        if place not in cited:
            cited.add(place)
            waiting += specs.named_by(place, specs.definitions[place].text)
    return cited


def check_specs() -> list[str]:
    """The first lines of files of definitions."""
    specs = contracts.specs()
    cited = {place[:2] for place in cited_places(specs, functions())}
    found = []
    for (crate, name), path in specs.files.items():
        says = UNCITED in path.read_text().partition("\n")[0]
        fault = "a public clause cites it" if says else "no public clause cites it, and its first line doesn't say so"
        is_known = name in KNOWN.get(crate, "").split()
        if name != "Lib" and is_known != (says == ((crate, name) in cited)):
            fault = "it is as it should be, and in the list of known ones" if is_known else fault
            found.append(f"{path.relative_to(TOP)}: {fault}")
    return found


# ---- all checks

CHECKS: dict[str, Callable[[], list[str]]] = {
    "map": check_map,
    "definitions": check_definitions,
    "names": check_names,
    "clauses": check_clauses,
    "examples": check_examples,
    "readme": check_readme,
    "sentences": check_sentences,
    "links": check_links,
    "specs": check_specs,
}


def main() -> None:
    """Runs the checks that are named, or all."""
    asked = sys.argv[1:] or list(CHECKS)
    if not set(asked) <= CHECKS.keys():
        sys.exit(f"usage: check_docs.py [{' | '.join(CHECKS)}]...")
    faults = {name: CHECKS[name]() for name in asked}
    for name, found in faults.items():
        print("".join(f"{name}: {line}\n" for line in found), end="")
    count = sum(map(len, faults.values()))
    print(f"{len(asked)} checks, {count} faults" if count else f"{len(asked)} checks, no fault")
    sys.exit(1 if count else 0)


if __name__ == "__main__":
    main()
