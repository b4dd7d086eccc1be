#!/usr/bin/env python3
"""Lists the premises of public clauses that no witness meets.

    check_witnesses.py [--all]      with --all, also those that one meets, and by which

A premise is a defined relation that stands left of an arrow in a clause of a public function, or in its
`requires`. A witness is a public function with an empty body that asks nothing, one of whose `ensures` says the
relation of something: not after a premise, and not as one of several alternatives. What a witness says of a record
it says of the record's fields, and of an abbreviation of what that stands for.

What it doesn't know: whether a witness's arguments are those of a worked example or variables, whether several
premises of one clause are met together, premises that a clause's own definitions hold, comparisons of numbers,
and statements of the kit. So what it lists wants a look, and what it doesn't list may still lack a witness.
Each premise without one has a line, and the status is then 1, unless EXCEPTIONS names it.
"""
from __future__ import annotations

import pathlib
import re
import sys
from dataclasses import dataclass, field
from typing import Iterator

import contracts
from contracts import Function, Imports, Place, Specs, end_of_group

# Premises that want no witness, by the reason: `crate.File.name`.
REASONS = {
    "a comparison of numbers, of bytes or of variants": """
        frame_rows.Walks.IsBefore macho_unwind_info.Described.IsInRange macho_unwind_info.Described.IsOutside
        pe_unwind_info.FunctionTable.Holds unwind_definitions.Numbers.SpellsRelative unwind_laws.Spelled.AreBytes
        unwind_laws.Spelled.BeginsSigned unwind_laws.Spelled.BeginsUnsigned unwind_laws.Spelled.Follows
        unwinding_core.Runs.IsUntaken""",
    "a type of what a law takes, and no statement": """
        unwinding_frames.Passes.Asking unwinding_frames.Passes.Line unwinding_frames.Passes.Marked
        unwinding_frames.Passes.Undoing""",
    "what DescribesRows says at each address of a kind, as samples meet it": """
        unwind_definitions.DescribedRows.IsBodyRow unwind_definitions.DescribedRows.IsOutermostRow
        unwind_definitions.DescribedRows.IsPrologueRow""",
    "the header of a described module, as functions_by_a_header_are_described has one": """
        unwind_definitions.Module.IsHeaderTable""",
    "what a law concludes of a described function": "unwind_laws.Found.FindsFunction",
    "an answer says it: of decide, add, add_next and turn, row_at and make, frame_at, module_asked, begin, advance, new": """
        command_ends.Verdicts.IsReadyOrFailed frame_rows.Begun.HasBegun frame_rows.Begun.HasBegunBefore
        frame_rows.Rows.IsRowOf frame_rows.Walks.IsWalking perf_data.Streams.IsFilled
        stack_steps.FrameViews.IsFrameOf stack_steps.MadeRows.AreMade stack_steps.ModulesAsked.IsAsked""",
    "the cause of an answer, which the clause beside says of the answer": """
        stack_deliver.Causes.EndsBy stack_deliver.Causes.EndsThrough stack_deliver.Causes.IsRefused
        stack_deliver.Causes.IsRefusedThrough stack_walks.Lines.NeedsMore stack_walks.Walking.StepFails""",
    "whatever is given as memory": "pe_unwind_info.Frame.Gives",
    "what outlines answers, and what memory_holds_tables_and_stack says for each count": """
        generated_chains.Memory.HoldsStack generated_chains.Memory.HoldsTables
        generated_chains.Outlines.AreNumbered""",
    "notes of a core file, as core_of_one_thread_is_read has them": "core_file.NoteGrammar.AreNotes",
    "one of the ends of a chain, as call_from_outside_is_described has it": """
        unwind_definitions.Module.CoversNot""",
    "what a pointer leads to, as the samples with language tables have it": """
        unwind_definitions.LanguageTable.IsLanguageTable""",
}
EXCEPTIONS = {name: reason for reason, names in REASONS.items() for name in names.split()}


def segments(text: str) -> list[str]:
    """The parts of a text between the arrows that stand in no brackets."""
    parts, start, i = [], 0, 0
    while i < len(text):
        if text[i] in "([{":
            i = end_of_group(text, i)
        elif text[i] == "→":
            parts.append(text[start:i])
            i += 1
            start = i
        else:
            i += 1
    return [*parts, text[start:]]


def groups(text: str) -> Iterator[str]:
    """What stands in the outermost brackets of a text."""
    i = 0
    while i < len(text):
        if text[i] in "([{":
            end = end_of_group(text, i)
            yield text[i + 1 : end - 1]
            i = end
        else:
            i += 1


def without_groups(text: str) -> str:
    """A text with nothing in its brackets."""
    for group in groups(text):
        text = text.replace(group, "", 1)
    return text


def premises_of(text: str) -> Iterator[str]:
    """The parts of a statement that stand left of an arrow, at any depth."""
    *before, _last = parts = segments(text)
    yield from before
    for part in parts:
        for group in groups(part):
            yield from premises_of(group)


def said_by(text: str) -> Iterator[str]:
    """The parts of a statement that it says of anything: not those after a premise, nor those beside an alternative."""
    *before, last = segments(text)
    outer = without_groups(last)
    binds = all(re.match(r"\s*[({][^()]* : ", part) for part in before)
    if binds and "⊎" not in outer and "¬" not in outer:
        yield outer
        for group in groups(last):
            yield from said_by(group)


@dataclass
class Use:
    """Where a relation is a premise, and which witnesses say it of something."""

    clauses: list[str] = field(default_factory=list)
    witnesses: list[str] = field(default_factory=list)


class Finder:
    """Finds premises and witnesses among functions and definitions."""

    def __init__(self, specs: Specs, functions: list[Function]) -> None:
        self.specs, self.functions = specs, functions
        self.imports: dict[pathlib.Path, Imports] = {}
        self.uses: dict[Place, Use] = {}

    def cited(self, function: Function, text: str) -> set[Place]:
        """The relations that a text of a function's contract names."""
        if function.path not in self.imports:
            self.imports[function.path] = contracts.imports_of(function.path.read_text())
        return self.relations(self.specs.cited(text, self.imports[function.path]))

    def relations(self, places: set[Place]) -> set[Place]:
        """Those of some definitions that are relations."""
        return {place for place in places if self.specs.definitions[place].is_relation}

    def note_premises(self, function: Function) -> None:
        """Notes the premises of a function's clauses."""
        for clause in function.clauses:
            asked = premises_of(clause.text) if clause.kind == "ensures" else [clause.text]
            for place in self.cited(function, " ; ".join(asked)):
                name = f"{function.crate}.{function.name}.{clause.name or clause.kind}"
                self.uses.setdefault(place, Use()).clauses.append(name)

    def shown(self, places: set[Place]) -> set[Place]:
        """What is said where some relations are: also the fields of records, and what abbreviations stand for."""
        found: set[Place] = set()
        waiting = list(places)
        while waiting:
            place = waiting.pop()
            if place not in found:
                found.add(place)
                waiting += self.relations(self.said_in(place))
        return found

    def said_in(self, place: Place) -> set[Place]:
        """What a definition says where it holds: each field of a record, and an abbreviation of one line."""
        body = self.specs.definitions[place].text.split("\n")[1:]
        if "record" in self.specs.definitions[place].type_of:
            parts = [line.partition(" : ")[2] for line in body]
        else:
            parts = [" ".join(body).partition(" = ")[2]] if sum(" = " in line for line in body) == 1 else []
        return {named for part in parts for said in said_by(part) for named in self.specs.named_by(place, said)}

    def note_witness(self, function: Function) -> None:
        """Notes the relations that a witness says."""
        texts = [text for text in function.texts("ensures") if not self.cited(function, " ; ".join(premises_of(text)))]
        said = [part for text in texts for part in said_by(text)]
        for place in self.shown(self.cited(function, " ; ".join(said))):
            if place in self.uses:
                self.uses[place].witnesses.append(f"{function.crate}.{function.name}")

    def find(self) -> dict[Place, Use]:
        """Each premise with the clauses that have it and the witnesses that meet it."""
        public = [function for function in self.functions if function.public]
        for function in public:
            self.note_premises(function)
        for function in public:
            if function.is_empty and not function.texts("requires"):
                self.note_witness(function)
        return self.uses


def line_of(name: str, clauses: list[str]) -> str:
    """A premise, and some of the clauses that have it."""
    more = f" and {len(clauses) - 3} more" if len(clauses) > 3 else ""
    return f"{name}: premise of {', '.join(clauses[:3])}{more}"


def lacking(uses: dict[Place, Use]) -> dict[str, str]:
    """The premises that no witness meets, each with its line."""
    named = {".".join(place): use for place, use in sorted(uses.items())}
    return {name: line_of(name, use.clauses) for name, use in named.items() if not use.witnesses}


def main() -> None:
    """Runs the program."""
    uses = Finder(contracts.specs(), contracts.functions()).find()
    found = lacking(uses)
    new = [line for name, line in found.items() if name not in EXCEPTIONS]
    if "--all" in sys.argv[1:]:
        for place, use in sorted(uses.items()):
            print(f"{'.'.join(place)}: {', '.join(use.witnesses[:3]) or EXCEPTIONS.get('.'.join(place), 'none yet')}")
    for name in sorted(EXCEPTIONS.keys() - found.keys()):
        print(f"{name}: a witness meets it, or no clause has it, so no list has to name it")
    print("".join(f"{line}\n" for line in new), end="")
    print(f"{len(uses)} premises: {len(new)} without a witness, {len(found) - len(new)} want none")
    sys.exit(1 if new else 0)


if __name__ == "__main__":
    main()
