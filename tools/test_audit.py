"""Tests of audit.py, changed_tables.py and damaged_claims.py: wrong rows that are known, and what is said of them.

In place of `unwind_cli audit` stands a reader of the same text that goes by frame_programs.py."""
from __future__ import annotations

import contextlib
import io
import json
import os
import pathlib
import random
import re
import subprocess
import tempfile
import unittest
from unittest import mock

import audit
import changed_tables
import damaged_claims
from audit import Found, Names, asked, audited, code_lines, counts_of, is_other, line_of, print_audit, read_report, row_of
from audit import summary_of, texts_of
from claimed_facts import Claimed, Facts, claim_object, claim_words, claimed_in, tables_of
from code_file import CodeFile
from code_flow import CodeFlow
from collections import Counter
from elf_image import Refused
from expected_audit import in_words
from frame_programs import descriptions_of, rows_of
from frame_table import Table
from programs import Done
from thread_reports import Answer
from tables import COLUMNS, Row

SCRIPT = pathlib.Path(__file__).parent / "audit.sh"
SAVED = ("rbx", "rbp", "r12", "r13", "r14", "r15")

# A claim of a function that pushed RBX, and what a report says of it.
PUSHED = Claimed(0x10, 0x20, 0, Facts(16, None, (("rbx", 16),), SAVED[1:], False))
TOLD = (
    "cfa r7+0x10, rule 3 c-0x10, rule 6 same value, rule 12 same value, rule 13 same value, rule 14 same value, "
    "rule 15 same value, rule 16 c-0x8"
)

# Its second row is late by one instruction, and at the end R12 has a value of its own, which no row says.
WRONG = """
    .globl late
    .type late, @function
    late: .cfi_startproc
        push %rbx
        mov %edi, %ebx
        .cfi_def_cfa_offset 16
        .cfi_offset 3, -16
        call *%rsi
        pop %rbx
        .cfi_def_cfa_offset 8
        .cfi_restore 3
        ret
        .cfi_endproc
        .size late, .-late
    .type lost, @function
    lost: .cfi_startproc
        xor %r12d, %r12d
        call *%rdi
        .cfi_escape 0x0f, 0x02, 0x77, 0x08
        ret
        .cfi_endproc
        .size lost, .-lost
    .globl right
    .type right, @function
    right: .cfi_startproc
        push %rbp
        .cfi_def_cfa_offset 16
        .cfi_offset 6, -16
        mov %rsp, %rbp
        .cfi_def_cfa_register 6
        .cfi_escape 0x2e, 0x10, 0x2e, 0x20, 0x2e, 0x00
        call late
        leave
        .cfi_def_cfa 7, 8
        .cfi_restore 6
        ret
        .cfi_endproc
        .size right, .-right
"""


def built(folder: str) -> str:
    """The library of these functions."""
    text, library = pathlib.Path(folder) / "source.s", pathlib.Path(folder) / "built.so"
    text.write_text(WRONG)
    command = ["gcc", "-shared", "-nostdlib", "-Wl,-Bsymbolic", "-o", str(library), str(text)]
    subprocess.run(command, check=True, capture_output=True)
    return str(library)


def differs(claim: dict[str, object], row: Row | None) -> str | None:
    """Why a row doesn't say a claim, and what it says."""
    if row is None:
        return "fault"
    known = {f"r{COLUMNS[name]}+{int(str(claim[name]), 16)}" for name in ("rsp", "rbp") if name in claim}
    if row["cfa"] not in known:
        return f"cfa {in_words(row['cfa'])}"
    saved, kept = claim.get("saved", {}), claim.get("kept", [])
    assert isinstance(saved, dict) and isinstance(kept, list)
    for name in SAVED:
        rule = row.get(f"r{COLUMNS[name]}", "s")
        if not (rule == "s" and name in kept or name in saved and rule == f"c-{int(saved[name], 16)}"):
            return f"rule {COLUMNS[name]} {'none' if rule == 's' else in_words(rule)}"
    known = {f"r{COLUMNS[name]}" for name in SAVED} | {"cfa"}
    others = [name[1:] for name, rule in row.items() if name not in known and (name, rule) != ("r16", "c-8")]
    return f"rule {others[0]} {in_words(row[f'r{others[0]}'])}" if others else None if "r16" in row else "rule 16 none"


def stand_in(words: list[str], text: bytes) -> Answer:
    """What the program says."""
    assert words[1:] == ["audit"] and len(text) <= 2**26
    said = json.loads(text)
    region = said["regions"][0]
    table = Table(int(region["address"], 16), bytes.fromhex(region["bytes"]))
    described = list(descriptions_of(table))
    lines, differing = [], set()
    for number, claim in enumerate(said["claims"]):
        start, end = int(claim["from"], 16), int(claim["to"], 16)
        rows = next(rows_of(table, found) for found in described if found.covers.contains(start))
        starts = [address for address, _row in rows] + [end]
        for (address, row), after in zip(rows, starts[1:]):
            if max(address, start) < min(max(after, address + 1), end) and (why := differs(claim, row)):
                lines.append(f"differ {max(address, start):#x} claim {number} {why}; claimed {claim_words(claim)}")
                differing.add(number)
    lines += [f"claims {len(said['claims'])}", f"differ {len(differing)}", "without a row 0"]
    return Answer("".join(f"{line}\n" for line in lines), None)


class Texts(unittest.TestCase):
    def test_claims_in_several_texts(self) -> None:
        with tempfile.TemporaryDirectory() as folder:
            flow = CodeFlow(CodeFile(built(folder)))
            claims, tables = claimed_in(flow), tables_of(flow.file)
        (whole,) = texts_of(tables, claims, 2**26)
        self.assertEqual(json.loads(whole[1]), tables | {"claims": [claim_object(claim) for claim in claims]})
        for most in (len(whole[1]) - 1, len(whole[1]) - 200, 1):
            parts = list(texts_of(tables, claims, most))
            self.assertGreater(len(parts), 1)
            self.assertTrue(most == 1 or all(len(text) <= most for _first, text in parts))
            found = [claim for _first, text in parts for claim in json.loads(text)["claims"]]
            self.assertEqual(found, json.loads(whole[1])["claims"])
            self.assertEqual([first for first, _text in parts][:2], [0, len(json.loads(parts[0][1])["claims"])])
        self.assertEqual([text for _first, text in texts_of(tables, [], 1)], [text.encode() for text in
                         [json.dumps(tables | {"claims": []}, separators=(",", ":"))]])

    def test_a_report_is_read(self) -> None:
        found = Found({}, Counter())
        claims, end = [PUSHED] * 7, f"; claimed {TOLD}\n"
        numbers = "claims 4\ndiffer 1\nwithout a row 0\n"
        read_report(f"differ 0x10 claim 1 cfa r7-0x8{end}differ 0x12 claim 1 rule 3 same value{end}{numbers}", 3, claims, found)
        self.assertEqual(found.stretches, {4: [(0x10, "cfa"), (0x12, "rule 3")]})
        self.assertEqual(found.numbers, Counter({"claims": 4, "differ": 1, "without a row": 0}))
        wrong = [f"differ 0x10 claim 1 {why}{end}" for why in ("why", "cfa", "cfa c-0x", "rule 3 r")]
        wrong += ["differ 0x10 claim 1 cfa r7-0x8\n", f"differ 0x10 claim 1 cfa r7-0x8{end.replace('c-0x10', 'c-0x18')}"]
        for report in ("", "claims 4\n", *(f"{line}{numbers}" for line in wrong)):
            with self.subTest(report), self.assertRaises(Refused):
                read_report(report, 0, claims, Found({}, Counter()))

    def test_what_is_claimed_in_words(self) -> None:
        self.assertEqual(claim_words(claim_object(PUSHED)), TOLD)
        kept = {"rsp": "0x18", "rbp": "0x10", "saved": {"rbp": "0x10"}, "kept": ["rbp"]}
        self.assertEqual(claim_words(kept), "cfa r7+0x18 or r6+0x10, rule 3 unknown, rule 6 c-0x10 or same value, "
                         "rule 12 unknown, rule 13 unknown, rule 14 unknown, rule 15 unknown, rule 16 c-0x8")
        below = {"rbp": "0xfffffffffffffff8", "saved": {"rbx": "0xfffffffffffffff0"}, "kept": [], "outermost": True}
        self.assertEqual(claim_words(below), "cfa r6-0x8, rule 3 c+0x10, rule 6 unknown, rule 12 unknown, rule 13 unknown, "
                         "rule 14 unknown, rule 15 unknown, rule 16 undefined")
        self.assertEqual(claim_words({}).partition(",")[0], "cfa unknown")

    def test_numbers_have_to_agree(self) -> None:
        with mock.patch.object(audit, "run", return_value=Answer("claims 7\ndiffer 0\nwithout a row 0\n", None)):
            with self.assertRaisesRegex(Refused, "p counts 7 claims, and there are 0"):
                asked("p", {"regions": [], "modules": []}, [])


class Places(unittest.TestCase):
    maxDiff = None

    def test_wrong_rows(self) -> None:
        with tempfile.TemporaryDirectory() as folder, mock.patch.object(audit, "run", stand_in):
            path = built(folder)
            found = audited(CodeFlow(CodeFile(path)), "unwind_cli")
            file = found.flow.file
            names = Names(file)
            lines = [line_of(place, file, names) for place in found.places]
            starts = [start for start, name in sorted(file.functions.items()) if name in ("late", "lost")]
            summary = summary_of(path, counts_of(found, 1))
        late, lost = starts
        every = " ".join(SAVED)
        self.assertEqual(lines, [
            f"{late + 1:#x}-{late + 3:#x} late+0x1: cfa; the row: cfa=rsp+8 ra=c-8; "
            f"the code: cfa rsp+16 saved rbx@16 kept {every}",
            f"{lost + 3:#x}-{lost + 5:#x} lost+0x3: rule of r12; the row: cfa=rsp+8 ra=c-8; "
            f"the code: cfa rsp+8 saved - kept {every.replace('r12 ', '')}",
            f"{lost + 5:#x}-{lost + 6:#x} lost+0x5: cfa; the row: cfa=exp ra=c-8; "
            f"the code: cfa rsp+8 saved - kept {every.replace('r12 ', '')}",
        ])
        others = [is_other(place.why, row_of(place, file)) for place in found.places]
        self.assertEqual(others, [False, False, True])
        self.assertEqual(summary, f"{path}: descriptions 3, calls 3, in reach 2, addresses 13, in reach 10, "
                         f"claims {len(claimed_in(found.flow))}, differ 2, without a row 0, places 2, other 1")

    def test_what_is_printed(self) -> None:
        with tempfile.TemporaryDirectory() as folder, mock.patch.object(audit, "run", stand_in):
            path = built(folder)
            lasts = set()
            options = (({}, 3), ({"all": True}, 4), ({"counts": True}, 1), ({"code": True}, 7), ({"parts": 2}, 3), ({"parts": 3}, 3))
            for words, count in options:
                printed = io.StringIO()
                given = mock.Mock(unwind_cli="p", **({"all": False, "counts": False, "code": False, "parts": 1} | words))
                with contextlib.redirect_stdout(printed):
                    print_audit(path, given)
                self.assertEqual(printed.getvalue().count("\n"), count)
                lasts.add(printed.getvalue().splitlines()[-1])
            self.assertEqual(len(lasts), 1)

    def test_the_instructions_of_a_place(self) -> None:
        with tempfile.TemporaryDirectory() as folder, mock.patch.object(audit, "run", stand_in):
            found = audited(CodeFlow(CodeFile(built(folder))), "unwind_cli")
            lines = [[line.split(maxsplit=1)[1] for line in code_lines(place, found.flow)] for place in found.places]
        self.assertEqual([[re.sub(" {2,}", "  ", line) for line in one] for one in lines], [
            ["push rbx  row rsp+8, code rsp+8", "mov ebx,edi  row rsp+8, code rsp+16"],
            ["xor r12d,r12d  row r12 kept, code r12 kept", "call rdi  row r12 kept, code r12 unknown"],
            ["xor r12d,r12d  row rsp+8, code rsp+8", "call rdi  row rsp+8, code rsp+8", "ret  row exp, code rsp+8"],
        ])

    def test_a_difference_where_no_row_begins_is_refused(self) -> None:
        with tempfile.TemporaryDirectory() as folder:
            path = built(folder)
            claims = claimed_in(CodeFlow(CodeFile(path)))
            line = f"differ 0x1 claim 0 cfa expression; claimed {claim_words(claim_object(claims[0]))}"
            report = f"{line}\nclaims {len(claims)}\ndiffer 1\nwithout a row 0\n"
            with mock.patch.object(audit, "run", return_value=Answer(report, None)):
                with self.assertRaisesRegex(Refused, "a difference at 0x1 isn't where a row begins"):
                    audited(CodeFlow(CodeFile(path)), "unwind_cli")

    def test_rows_of_another_kind(self) -> None:
        row = {"cfa": "r7+8", "r3": "r8", "r12": "c-16", "r16": "r2"}
        for why, other in (
            ("cfa", False), ("rule 3", True), ("rule 12", False), ("rule 13", False), ("rule 16", True), ("rule 0", True),
            ("fault", False), ("signal frame", True), ("no description", False),
        ):
            with self.subTest(why):
                self.assertEqual(is_other(why, row), other)
        self.assertTrue(is_other("cfa", row | {"cfa": "r10+0"}))
        self.assertFalse(is_other("cfa", None))


class Script(unittest.TestCase):
    def said_by(self, program: str, *words: str) -> tuple[int, str, str]:
        """What the script says."""
        environment = dict(os.environ) | {"UNWIND_CLI": program}
        done = subprocess.run([str(SCRIPT), *words], env=environment, cwd="/", capture_output=True, text=True, check=False)
        return done.returncode, done.stdout, done.stderr

    def test_what_fails_is_said(self) -> None:
        with tempfile.TemporaryDirectory() as folder:
            path, program = built(folder), pathlib.Path(folder) / "program"
            program.write_text("#!/bin/sh\ncat >/dev/null\necho 'refused: claim 3 overlaps'\nexit 8\n")
            program.chmod(0o755)
            said = f"audit.sh: {path}: {program} ended with status 8: refused: claim 3 overlaps\n"
            self.assertEqual(self.said_by(str(program), path), (1, "", said))
            status, _output, error = self.said_by("/none", path)
            self.assertEqual((status, error[:27]), (1, "audit.sh: /none isn't built"))
            missing = f"{folder}/missing"
            self.assertEqual(self.said_by(str(program), missing)[::2], (1, f"audit.sh: {missing}: [Errno 2] No such file or "
                             f"directory: '{missing}'\n"))
            self.assertEqual(self.said_by(str(program), str(SCRIPT))[::2], (1, f"audit.sh: {SCRIPT}: it is no ELF file of 64 bits\n"))
        self.assertEqual(self.said_by("/bin/true")[0], 2)


class Changes(unittest.TestCase):
    def test_each_change_of_a_row_is_found(self) -> None:
        """Of each seed the one function whose rows are right has a byte changed; that of a size of arguments changes no row."""
        rows = Counter[str]()
        with tempfile.TemporaryDirectory() as folder, mock.patch.object(audit, "run", stand_in):
            path = built(folder)
            for seed in range(16):
                said = changed_tables.counted(path, 1, str(seed), "unwind_cli")
                self.assertEqual((said.changed_found, said.same_found, said.disagreeing), (said.changed, 0, []))
                rows.update({"changed": said.changed, "same": said.same, "gone": said.gone})
        self.assertEqual(rows["changed"] + rows["same"], 16)
        self.assertTrue(all(rows[name] for name in ("changed", "same", "gone")), rows)


class Damage(unittest.TestCase):
    FIRST = {"from": "0x10", "to": "0x20", "rsp": "0x8"}

    def test_what_is_expected_of_claims(self) -> None:
        first, object_of = self.FIRST, lambda *claims: damaged_claims.text_of({"claims": [*claims]})
        for text, line in (
            (b"", "not json"), (b"{", "not json"), (b'{"claims":[NaN]}', "not json"), (b'{"claims":["\xff"]}', "not json"),
            (b"[]", "bad snapshot: object"), (b'{"claims":[0.5]}', "bad snapshot: object"),
            (object_of(first, {"rsp": 1 << 64}), "bad snapshot: object"), (b"{}", "bad snapshot: claims"),
            (b'{"claims":{}}', "bad snapshot: claims"), (object_of(first, 0), "bad snapshot: claim 1"),
            (object_of(first, {"from": "0x20"}), "bad snapshot: claim 1"),
            (object_of(first | {"to": "20"}), "bad snapshot: claim 0"),
            (object_of(first | {"kept": {}}), "bad snapshot: claim 0"),
            (object_of(first | {"saved": {"r12": 5}}), "bad snapshot: claim 0"),
            (object_of(first, first | {"outermost": None}), "bad snapshot: claim 1"),
            (object_of(first | {"from": "0x20"}, 0), "bad snapshot: claim 1"),
            (object_of(first | {"from": "0x20"}), "refused: claim 0 empty"),
            (object_of(first, first | {"from": "0x8"}), "refused: claim 1 out of order"),
            (object_of(first, first), "refused: claim 1 overlaps"),
        ):
            with self.subTest(text):
                self.assertEqual(damaged_claims.expected("none", text), f"{line}\n")

    def test_runs_that_disagree_are_found(self) -> None:
        with tempfile.TemporaryDirectory() as folder:
            path = built(folder)
            flow = CodeFlow(CodeFile(path))
            value = tables_of(flow.file) | {"claims": [claim_object(claim) for claim in claimed_in(flow)]}
            text, dice = damaged_claims.text_of(value), random.Random("claims")
            texts = [text, *(damaged_claims.damaged(dice, value, text) for _ in range(300))]
            said = [damaged_claims.expected(path, text) for text in texts]
            self.assertEqual(said[0], stand_in(["unwind_cli", "audit"], text).text)
            done = [Done(damaged_claims.status_of(text), text.encode(), b"") for text in said]
            with mock.patch.object(damaged_claims, "run_program", side_effect=done):
                counts, disagreeing = damaged_claims.tried("p", path, iter(texts))
            self.assertEqual((counts.keys(), counts.total(), disagreeing), (damaged_claims.KINDS.keys(), 301, []))
            with mock.patch.object(damaged_claims, "run_program", return_value=done[0]):
                counts, disagreeing = damaged_claims.tried("p", path, iter(texts))
            self.assertEqual([one[0] for one in disagreeing], [number for number, text in enumerate(said) if text != said[0]])


if __name__ == "__main__":
    unittest.main()
