"""Whether a row of a description says what is known at an address, and if not, why.

A row says facts where its CFA is RSP or RBP plus the number that is known for it, its return address is just below the CFA,
or undefined where the function is outermost, each callee-saved register is found where it is known to be, and no other
column has a rule. `readelf` prints a column that has no rule and one that is undefined alike, so that the latter isn't seen.
"""
from __future__ import annotations

import re

from known_frame import CALLEE_SAVED, Frame
from tables import COLUMNS, Row

CFA = re.compile(r"r(\d+)\+(\d+)$")
STACK_POINTER, FRAME_POINTER, RETURN = COLUMNS["rsp"], COLUMNS["rbp"], f"r{COLUMNS['ra']}"
KNOWN_COLUMNS = {f"r{COLUMNS[name]}" for name in (*CALLEE_SAVED, "ra")} | {"cfa", "arguments"}


def cfa_fault(frame: Frame, row: Row) -> str:
    """Why a row's CFA isn't a known one, or nothing."""
    found = CFA.match(row["cfa"])
    if found is None:
        return "CFA by an expression"
    registers = {STACK_POINTER: "rsp", FRAME_POINTER: "rbp"}
    register = registers.get(int(found[1]))
    if register is None:
        return "CFA by another register"
    distance = frame.distance(register)
    if distance is None:
        return "CFA isn't known"
    return "" if distance == int(found[2]) else "CFA is another"


def register_fault(frame: Frame, row: Row, register: str) -> str:
    """Why a row doesn't find a register where it is known to be, or nothing."""
    rule = row.get(f"r{COLUMNS[register]}", "s")
    if rule == "s":
        return "" if register in frame.kept else "register isn't kept"
    found = re.match(r"c-(\d+)$", rule)
    if found is None:
        return "rule of another kind"
    return "" if (int(found[1]), register) in frame.saved else "register isn't in the slot"


def fault(frame: Frame, row: Row) -> str:
    """Why a row doesn't say what is known, or nothing where it does."""
    if found := cfa_fault(frame, row):
        return found
    if row.get(RETURN, "") != ("u" if frame.outermost else "c-8"):
        return "return address"
    for register in CALLEE_SAVED:
        if found := register_fault(frame, row, register):
            return found
    return "" if row.keys() <= KNOWN_COLUMNS else "rule of another column"
