"""Names of functions as debuggers write them: without parameters and results, and in Rust without hashes."""
from __future__ import annotations

import re

# Signs that may follow `operator`, the longer ones first ([over.oper] of the C++ standard).
OPERATOR = re.compile(
    r"\boperator(\(\)|\[\]|<<=|>>=|<=>|->\*|<<|>>|->|<=|>=|&&|\|\||\+\+|--|[-+*/%^&|~!=<>]=?|,|\"\")"
)
# What comes after the parameters, and what before a function that the compiler made of another one.
LAST_WORDS = re.compile(r"( const| volatile| &&?| \[clone [^]]*\]| \(\.[^)]*\)|::h[0-9a-f]{16})+$")
FIRST_WORDS = re.compile(r"((non-)?virtual|covariant return) thunk to ")
NO_SIGN = "\1"


def masked(name: str) -> str:
    """The name without what looks like a bracket and is none: operators' signs and arrows. It has the same length."""
    name = OPERATOR.sub(lambda found: "operator" + NO_SIGN * len(found.group(1)), name)
    return name.replace("->", NO_SIGN * 2)


def matching_parenthesis(shown: str) -> int:
    """Where the parenthesis begins that a masked name ends with."""
    depth = 0
    for index in range(len(shown) - 1, -1, -1):
        depth += {")": 1, "(": -1}.get(shown[index], 0)
        if depth == 0:
            return index
    return 0


def without_parameters(name: str) -> str:
    """The name up to the parameters that it ends with."""
    shown = masked(name)
    if not shown.endswith(")") or shown.endswith("(anonymous namespace)"):
        return name
    start = matching_parenthesis(shown)
    return name[:start] if start > 0 else name


def without_result(name: str) -> str:
    """The name after a template's result, which ends with a space outside of all brackets. Those after the word `operator`
    belong to the name."""
    if name.startswith("<"):
        return name
    depth, start, shown = 0, 0, masked(name)
    for index, letter in enumerate(shown):
        depth += (letter in "<({[") - (letter in ">)}]")
        if depth == 0 and letter == " ":
            start = index + 1
        elif depth == 0 and OPERATOR_WORD.match(shown, index):
            break
    return name[start:]


OPERATOR_WORD = re.compile(r"\boperator\b")


def plain_name(name: str) -> str:
    """A demangled name without its parameters, its result and Rust's hash, as gdb writes a function."""
    name = LAST_WORDS.sub("", name)
    name = re.sub(r"\[[0-9a-f]{10,16}\]", "", name)
    first = FIRST_WORDS.match(name)
    start = first.end() if first else 0
    return name[:start] + without_result(without_parameters(name[start:]))
