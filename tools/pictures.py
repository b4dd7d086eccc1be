#!/usr/bin/env python3
"""Draws the pictures of docs/pictures: the layers of crates, one run, and one frame's row on a stack.

    pictures.py [--check]

The layers are those of crates.txt, so it is run again where that changes. With --check nothing is written, and
the status is 1 where a picture isn't as it would be drawn.
"""
from __future__ import annotations

import sys
from pathlib import Path
from xml.sax.saxutils import escape

from check_docs import crates_of

TOP = Path(__file__).resolve().parent.parent
PICTURES = TOP / "docs" / "pictures"

INK, FAINT, PAPER = "#24292f", "#8c959f", "#ffffff"
BLUE, GREEN, SAND, GREY = "#ddf4ff", "#dafbe1", "#fff8c5", "#f6f8fa"


class Picture:
    """Shapes on a white ground, from the left top corner, in pixels."""

    def __init__(self, width: int, height: int, title: str) -> None:
        self.width, self.height, self.title = width, height, title
        self.shapes: list[str] = []

    def box(self, x: int, y: int, width: int, height: int, lines: list[str], fill: str) -> None:
        """A box with lines of text in its middle."""
        self.shapes.append(
            f'<rect x="{x}" y="{y}" width="{width}" height="{height}" rx="4" fill="{fill}" stroke="{INK}"/>'
        )
        first = y + height // 2 + 4 - 8 * (len(lines) - 1)
        for i, line in enumerate(lines):
            self.text(x + width // 2, first + 16 * i, line, "middle")

    def text(self, x: int, y: int, line: str, anchor: str = "start", look: str = "") -> None:
        """A line of text."""
        self.shapes.append(f'<text x="{x}" y="{y}" text-anchor="{anchor}"{look}>{escape(line)}</text>')

    def arrow(self, points: list[tuple[int, int]], head: bool = True) -> None:
        """A line through points, with a head at its end."""
        path = " ".join(f"{x},{y}" for x, y in points)
        end = ' marker-end="url(#head)"' if head else ""
        self.shapes.append(f'<polyline points="{path}" fill="none" stroke="{INK}"{end}/>')

    def curve(self, x: int, y: int, to_x: int, to_y: int) -> None:
        """A faint line from one box down to another."""
        half = (y + to_y) // 2
        self.shapes.append(f'<path d="M{x} {y}C{x} {half} {to_x} {half} {to_x} {to_y}" fill="none" stroke="{FAINT}"/>')

    def svg(self) -> str:
        """The file's text."""
        size = f'width="{self.width}" height="{self.height}" viewBox="0 0 {self.width} {self.height}"'
        head = (
            '<marker id="head" viewBox="0 0 8 8" refX="7" refY="4" markerWidth="8" markerHeight="8" orient="auto">'
            f'<path d="M0 0L8 4L0 8z" fill="{INK}"/></marker>'
        )
        lines = [
            f'<svg xmlns="http://www.w3.org/2000/svg" {size} font-family="sans-serif" font-size="12" fill="{INK}">',
            f"<title>{escape(self.title)}</title>",
            f"<defs>{head}</defs>",
            f'<rect width="{self.width}" height="{self.height}" fill="{PAPER}"/>',
        ]
        return "\n".join(lines + self.shapes + ["</svg>", ""])


# ---- the layers

Below = dict[str, set[str]]


def crates_below(crates: Below) -> Below:
    """Of each crate all of the repository that it stands on, directly or not."""
    found: Below = {}

    def below(name: str) -> set[str]:
        if name not in found:
            direct = crates[name] & crates.keys()
            found[name] = direct.union(*(below(other) for other in direct))
        return found[name]

    for name in crates:
        below(name)
    return found


def layers_of(crates: Below) -> list[list[str]]:
    """The crates by layers, the lowest first: each is one above the highest of those that it stands on."""
    below = crates_below(crates)
    height: dict[str, int] = {}
    for name in sorted(crates, key=lambda name: len(below[name])):
        height[name] = 1 + max((height[other] for other in below[name]), default=-1)
    return [[name for name in crates if height[name] == i] for i in range(max(height.values()) + 1)]


def steps_down(crates: Below) -> Below:
    """Of each crate those that it stands on through no other one."""
    below = crates_below(crates)
    return {name: {o for o in below[name] if not any(o in below[p] for p in below[name])} for name in crates}


BOX, GAP, ROW = 142, 12, 62


def picture_of_layers(crates: Below) -> Picture:
    """The crates by layers, with a line to each that one stands on through no other one."""
    layers, down = layers_of(crates), steps_down(crates)
    width = max(len(layer) for layer in layers) * (BOX + GAP) + GAP
    picture = Picture(width, len(layers) * ROW + 24, "The layers of crates")
    middle: dict[str, tuple[int, int]] = {}
    for i, layer in enumerate(layers):
        # each stands near what it stands on
        layer = sorted(layer, key=lambda name: sum(middle[o][0] for o in down[name]) / max(1, len(down[name])))
        left = (width - len(layer) * (BOX + GAP) + GAP) // 2
        for j, name in enumerate(layer):
            middle[name] = (left + j * (BOX + GAP) + BOX // 2, (len(layers) - 1 - i) * ROW + 18)
    for name in crates:
        for other in sorted(down[name]):
            (x, y), (to_x, to_y) = middle[name], middle[other]
            picture.curve(x, y + 26, to_x, to_y)
    called = set().union(*crates.values())
    for name, (x, y) in middle.items():
        picture.box(x - BOX // 2, y, BOX, 26, [name], GREEN if name not in called else BLUE)
    picture.text(GAP, len(layers) * ROW + 14, "A line leads down to what a crate stands on. Green: no crate stands on it.")
    return picture


# ---- one run


def picture_of_run() -> Picture:
    """From the snapshot's bytes to the report's."""
    p = Picture(720, 330, "One run, from the snapshot's bytes to the report's")
    p.box(10, 20, 110, 40, ["source"], GREY)
    p.box(160, 20, 130, 40, ["read_snapshot", "JSON to Snapshot"], BLUE)
    p.box(330, 20, 170, 40, ["Space", "image, modules, indexes"], BLUE)
    p.box(540, 20, 170, 40, ["start", "the innermost state"], BLUE)
    p.arrow([(120, 40), (160, 40)])
    p.arrow([(290, 40), (330, 40)])
    p.arrow([(225, 20), (225, 8), (625, 8), (625, 20)])
    p.box(540, 110, 170, 40, ["state", "registers of a frame"], SAND)
    p.box(330, 110, 170, 40, ["module_at", "of the address asked"], BLUE)
    p.box(160, 110, 130, 40, ["FDE", "by index or search"], BLUE)
    p.box(160, 190, 130, 40, ["row", "lent, or made"], BLUE)
    p.box(330, 190, 170, 40, ["leave", "the caller's registers"], BLUE)
    p.arrow([(625, 60), (625, 110)])
    p.arrow([(415, 60), (415, 110)])
    p.arrow([(540, 130), (500, 130)])
    p.arrow([(330, 130), (290, 130)])
    p.arrow([(225, 150), (225, 190)])
    p.arrow([(290, 210), (330, 210)])
    p.arrow([(500, 210), (600, 210), (600, 150)])
    p.text(520, 226, "up to the end of the stack")
    p.box(540, 270, 170, 40, ["room", "the states in order"], SAND)
    p.arrow([(680, 150), (680, 270)])
    p.box(330, 270, 170, 40, ["deliver", "LSDAs, cleanup passes"], BLUE)
    p.box(160, 270, 130, 40, ["report_of", "walk_report_of"], BLUE)
    p.box(10, 270, 110, 40, ["sink"], GREY)
    p.arrow([(540, 290), (500, 290)])
    p.arrow([(330, 290), (290, 290)])
    p.arrow([(160, 290), (120, 290)])
    return p


# ---- a frame's row on a stack

# examples/pushed_rbx.json: a function at 0x401000 that pushes RBX, stopped at 0x401006.
SLOTS = [(0x7008, "0x0", "return address"), (0x7000, "0x5", "saved rbx")]


def picture_of_frame() -> Picture:
    """The stack of examples/pushed_rbx.json, and the row that undoes its frame."""
    p = Picture(720, 240, "A frame's row on a stack: examples/pushed_rbx.json")
    bold, code = ' font-weight="bold"', ' font-family="monospace"'
    p.text(20, 24, "Stack, higher addresses above", look=bold)
    p.box(80, 40, 170, 40, ["the caller's frame"], GREY)
    p.text(72, 78, "0x7010", "end")
    for i, (address, word, what) in enumerate(SLOTS):
        p.box(80, 80 + 40 * i, 170, 40, [f"{word}  {what}"], SAND)
        p.text(72, 118 + 40 * i, f"{address:#x}", "end")
    p.arrow([(300, 80), (250, 80)])
    p.text(304, 84, "CFA")
    p.arrow([(300, 160), (250, 160)])
    p.text(304, 164, "rsp")
    p.text(380, 24, "Row of the FDE at 0x401005, the byte before ra", look=bold)
    p.box(380, 40, 330, 120, ["CFA = rsp + 16", "ra = the word at CFA - 8", "rbx = the word at CFA - 16"], BLUE)
    p.text(545, 146, "the caller's rsp is CFA; the rest is as it was", "middle")
    p.text(20, 200, "frame 0 ra=0x401006 sp=0x7000 rbx=0x9", look=code)
    p.text(380, 200, "frame 1 ra=0x0 sp=0x7010 rbx=0x5", look=code)
    p.arrow([(310, 196), (372, 196)])
    p.text(20, 224, "stopped after push %rbx", look=f' fill="{FAINT}"')
    p.text(380, 224, "its caller", look=f' fill="{FAINT}"')
    return p


def pictures() -> dict[str, str]:
    """The text of each file, by its name."""
    crates = crates_of((TOP / "crates.txt").read_text())
    drawn = {"layers.svg": picture_of_layers(crates), "run.svg": picture_of_run(), "frame.svg": picture_of_frame()}
    return {name: picture.svg() for name, picture in drawn.items()}


def main() -> None:
    """Runs the program."""
    old = [name for name, text in pictures().items() if not (PICTURES / name).exists() or (PICTURES / name).read_text() != text]
    if "--check" in sys.argv[1:]:
        for name in old:
            print(f"docs/pictures/{name} isn't as tools/pictures.py draws it")
        sys.exit(bool(old))
    PICTURES.mkdir(exist_ok=True)
    for name, text in pictures().items():
        (PICTURES / name).write_text(text)


if __name__ == "__main__":
    main()
