"""Draws stacks of names with their counts: an SVG file that needs no script and nothing beside it.

A box is a function under its callers. It is as wide as the samples that it is in are many and stands on the box of its
caller, so the outermost functions are at the bottom; boxes side by side come in the order of their names. Its colour says
which module the function is of. Pointing at a box shows its whole name and its numbers (`title` elements).

Names are in a font whose letters have one width, so what fits into a box is known here.
"""
from __future__ import annotations

import colorsys
import unicodedata
import zlib
from dataclasses import dataclass, field
from typing import Iterator
from xml.sax.saxutils import escape


@dataclass(frozen=True, order=True)
class Name:
    """A function's name, and its module's file without folders, empty where there is none."""

    text: str
    module: str = ""


Counts = dict[tuple[Name, ...], int]

ALL, END, REFUSED = Name("all"), Name("[end]"), Name("[refused]")


@dataclass(frozen=True)
class Drawing:
    """What a picture says and looks like, beside its stacks. The program's functions have the first colour."""

    title: str = "Flame graph"
    width: int = 1200
    program: str = ""


# Pixels. A box is a row high, less a line of the ground, and one narrower than the least isn't drawn.
ROW, MARGIN, LEAST = 18, 10, 0.3
HEAD, FOOT = 76, 30
FONT, LETTER, PADDING = 12, 7.25, 3

INK, FAINT, PAPER, WARNING = "#1f2328", "#57606a", "#ffffff", "#cf222e"
GREY, RED = "#dfe3e8", "#ffc9c9"

# Hue, saturation and least lightness of modules, the program's first. Text on each is easy to read.
Hue = tuple[int, float, float]
HUES: list[Hue] = [
    (30, 0.92, 0.72), (207, 0.75, 0.74), (128, 0.48, 0.72), (268, 0.65, 0.81), (178, 0.50, 0.70), (330, 0.70, 0.79), (56, 0.75, 0.70),
]
OTHER: Hue = (0, 0.0, 0.74)

FONTS = "ui-monospace,Menlo,Consolas,'DejaVu Sans Mono','Liberation Mono',monospace"
STYLE = "rect{stroke-width:0}g:hover&gt;rect{stroke:#1f2328;stroke-width:1.5}text{pointer-events:none}"


# ---- boxes


@dataclass
class Box:
    """A function under its callers: in how many samples it is, in how many as the innermost, and what it called."""

    name: Name
    level: int = 0
    count: int = 0
    own: int = 0
    called: dict[Name, Box] = field(default_factory=dict)


def box_of(counts: Counts) -> Box:
    """All samples, and in them the functions by their callers."""
    root = Box(ALL)
    for names, count in counts.items():
        here = root
        here.count += count
        for name in names:
            here = here.called.setdefault(name, Box(name, here.level + 1))
            here.count += count
        here.own += count
    return root


def placed_boxes(root: Box) -> Iterator[tuple[Box, int]]:
    """The boxes, each with the number of samples to its left. Stacks may be deeper than calls may be nested here."""
    waiting = [(root, 0)]
    while waiting:
        box, left = waiting.pop()
        yield box, left
        for name in sorted(box.called):
            waiting.append((box.called[name], left))
            left += box.called[name].count


def own_of_modules(root: Box) -> dict[str, int]:
    """The modules of all functions, each with the samples whose innermost function is of it."""
    found: dict[str, int] = {}
    for box, _ in placed_boxes(root):
        if box.name.module:
            found[box.name.module] = found.get(box.name.module, 0) + box.own
    return found


# ---- colours


def hues_of(own: dict[str, int], program: str) -> dict[str, Hue]:
    """The hue of each module: first the program, then those with more samples of their own. There are hues for seven."""
    modules = sorted(own, key=lambda module: (module != program, -own[module], module))
    first = 0 if program in own or not program else 1
    return {module: HUES[i] if i < len(HUES) else OTHER for i, module in enumerate(modules, first)}


def colour_of(name: Name, hues: dict[str, Hue]) -> str:
    """The colour of a box: its module's, a little different for each name, and light, since its text is dark."""
    if name.module not in hues:
        return RED if name == REFUSED else GREY
    hue, saturation, lightness = hues[name.module]
    number = zlib.crc32(name.text.encode())
    hue += number % 17 - 8
    lightness += 0.08 * ((number >> 8) % 256) / 255
    parts = colorsys.hls_to_rgb(hue % 360 / 360, lightness, saturation)
    return "#" + "".join(f"{round(255 * part):02x}" for part in parts)


# ---- texts


def letters_of(text: str) -> int:
    """How many letters wide a text is: some letters take the room of two, and marks on others none."""
    wide = sum(unicodedata.east_asian_width(letter) in "WF" for letter in text)
    return len(text) + wide - sum(unicodedata.combining(letter) > 0 for letter in text)


def fitted(text: str, width: float) -> str:
    """As much of a text as fits, with a sign where it was cut; nothing where fewer than three letters would be left."""
    room = int(width / LETTER)
    if letters_of(text) <= room:
        return text
    while text and letters_of(text) + 1 > room:
        text = text[:-1]
    return text + "…" if len(text) >= 3 else ""


def share(count: int, total: int) -> str:
    """A number of samples as a part of all."""
    return f"{100 * count / total:.1f}%"


def plural(count: int, noun: str) -> str:
    """A number with its noun."""
    return f"{count:,} {noun}" + ("" if count == 1 else "s")


def title_of(box: Box, total: int) -> str:
    """What is shown of a box that is pointed at."""
    module = f" ({box.name.module})" if box.name.module else ""
    own = f", {box.own:,} in itself" if box.own else ""
    return f"{box.name.text}{module}: {plural(box.count, 'sample')}, {share(box.count, total)}{own}"


# ---- the picture


class Picture:
    """The shapes of a picture of some stacks."""

    def __init__(self, counts: Counts, drawing: Drawing) -> None:
        """Counts, and finds colours, the boxes that are wide enough, and the height."""
        self.counts, self.drawing = counts, drawing
        self.root = box_of(counts)
        self.own = own_of_modules(self.root)
        self.hues = hues_of(self.own, drawing.program)
        self.scale = (drawing.width - 2 * MARGIN) / max(self.root.count, 1)
        placed = list(placed_boxes(self.root))
        self.deepest = max(box.level for box, _ in placed)
        self.boxes = [(box, left) for box, left in placed if box.count * self.scale >= LEAST]
        self.narrow = len(placed) - len(self.boxes) if self.root.count else 0
        self.highest = max((box.level for box, _ in self.boxes), default=0)
        self.height = HEAD + (self.highest + 1) * ROW + FOOT

    def svg(self) -> str:
        """The file's text."""
        width, height = self.drawing.width, self.height
        lines = [
            f'<svg xmlns="http://www.w3.org/2000/svg" width="{width}" height="{height}" '
            f'viewBox="0 0 {width} {height}" role="img" font-family="{FONTS}" font-size="{FONT}" fill="{INK}">',
            f"<title>{escape(self.drawing.title)}: {escape(self.numbers())}</title>",
            f"<style>{STYLE}</style>",
            f'<rect width="{width}" height="{height}" fill="{PAPER}"/>',
            *self.head(),
            *(self.shape(box, left) for box, left in self.boxes),
            *self.foot(),
            "</svg>",
            "",
        ]
        return "\n".join(lines)

    def numbers(self) -> str:
        """What there is in all."""
        stacks = len(self.counts.keys() - {(END,), (REFUSED,)})
        return f"{plural(self.root.count, 'sample')}, {plural(stacks, 'stack')}, at most {plural(self.deepest, 'function')} deep"

    def head(self) -> Iterator[str]:
        """The title, the numbers, and a line of the modules."""
        room = self.drawing.width - 2 * MARGIN
        title = fitted(self.drawing.title, room * FONT / 16)
        yield f'<text x="{MARGIN}" y="24" font-size="16" font-weight="bold">{escape(title)}</text>'
        refused, total = self.counts.get((REFUSED,), 0), self.root.count
        look = f'fill="{WARNING}" font-weight="bold"' if refused else f'fill="{FAINT}"'
        part = f" ({share(refused, total)})" if refused else ""
        yield (
            f'<text x="{MARGIN}" y="44" fill="{FAINT}">{escape(self.numbers())}; '
            f"<tspan {look}>{refused:,} refused{part}</tspan></text>"
        )
        yield from self.legend(room)

    def legend(self, room: float) -> Iterator[str]:
        """The modules with their colours and the samples whose innermost function is of them, as many as fit."""
        left, modules = MARGIN + 13 * LETTER, list(self.hues)
        if modules:
            yield f'<text x="{MARGIN}" y="64" fill="{FAINT}">innermost in</text>'
        for i, module in enumerate(modules):
            text = f"{module} {share(self.own[module], self.root.count)}"
            width = 18 + letters_of(text) * LETTER
            others = f"and {plural(len(modules) - i, 'other')}"
            if left + width + 20 + len(others) * LETTER > MARGIN + room:
                yield f'<text x="{left:.1f}" y="64" fill="{FAINT}">{others}</text>'
                return
            colour = colour_of(Name("", module), self.hues)
            yield f'<rect x="{left:.1f}" y="54" width="12" height="12" fill="{colour}"/>'
            yield f'<text x="{left + 18:.1f}" y="64" fill="{FAINT}">{escape(text)}</text>'
            left += width + 20

    def shape(self, box: Box, left: int) -> str:
        """A box with its texts."""
        x, width = MARGIN + left * self.scale, box.count * self.scale
        y = HEAD + (self.highest - box.level) * ROW
        # a line of the ground stands between neighbours, where they are wide enough
        drawn = width - 1 if width > 3 else width * 0.8
        return (
            f"<g><title>{escape(title_of(box, self.root.count))}</title>"
            f'<rect x="{x:.1f}" y="{y}" width="{drawn:.1f}" height="{ROW - 1}" fill="{colour_of(box.name, self.hues)}" rx="1"/>'
            f"{''.join(self.texts(box, x, y + 13, drawn))}</g>"
        )

    def texts(self, box: Box, x: float, y: int, width: float) -> Iterator[str]:
        """As much of a box's name as fits and, where all of it does and there is room, the part of the samples."""
        shown = fitted(box.name.text, width - 2 * PADDING)
        if shown:
            yield f'<text x="{x + PADDING:.1f}" y="{y}">{escape(shown)}</text>'
        part = share(box.count, self.root.count)
        if shown == box.name.text and (letters_of(shown) + len(part) + 2) * LETTER + 2 * PADDING <= width:
            yield f'<text x="{x + width - PADDING:.1f}" y="{y}" text-anchor="end">{part}</text>'

    def foot(self) -> Iterator[str]:
        """What a box is, and how many there is no room for."""
        text = "A box is as wide as its samples are many and stands on its caller's; its colour is its module's."
        if self.narrow:
            text += f" {self.narrow:,} {'box is' if self.narrow == 1 else 'boxes are'} too narrow to draw."
        shown = fitted(text, self.drawing.width - 2 * MARGIN)
        yield f'<text x="{MARGIN}" y="{self.height - 11}" fill="{FAINT}">{escape(shown)}</text>'


def picture_of(counts: Counts, drawing: Drawing = Drawing()) -> str:
    """The picture of stacks, as the text of an SVG file."""
    return Picture(counts, drawing).svg()
