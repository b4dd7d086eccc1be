"""Tests of flame_picture.py: what stands where in a picture, and whether it can be read."""
import unittest
import xml.etree.ElementTree as ElementTree

from flame_picture import END, HUES, INK, LEAST, LETTER, OTHER, REFUSED, Drawing, Name, box_of, colour_of, fitted
from flame_picture import hues_of, letters_of, picture_of, title_of

SVG = "{http://www.w3.org/2000/svg}"
MAIN, INNER, COPY = Name("main", "prog"), Name("inner", "prog"), Name("memcpy", "libc.so.6")
COUNTS = {(MAIN, INNER, COPY): 60, (MAIN, INNER): 20, (MAIN,): 10, (END,): 4, (REFUSED,): 6}


def boxes_in(picture: str) -> list[tuple[str, float, float, float]]:
    """Of each box its title, its left side, its top and its width."""
    found = ElementTree.fromstring(picture).findall(f".//{SVG}g")
    rects = [(box.findtext(f"{SVG}title"), box.find(f"{SVG}rect").attrib) for box in found]
    return [(title, float(rect["x"]), float(rect["y"]), float(rect["width"])) for title, rect in rects]


def luminance(colour: str) -> float:
    """The relative luminance of a colour (WCAG 2.1)."""
    parts = [int(colour[i : i + 2], 16) / 255 for i in (1, 3, 5)]
    red, green, blue = [part / 12.92 if part <= 0.04045 else ((part + 0.055) / 1.055) ** 2.4 for part in parts]
    return 0.2126 * red + 0.7152 * green + 0.0722 * blue


class Boxes(unittest.TestCase):
    def test_counts(self) -> None:
        root = box_of(COUNTS)
        self.assertEqual((root.count, root.own), (100, 0))
        self.assertEqual({name.text: (box.count, box.own) for name, box in root.called.items()},
                         {"main": (90, 10), "[end]": (4, 4), "[refused]": (6, 6)})
        inner = root.called[MAIN].called[INNER]
        self.assertEqual((inner.count, inner.own, inner.level), (80, 20, 2))
        self.assertEqual(title_of(inner, 100), "inner (prog): 80 samples, 80.0%, 20 in itself")
        self.assertEqual(title_of(box_of({(END,): 1}).called[END], 3), "[end]: 1 sample, 33.3%, 1 in itself")

    def test_places(self) -> None:
        boxes = boxes_in(picture_of(COUNTS, Drawing(width=1020)))
        places = {title.split(" ")[0].rstrip(":"): place for title, *place in boxes}
        # 10 pixels a sample from a margin of 10 on, by the order of names, less a pixel between neighbours
        self.assertEqual({name: (x, width) for name, (x, _, width) in places.items()}, {
            "all": (10, 999), "[end]": (10, 39), "[refused]": (50, 59), "main": (110, 899), "inner": (110, 799), "memcpy": (110, 599),
        })
        tops = [places[name][1] for name in ("all", "main", "inner", "memcpy")]
        self.assertEqual([below - above for below, above in zip(tops, tops[1:])], [18, 18, 18])

    def test_boxes_lie_within_their_callers(self) -> None:
        counts = {tuple(Name(f"f{i * j % 7}", "m") for i in range(j % 9 + 1)): j for j in range(1, 40)}
        boxes = boxes_in(picture_of(counts))
        for _, x, y, width in boxes[1:]:
            below = [b for b in boxes if b[2] == y + 18 and b[1] <= x + 0.1 and x + width <= b[1] + b[3] + 1.1]
            self.assertTrue(below)
        for one in boxes:
            for other in boxes:
                self.assertFalse(one[2] == other[2] and one[1] < other[1] < one[1] + one[3] - 0.2)


class Looks(unittest.TestCase):
    def test_texts_fit(self) -> None:
        self.assertEqual(fitted("countdown", 9 * LETTER), "countdown")
        self.assertEqual(fitted("countdown", 9 * LETTER - 1), "countdo…")
        self.assertEqual(fitted("countdown", 4 * LETTER), "cou…")
        self.assertEqual(fitted("countdown", 4 * LETTER - 1), "")
        self.assertEqual(fitted("ab", 2 * LETTER), "ab")
        self.assertEqual((letters_of("名前"), letters_of("é"), letters_of("e\u0301")), (4, 1, 1))

    def test_no_text_leaves_its_box(self) -> None:
        names = [Name("n" * i, "m") for i in range(1, 60)]
        picture = ElementTree.fromstring(picture_of({(name,): i + 1 for i, name in enumerate(names)}))
        for box in picture.findall(f".//{SVG}g"):
            rect = box.find(f"{SVG}rect").attrib
            left, right = float(rect["x"]), float(rect["x"]) + float(rect["width"])
            taken = []
            for text in box.findall(f"{SVG}text"):
                x, length = float(text.attrib["x"]), letters_of(text.text) * LETTER
                taken.append((x - length, x) if text.get("text-anchor") == "end" else (x, x + length))
            for start, end in taken:
                self.assertTrue(left <= start and end <= right + 0.2, box[0].text)
            self.assertTrue(len(taken) < 2 or taken[0][1] < taken[1][0])

    def test_contrast(self) -> None:
        hues = {str(i): hue for i, hue in enumerate([*HUES, OTHER])}
        names = [Name(f"f{i}", module) for module in hues for i in range(400)] + [REFUSED, END]
        for name in names:
            light, dark = luminance(colour_of(name, hues)), luminance(INK)
            # 7 is what WCAG 2.1 asks for its best grade
            self.assertGreaterEqual((light + 0.05) / (dark + 0.05), 7, name)

    def test_hues(self) -> None:
        own = {"libc": 5, "prog": 1, "libm": 3}
        self.assertEqual(list(hues_of(own, "prog")), ["prog", "libc", "libm"])
        self.assertEqual(list(hues_of(own, "")), ["libc", "libm", "prog"])
        self.assertEqual(hues_of({"libc": 1}, "prog"), {"libc": HUES[1]})
        self.assertEqual(len(hues_of({str(i): i for i in range(12)}, "")), 12)

    def test_head(self) -> None:
        picture = ElementTree.fromstring(picture_of(COUNTS, Drawing("a <title>", program="prog")))
        texts = ["".join(text.itertext()) for text in picture.findall(f"{SVG}text")]
        self.assertEqual(texts[:5], [
            "a <title>", "100 samples, 3 stacks, at most 3 functions deep; 6 refused (6.0%)", "innermost in", "prog 30.0%", "libc.so.6 60.0%",
        ])
        second = ElementTree.fromstring(picture_of({(MAIN,): 1})).findall(f"{SVG}text")[1]
        self.assertEqual("".join(second.itertext()), "1 sample, 1 stack, at most 1 function deep; 0 refused")

    def test_many_modules(self) -> None:
        picture = picture_of({(Name("f", f"library_{i}.so"),): 1 for i in range(30)})
        self.assertRegex(picture, ">and 2[0-9] others</text>")
        lefts = [float(text.attrib["x"]) for text in ElementTree.fromstring(picture).findall(f"{SVG}text") if text.attrib["y"] == "64"]
        self.assertEqual(lefts, sorted(lefts))
        self.assertLess(lefts[-1] + len("and 26 others") * LETTER, 1200)

    def test_no_script(self) -> None:
        kinds = {element.tag.removeprefix(SVG) for element in ElementTree.fromstring(picture_of(COUNTS)).iter()}
        self.assertEqual(kinds, {"svg", "title", "style", "rect", "text", "tspan", "g"})


class Sizes(unittest.TestCase):
    def test_empty(self) -> None:
        picture = picture_of({})
        self.assertEqual(boxes_in(picture), [])
        self.assertIn("0 samples, 0 stacks", picture)

    def test_deep(self) -> None:
        names = tuple(Name(f"f{i}", "m") for i in range(5_000))
        boxes = boxes_in(picture_of({names: 1}))
        self.assertEqual(len(boxes), 5_001)
        self.assertEqual(len({y for _, _, y, _ in boxes}), 5_001)

    def test_narrow(self) -> None:
        counts = {(Name("wide"),): 1_000_000, (Name("a"), Name("b")): 1}
        picture = picture_of(counts)
        self.assertEqual(len(boxes_in(picture)), 2)
        # as high as what is drawn: two rows, not three
        self.assertEqual({y for _, _, y, _ in boxes_in(picture)}, {76, 94})
        self.assertIn("2 boxes are too narrow to draw", picture)
        self.assertIn("1 box is too narrow to draw", picture_of({(Name("wide"),): 1_000_000, (Name("a"),): 1}))
        self.assertTrue(all(width >= LEAST * 0.8 - 0.05 for *_, width in boxes_in(picture_of({(Name(str(i)),): 1 for i in range(3000)}))))


if __name__ == "__main__":
    unittest.main()
