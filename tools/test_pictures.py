"""Tests of pictures.py: the layers, and that each picture is a whole file."""
import unittest
from xml.etree import ElementTree

from check_docs import crates_of
from pictures import TOP, layers_of, pictures, steps_down

CRATES = {"low": set(), "other": {"json"}, "middle": {"low"}, "high": {"low", "middle", "other"}}


class Layers(unittest.TestCase):
    def test_a_crate_is_one_above_the_highest_that_it_stands_on(self) -> None:
        self.assertEqual(layers_of(CRATES), [["low", "other"], ["middle"], ["high"]])

    def test_lines_lead_to_what_no_other_line_leads_to(self) -> None:
        self.assertEqual(steps_down(CRATES), {"low": set(), "other": set(), "middle": {"low"}, "high": {"middle", "other"}})


class Pictures(unittest.TestCase):
    def test_each_is_whole(self) -> None:
        for name, text in pictures().items():
            with self.subTest(name):
                self.assertTrue(ElementTree.fromstring(text).tag.endswith("svg"))

    def test_each_crate_has_a_box(self) -> None:
        drawn = [word.text for word in ElementTree.fromstring(pictures()["layers.svg"]) if word.text]
        for name in crates_of((TOP / "crates.txt").read_text()):
            self.assertEqual(drawn.count(name), 1, name)


if __name__ == "__main__":
    unittest.main()
