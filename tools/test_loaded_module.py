"""Tests of loaded_module.py: a module by its frame table, and by its header."""
import unittest

from elf_image import Range
from loaded_module import Module, module_objects, places_of, taken_line

PLAIN = Module(
    "/usr/lib/libone.so", 0x7F0000, "00ff", [Range(0x7F1000, 0x7F2000), Range(0x7F8000, 0x7F9000)],
    Range(0x7F3000, 0x7F3400), None, [Range(0x7F3400, 0x7F3480)], [],
)
WITH_HEADER = PLAIN._replace(header=Range(0x7F2F00, 0x7F2F40))
NAMES = {"path": "/usr/lib/libone.so", "bias": "0x7f0000", "build_id": "00ff"}


class Modules(unittest.TestCase):
    def test_one_module_for_each_executable_segment(self) -> None:
        first = {"kind": "elf", "start": "0x7f1000", "end": "0x7f2000", "eh_frame": "0x7f3000"} | NAMES
        second = first | {"start": "0x7f8000", "end": "0x7f9000"}
        self.assertEqual(module_objects(PLAIN), [first, second])

    def test_a_header_stands_in_place_of_the_frame_table(self) -> None:
        for module in module_objects(WITH_HEADER):
            self.assertEqual(module["eh_frame_hdr"], "0x7f2f00")
            self.assertNotIn("eh_frame", module)

    def test_the_bytes_of_the_header_and_of_its_frame_table_are_taken(self) -> None:
        tables = [Range(0x7F3000, 0x7F3400), Range(0x7F3400, 0x7F3480)]
        self.assertEqual(places_of(PLAIN), tables)
        self.assertEqual(set(places_of(WITH_HEADER)), {*tables, Range(0x7F2F00, 0x7F2F40)})

    def test_what_the_system_maps_has_no_file(self) -> None:
        supplied = PLAIN._replace(name="system-supplied DSO at 0x7f0000", build_id=None)
        self.assertEqual(module_objects(supplied)[0]["path"], "[vdso]")
        self.assertNotIn("build_id", module_objects(supplied)[0])

    def test_the_line_of_a_module(self) -> None:
        self.assertEqual(
            taken_line(WITH_HEADER, " (deleted)"),
            "takes /usr/lib/libone.so (deleted): code 0x7f1000-0x7f2000, 0x7f8000-0x7f9000, "
            ".eh_frame 0x7f3000-0x7f3400, .eh_frame_hdr 0x7f2f00-0x7f2f40, language tables 0x7f3400-0x7f3480",
        )


if __name__ == "__main__":
    unittest.main()
