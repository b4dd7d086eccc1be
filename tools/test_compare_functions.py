"""Tests of compare_functions.py, over text as readelf and perf print it."""
import unittest

from compare_functions import Descriptions, Functions, folded, named_frame, relation, samples_in
from names import modules_of
from snapshot_file import Object

READELF = """Contents of the .eh_frame section:

00000000 0000000000000014 00000000 CIE
  Version:               1
00000018 0000000000000014 0000001c FDE cie=00000000 pc=0000000000001070..0000000000001096
  DW_CFA_nop
00000030 0000000000000014 00000034 FDE cie=00000000 pc=00000000000010a0..00000000000010a0
00000048 0000000000000014 0000004c FDE cie=00000000 pc=0000000000001020..0000000000001040
"""

SCRIPT = """worker 7/9 1.000000001: 1 samples:
\t0x0 [popped] ([unknown])
\t0x401075 a.out+0x1070+0x5 (/usr/bin/a.out)
\t0x401050 a.out+0x1050+0x0 (/usr/bin/a.out)
\t0x0 [no table] ([unknown])

"""


def functions() -> Functions:
    """Those of a file at 0x400000 whose descriptions are given."""
    found = Functions({"modules": []}, None)
    module: Object = {"start": "0x401000", "end": "0x402000", "path": "/usr/bin/a.out", "bias": "0x400000"}
    found.modules = modules_of({"modules": [module]})
    found.descriptions = {"/usr/bin/a.out": Descriptions(READELF)}
    return found


class CompareFunctions(unittest.TestCase):
    def test_description_holds_its_first_byte_and_not_its_end(self) -> None:
        found = Descriptions(READELF)
        starts = [found.start(address) for address in (0x106F, 0x1070, 0x1095, 0x1096, 0x10A0, 0x1020)]
        self.assertEqual(starts, [None, 0x1070, 0x1070, None, None, 0x1020])

    def test_frame_is_the_start_of_its_function_or_its_address(self) -> None:
        texts = [functions().text(address) for address in (0x401075, 0x401050, 0x501050)]
        self.assertEqual(texts, ["a.out+0x1070", "a.out+0x1050", "0x501050"])

    def test_sample_is_folded_from_its_lines(self) -> None:
        ((key, name, sample),) = samples_in(SCRIPT)
        self.assertEqual((key, name), ((9, 1000000001), "worker"))
        self.assertEqual(sample.addresses, (0x401075, 0x401050))
        self.assertEqual(sample.texts, ("a.out+0x1070+0x5", "a.out+0x1050+0x0"))
        self.assertEqual(sample.marks, ("[popped]", "[no table]"))
        self.assertEqual([functions().script_text(address) for address in sample.addresses], list(sample.texts))
        self.assertEqual(functions().script_text(0x501050), "[unknown]")
        self.assertEqual(folded("main", sample, functions()), "main;[no table];a.out+0x1050;a.out+0x1070;[popped]")

    def test_symbol_is_held_against_the_description(self) -> None:
        frame = named_frame("\t            1075 leaf+0x5 (/usr/bin/a.out)")
        assert frame is not None
        self.assertEqual((frame.frame, frame.symbol, frame.offset), (("a.out", 0x1075), "leaf", 5))
        starts = [("a.out", 0x1070), ("a.out", 0x106F), ("a.out", 0x1071), None]
        self.assertEqual([relation(start, frame) for start in starts], ["same", "symbol inside", "symbol before", "no description"])

    def test_frame_without_a_symbol_and_a_frame_of_the_kernel(self) -> None:
        frame = named_frame("\t    7f0000001075 [unknown] (/usr/bin/a.out)")
        assert frame is not None
        self.assertEqual(relation(("a.out", 0x1070), frame), "no symbol")
        self.assertIsNone(named_frame("\tffffffff81000000 do_work+0x1 ([kernel.kallsyms])"))


if __name__ == "__main__":
    unittest.main()
