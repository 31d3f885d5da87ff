"""The table of calls and the refusals are those of include/waterways.h."""
import ctypes
import re
import unittest
from pathlib import Path

from waterways import calls
from waterways.refusals import REFUSALS

HEADER = Path(__file__).resolve().parents[2] / "include" / "waterways.h"
C_TYPES = {
    "uint8_t": ctypes.c_uint8,
    "uint32_t": ctypes.c_uint32,
    "int32_t": ctypes.c_int32,
    "uint64_t": ctypes.c_uint64,
    "int64_t": ctypes.c_int64,
    "size_t": ctypes.c_size_t,
}


def declared() -> dict[str, list[tuple[str, type]]]:
    """Name and type of each parameter of each call that the header declares, but for the run of scripts."""
    found = {}
    for name, words in re.findall(r"^uint32_t net_(\w+)\(([^;]*)\);", HEADER.read_text(), re.MULTILINE):
        parameters = []
        for word in words.split(","):
            word = re.fullmatch(r"\s*(?:const )?(\w+) (\*?)(\w+)(\[3])?\s*", word)
            cell, pointer = C_TYPES[word[1]], word[2] or word[4]
            parameters.append((word[3], ctypes.POINTER(cell) if pointer else cell))
        found[name] = parameters
    return found


class Header(unittest.TestCase):
    def test_every_call_is_in_the_table(self):
        self.assertEqual(list(calls.PARAMETERS), list(declared()))

    def test_types(self):
        for name, parameters in declared().items():
            with self.subTest(name):
                self.assertEqual(calls.argument_types(name), [kind for _, kind in parameters])

    def test_names_and_their_order(self):
        for name, parameters in declared().items():
            ours = [*calls.TABLES, *(parameter.name for parameter in calls.PARAMETERS[name])]
            theirs = [parameter for parameter, _ in parameters if not parameter.endswith("_len")]
            with self.subTest(name):
                self.assertEqual(ours, theirs)

    def test_refusals(self):
        enum = re.search(r"enum net_answer \{(.*?)\};", HEADER.read_text(), re.DOTALL).group(1)
        theirs = {int(number): name for name, number in re.findall(r"NET_(\w+) = (\d+)", enum)}
        ours = {0: "DONE"}
        for number, refusal in REFUSALS.items():
            ours[number] = re.sub(r"(?<!^)([A-Z])", r"_\1", refusal.__name__).upper()
        self.assertEqual(ours, theirs)
        self.assertEqual(sorted(REFUSALS), list(range(1, 19)))
        self.assertTrue(all(refusal.meaning for refusal in REFUSALS.values()))


if __name__ == "__main__":
    unittest.main()
