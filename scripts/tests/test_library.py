"""The library's parts agree: the header's calls are the exports and those of the map, with the types that C passes for theirs, and the words
of statuses are the same in each language. It needs no library."""
import os
import re
import sys
import tempfile
import unittest

TOP = os.path.dirname(os.path.dirname(os.path.dirname(os.path.realpath(__file__))))
sys.path[:0] = [f"{TOP}/scripts", f"{TOP}/clients/python"]

import library  # noqa: E402
from mi_client import embedded  # noqa: E402

PASSED = {
    "Global": [],
    "&[u8]": ["const void *", "size_t"],
    "&mut [u8]": ["void *", "size_t"],
    "u32": ["uint32_t"],
    "u64": ["uint64_t"],
    "usize": ["size_t"],
    "*mut u8": ["weltiyo_db *"],
    "&mut *mut u8": ["weltiyo_db **"],
    "&[Cell]": ["const weltiyo_value *", "size_t"],
    "&mut [Cell]": ["weltiyo_value *", "size_t"],
    "&[EditCell]": ["const weltiyo_edit *", "size_t"],
    "&mut [u64]": ["uint64_t *", "size_t"],
    "i64": ["int64_t"],
    "CallResult": ["weltiyo_told"],
    "Field": ["weltiyo_field"],
}
"""What C passes for a parameter of an export."""

EXPORT = re.compile(r'#\[unsafe\(no_mangle\)\]\s+pub (?:unsafe )?extern "C" fn (\w+)\(([^)]*)\)(?: -> (\w+))?')
PROTOTYPE = re.compile(r"^(uint32_t|size_t|void|weltiyo_told|weltiyo_field) (weltiyo_\w+)\(([^)]*)\);", re.M)


def read(path):
    with open(f"{TOP}/{path}", encoding="utf-8") as file:
        return file.read()


def exports():
    """Each export: its parameters and its result as C passes them."""
    found = {}
    sources = sorted(os.listdir(f"{TOP}/crates/weltiyo/src"))
    for name, parameters, result in EXPORT.findall("".join(read(f"crates/weltiyo/src/{it}") for it in sources)):
        kinds = [it.partition(":")[2].strip() for it in parameters.split(",") if it.strip()]
        found[name] = (PASSED[result][0] if result else "void", [it for kind in kinds for it in PASSED[kind]])
    return found


def prototypes():
    found = {}
    for result, name, parameters in PROTOTYPE.findall(read("clients/c/weltiyo.h")):
        found[name] = (result, [re.sub(r"\w+$", "", it.strip()).strip() for it in parameters.split(",")])
    return found


class Agree(unittest.TestCase):
    def test_the_header_has_the_exports(self):
        self.assertEqual(len(exports()), 44)
        self.assertEqual(prototypes(), exports())

    def test_the_map_has_the_exports(self):
        self.assertEqual(sorted(re.findall(r"(weltiyo_\w+);", read("clients/c/weltiyo.map"))), sorted(exports()))

    def test_the_words_of_refusals(self):
        header = read("clients/c/weltiyo.h")
        word = header[header.index("*weltiyo_refusal_word"):]
        words = re.findall(r'"(\w+)"', word[:word.index("return status <")])
        numbered = header[header.index("typedef enum weltiyo_refusal"):header.index("} weltiyo_refusal;")]
        for name, n in re.findall(r"WELTIYO_(?:REFUSED_|NO_)(\w+) = (\d+)", numbered):
            self.assertEqual(words[int(n)], {"lost": "unique"}.get(name.lower(), name.lower()))
        refusals = dict(re.findall(r"Refusal::(\w+)(?: { \.\. })? => (\d+)", read("crates/mi_embed/src/call_result.rt")))
        self.assertEqual(sorted(map(int, refusals.values())), list(range(1, 19)))
        self.assertEqual(int(refusals["NoTable"]), words.index("table"))
        self.assertEqual(int(refusals["Memory"]), words.index("memory"))

    def test_the_words_of_statuses(self):
        header = read("clients/c/weltiyo.h")
        word = header[header.index("*weltiyo_word"):]
        words = re.findall(r'"(\w+)"', word[:word.index("return status <")])
        statuses = header[header.index("typedef enum weltiyo_status"):header.index("} weltiyo_status;")]
        numbers = {name.lower(): int(n) for name, n in re.findall(r"WELTIYO_(\w+) = (\d+)", statuses)}
        self.assertEqual(numbers, {word: n for n, word in enumerate(words)})
        rust = read("clients/rust/src/lib.rs")
        self.assertEqual(re.findall(r'"(\w+)"', rust[rust.index("const WORDS"):rust.index("WORDS.get")]), words)
        self.assertEqual(list(embedded.WORDS), words)
        self.statuses(read("crates/mi_embed/src/fault.rt"), read("crates/mi_schema/src/fault.rt"), words)

    def statuses(self, faults, schema_faults, words):
        """The numbers that the library gives to faults stand for the words of those faults."""
        word_of = dict(re.findall(r'SchemaFault::(\w+) => "(\w+)"', schema_faults))
        numbers = {word_of[name]: int(n) for name, n in re.findall(r"Schema\(SchemaFault::(\w+)\) => (\d+)", faults)}
        numbers["file"] = int(re.search(r"OpenFault::Long => (\d+)", faults)[1])
        self.assertEqual({"ok": 0, **numbers}, {word: n for n, word in enumerate(words)})

    def test_one_version(self):
        wanted = f'"{library.VERSION}"'
        self.assertIn(f"#define WELTIYO_VERSION {wanted}\n", read("clients/c/weltiyo.h"))
        self.assertIn(f"version = {wanted}\n", read("clients/rust/Cargo.toml"))
        self.assertIn(f"version = {wanted}\n", read("clients/python/pyproject.toml"))


class Stale(unittest.TestCase):
    def test_what_is_not_there_is_not_fresh(self):
        kept = library.MADE, library.STAMP
        with tempfile.TemporaryDirectory() as folder:
            library.MADE, library.STAMP = folder, f"{folder}/proved.stamp"
            try:
                self.assertIsNone(library.path())
                with open(library.STAMP, "w", encoding="ascii") as file:
                    file.write("sources 0\nlibrary 0\n")
                self.assertIsNone(library.path())
                self.assertRaises(SystemExit, library.need_proved)
            finally:
                library.MADE, library.STAMP = kept


if __name__ == "__main__":
    unittest.main()
