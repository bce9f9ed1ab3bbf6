"""Wrong bodies that are tried several in one check: by a crate and an `rt` that are made here."""
import contextlib
import io
import os
import sys
import tempfile
import unittest
from unittest import mock

sys.path.insert(0, os.path.dirname(os.path.dirname(os.path.realpath(__file__))))
import further_edits

SOURCE = """//! Two bodies.
impl Sums for Cell {
    fn add(&mut self, n: u64)
        ensures { self.new ≡ self.old + n }
    {
        self.0 += n;
    }
}

pub(crate) fn two() -> u64 {
    1 + 1
}

const LIMIT: u64 = 9;
"""
# It says of a function that has an `X` that it isn't proved, of `two` beside such an `add` that this is the callee's doing; and of each
# edit that it is alone given, that it is refused.
RT = """#!/usr/bin/env python3
import os, sys
if sys.argv[1] == "must-fail":
    for it in sorted(os.listdir("crates/sums/must-fail")):
        print("alone", it)
    sys.exit()
text = open("src/lib.rt").read()
print("rattle: a line of another kind")
print("fn sums::cell::CellSums::add: " + ("no proof: `search` did not prove `returns`" if "X" in text else "proved"))
print("fn sums::two: " + ("not proved; it calls `add`, which is not proved" if "Y" in text else "proved"))
sys.exit("X" in text)
"""
ADD = ("        self.0 += n;", "        self.0 += X;")
TWICE = ("        self.0 += n;", "        self.0 -= X;")
TWO = ("    1 + 1", "    1 + 2")
OTHERS = ("    1 + 1", "    1 + Y")
LIMIT = ("const LIMIT: u64 = 9;", "const LIMIT: u64 = 8;")


class FurtherEdits(unittest.TestCase):
    def setUp(self):
        room = tempfile.TemporaryDirectory()
        self.addCleanup(room.cleanup)
        self.top = room.name
        for it in ("src", "must-fail", "further-edits"):
            os.makedirs(f"{self.top}/crates/sums/{it}")
        self.write("crates/sums/src/lib.rt", SOURCE)
        self.write("crates.txt", "sums:\n")
        self.write("HANDLES", "Handles allowed: Net.\n")
        self.write("rt", RT)
        os.chmod(f"{self.top}/rt", 0o755)
        top = mock.patch.object(further_edits.program, "TOP", self.top)
        top.start()
        self.addCleanup(top.stop)

    def write(self, path, text):
        with open(f"{self.top}/{path}", "w", encoding="utf-8") as file:
            file.write(text)

    def edit(self, name, *pairs, folder="must-fail"):
        text = "file: src/lib.rt\n" + "".join(f"old: {old}\nnew: {new}\n" for old, new in pairs)
        self.write(f"crates/sums/{folder}/{name}.edit", text)

    def tried(self):
        said = io.StringIO()
        with contextlib.redirect_stdout(said):
            well = further_edits.tried_together(f"{self.top}/rt", "sums")
        return well, said.getvalue()

    def test_where_an_edit_stands(self):
        for pairs, want in [([ADD], "CellSums::add"), ([TWO], "two"), ([LIMIT], None), ([ADD, TWO], None)]:
            self.edit("one", *pairs)
            function = further_edits.read_edit("sums", f"{self.top}/crates/sums/must-fail/one.edit").function
            self.assertEqual(function and function[2], want)

    def test_two_of_one_function_are_two_checks(self):
        self.edit("add", ADD)
        self.edit("twice", TWICE, folder="further-edits")
        well, said = self.tried()
        self.assertTrue(well)
        self.assertIn("1 of 1 refused in check 2", said)
        self.assertIn("2 edits, 0 of them to be tried alone", said)

    def test_what_is_still_proved_is_told(self):
        self.edit("add", ADD)
        self.edit("two", TWO)
        well, said = self.tried()
        self.assertFalse(well)
        self.assertIn("crates/sums/must-fail/two.edit: NOT REFUSED", said)

    def test_what_is_not_its_own_doing_is_tried_alone(self):
        self.edit("add", ADD)
        self.edit("limit", LIMIT)
        self.edit("others", OTHERS, folder="further-edits")
        well, said = self.tried()
        self.assertTrue(well)
        self.assertIn("3 edits, 2 of them to be tried alone", said)
        self.assertEqual(sorted(os.listdir(f"{self.top}/crates/sums/must-fail")), ["add.edit", "limit.edit"])

    def test_what_is_not_known_is_tried_again_without_its_callee(self):
        self.edit("add", ADD)
        self.edit("caller", ("    1 + 1", "    1 + Z"))
        self.write("rt", RT.replace('"Y" in text', '"Z" in text and "X" in text'))
        well, said = self.tried()
        self.assertFalse(well)
        self.assertIn("0 of 1 refused in check 2", said)
        self.assertIn("caller.edit: NOT REFUSED", said)

    def test_a_crate_that_is_not_proved(self):
        self.write("crates/sums/src/lib.rt", SOURCE.replace("n;", "X;"))
        well, said = self.tried()
        self.assertFalse(well)
        self.assertIn("it isn't proved as it stands", said)


if __name__ == "__main__":
    unittest.main()
