"""The line that says of which tree the gate passed: by outputs that are made here, in the words of `rt ci`."""
import os
import sys
import unittest

TOP = os.path.dirname(os.path.dirname(os.path.dirname(os.path.realpath(__file__))))
sys.path.insert(0, f"{TOP}/scripts")

import gate_line  # noqa: E402

WHOLE = """rt: mi_value proved
rt: must-fail mi_value/one.edit: refused, as it must be: ./proofs/one/Answers.antt:1:1: error: `returns`
rt: must-fail mi_value/two.edit: refused, as it must be: ./proofs/two/Answers.antt:1:1: error: `returns`
rt: ok; handles allowed: Net
9 passed, 0 failed
"""


class ALine(unittest.TestCase):
    def line(self, log):
        return gate_line.line_of(log, "abc", "4 processors (of a kind)", 71.6, "2026-01-02")

    def test_of_a_whole_run(self):
        want = "**Last run.** 2026-01-02, commit `abc`, 4 processors (of a kind): 72 minutes. 9 passed, 0 failed; 2 wrong bodies refused. "
        self.assertEqual(self.line(WHOLE), want + "All was done in this run, from nothing.")

    def test_of_a_run_over_what_was_kept(self):
        done = "done in this run: 0 of the 6 proofs (of crates and of their tests) and 1 of the 2 must-fail edits"
        log = WHOLE.replace("Net\n", f"Net; must-fail edits: 2 refused; {done}; the others are kept from earlier runs of the same files on this machine\n")
        self.assertTrue(self.line(log).endswith(f"2 wrong bodies refused. D{done[1:]}; earlier runs had done the others."), self.line(log))

    def test_of_none_that_passed(self):
        for log in ("", WHOLE.replace("9 passed, 0 failed", "8 passed, 1 failed"), "9 passed, 0 failed\n",
                    "rt: mi_value and the crates below passed\n9 passed, 0 failed (mi_value and the crates below alone: not the gate)\n"):
            with self.assertRaises(gate_line.NoLine):
                self.line(log)

    def test_is_put_in_the_place_of_one(self):
        self.assertEqual(gate_line.put("a\n**Last run.** old\nb", "**Last run.** new"), "a\n**Last run.** new\nb")
        for text in ("a\nb", "**Last run.** one\n**Last run.** two"):
            with self.assertRaises(gate_line.NoLine):
                gate_line.put(text, "**Last run.** new")

    def test_the_document_has_one(self):
        with open(gate_line.TESTING, encoding="utf-8") as file:
            gate_line.put(file.read(), "**Last run.** new")


if __name__ == "__main__":
    unittest.main()
