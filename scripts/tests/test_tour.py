"""The tour: its replies are those of the second reading of the definitions, it waits at a terminal alone, and what doesn't come back is told."""
import contextlib
import io
import os
import subprocess
import sys
import unittest
import unittest.mock

TOP = os.path.dirname(os.path.dirname(os.path.dirname(os.path.realpath(__file__))))
sys.path.insert(0, f"{TOP}/scripts")

from stress import fuzz  # noqa: E402
import program  # noqa: E402
import tour  # noqa: E402
from reference import Reference  # noqa: E402


class Second:
    """A connection to the second reading, which leaves some lines undone."""

    def __init__(self, left_out=()):
        self.reference, self.left_out = Reference([fuzz.ACCOUNTS]), left_out

    def ask_line(self, line):
        return '{"ok":true,"revision":0}' if line in self.left_out else self.reference.answer(1, line.encode()).decode().strip()


class Tour(unittest.TestCase):
    def toured(self, db):
        said = io.StringIO()
        with contextlib.redirect_stdout(said):
            well = tour.tour(db)
        return well, said.getvalue()

    def test_replies(self):
        """Those of the program, through a pipe, where nothing waits."""
        words = [sys.executable, f"{TOP}/scripts/tour.py", "--program", program.program()]
        ran = subprocess.run(words, stdin=subprocess.DEVNULL, capture_output=True, text=True, timeout=60)
        self.assertEqual((ran.returncode, ran.stdout), (0, self.toured(Second())[1]), ran.stderr)

    def test_what_does_not_come_back_is_told(self):
        self.assertTrue(self.toured(Second())[0])
        well, said = self.toured(Second(['{"cmd":"undo"}']))
        self.assertFalse(well)
        self.assertIn("That isn't what stood there before.", said)

    def test_no_command_is_refused_unseen(self):
        """Two refusals are meant, and no others come."""
        said = self.toured(Second())[1]
        refused = [it for it in said.split("\n") if it.startswith('{"error"')]
        self.assertEqual(refused, ['{"error":"unique","id":2,"index":"by_owner","ok":false}', '{"error":"session","ok":false}'])

    def test_a_terminal(self):
        steps = sum(len(it[1]) for it in tour.CHAPTERS)
        with unittest.mock.patch.object(sys, "stdin") as typed, unittest.mock.patch("tour.sys.stdout") as shown:
            typed.isatty.return_value = shown.isatty.return_value = True
            with unittest.mock.patch("builtins.input", return_value="") as asked:
                tour.tour(Second())
            self.assertEqual(asked.call_count, steps)
            with unittest.mock.patch("builtins.input", side_effect=["", " q"]) as asked:
                tour.tour(Second())
            self.assertEqual(asked.call_count, 2)
            with unittest.mock.patch("builtins.input", side_effect=EOFError):
                self.assertTrue(tour.tour(Second()))


if __name__ == "__main__":
    unittest.main()
