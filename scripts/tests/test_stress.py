"""The one command of what strains a program: each of its names is a module with a `main`, and its words and its status are handed on."""
import importlib
import os
import re
import subprocess
import sys
import unittest

TOP = os.path.dirname(os.path.dirname(os.path.dirname(os.path.realpath(__file__))))
sys.path.insert(0, f"{TOP}/scripts")

from stress.__main__ import COMMANDS  # noqa: E402


class Stress(unittest.TestCase):
    def ran(self, *words):
        words = [sys.executable, f"{TOP}/scripts/stress", *words]
        return subprocess.run(words, stdin=subprocess.DEVNULL, capture_output=True, text=True, timeout=60, cwd="/")

    def test_each_name_is_a_module(self):
        for name, (module, what) in COMMANDS.items():
            made = importlib.import_module(f"stress.{module}")
            self.assertTrue(callable(made.main), name)
            self.assertIn(f"\n    stress {name}", made.__doc__)
            self.assertTrue(what)

    def test_words_are_handed_on(self):
        ran = self.ran("stall", "--help")
        self.assertEqual((ran.returncode, ran.stdout.split("\n")[0]), (0, "usage: stress stall [-h] [--program FILE] [--seconds S] [--rounds N]"))
        ran = self.ran("faults", "--row", "no such row", "--program", "/bin/true")
        self.assertEqual((ran.returncode, ran.stderr), (2, "faults: no row that can be run has these words in its name: no such row\n"))

    def test_other_names(self):
        ran = self.ran("none")
        self.assertEqual((ran.returncode, ran.stdout), (2, ""))
        self.assertIn("no command none", ran.stderr)
        listed = self.ran()
        self.assertEqual(listed.returncode, 2)
        self.assertEqual(re.findall(r"^    ([a-z-]+) ", listed.stdout, re.MULTILINE)[-len(COMMANDS):], list(COMMANDS))

    def test_make_names_them(self):
        with open(f"{TOP}/Makefile", encoding="utf-8") as file:
            named = set(re.findall(r"scripts/stress ([a-z-]+)", file.read()))
        self.assertEqual(named - set(COMMANDS), set())


if __name__ == "__main__":
    unittest.main()
