"""Words by which a script would check nothing: each is told, with another status than that of a check which went well."""
import contextlib
import io
import os
import subprocess
import sys
import tempfile
import unittest
import unittest.mock

TOP = os.path.dirname(os.path.dirname(os.path.dirname(os.path.realpath(__file__))))
sys.path.insert(0, f"{TOP}/scripts")

import check_heads  # noqa: E402
from stress import faults  # noqa: E402
import further_edits  # noqa: E402


class Words(unittest.TestCase):
    def ran(self, script, *words):
        """The status, and what is said on standard error."""
        said = io.StringIO()
        with contextlib.redirect_stderr(said), contextlib.redirect_stdout(io.StringIO()):
            try:
                status = script.main([*words])
            except SystemExit as ended:
                status = ended.code
        return status, said.getvalue()

    def test_no_row(self):
        said = "faults: no row that can be run has these words in its name: no such row\n"
        self.assertEqual(self.ran(faults, "--row", "no such row", "--program", "/bin/true"), (2, said))

    def test_no_folder(self):
        with tempfile.TemporaryDirectory() as folder:
            for it in (folder, "/no/such"):
                said = f"{it}: no source file and no file of answers is there\n"
                self.assertEqual(self.ran(check_heads, it, f"{TOP}/crates/mi_value"), (2, said))
        self.assertEqual(self.ran(check_heads, f"{TOP}/crates/mi_value"), (0, ""))

    def test_no_crate(self):
        status, said = self.ran(further_edits, "--check", "mi_value", "mi_valeu")
        self.assertEqual((status, said.splitlines()[-1].partition("error: ")[2]), (2, "no crate of this name: mi_valeu"))

    def test_words_of_the_environment(self):
        """A terminal's LINES don't make `make fuzz` shorter, and no PROGRAM of the environment is installed."""
        env = {it: value for it, value in os.environ.items() if it not in ("MAKEFLAGS", "MFLAGS", "MAKELEVEL")}
        env.update(LINES="24", PROGRAM="/bin/true")
        for words, want in ((["fuzz"], "--lines 2000 "), (["fuzz", "LINES=7"], "--lines 7 "), (["install"], "scripts/program.py proved\n")):
            ran = subprocess.run(["make", "-C", TOP, "-n", *words], env=env, capture_output=True, text=True)
            self.assertIn(want, ran.stdout)


class Edits(unittest.TestCase):
    """Edits of a crate whose one file is `one two`."""

    def setUp(self):
        folder = tempfile.TemporaryDirectory()
        self.addCleanup(folder.cleanup)
        self.edits = f"{folder.name}/crates/a/further-edits"
        os.makedirs(self.edits)
        with open(f"{folder.name}/crates/a/text", "w", encoding="ascii") as file:
            file.write("one two\n")
        changed = unittest.mock.patch.object(further_edits.program, "TOP", folder.name)
        changed.start()
        self.addCleanup(changed.stop)

    def fault(self, text):
        with open(f"{self.edits}/it.edit", "w", encoding="ascii") as file:
            file.write(text)
        return further_edits.fault("a", f"{self.edits}/it.edit")

    def test_one_without_a_pair(self):
        for text in ("", "file: text\n"):
            self.assertEqual(self.fault(text), "no old and new text")
        self.assertEqual(self.fault("file: text\nold: one\n"), "an old text without a new one")
        self.assertIsNone(self.fault("file: text\nold: one\nnew: three\n"))

    def test_there_are_none(self):
        self.assertFalse(further_edits.check())
        self.fault("file: text\nold: one\nnew: three\n")
        self.assertTrue(further_edits.check())


if __name__ == "__main__":
    unittest.main()
