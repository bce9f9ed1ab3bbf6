"""What is kept of a long run, and that one which breaks off leaves what was there."""
import contextlib
import io
import json
import os
import sys
import tempfile
import unittest
from unittest import mock

sys.path.insert(0, f"{os.path.dirname(os.path.dirname(os.path.realpath(__file__)))}")

import results  # noqa: E402

SAYS = "print('one'); print(); print('two ' + 'x' * 400)"


class Results(unittest.TestCase):
    def done(self, *words):
        with contextlib.redirect_stdout(io.StringIO()) as said:
            run = results.done(words)
        return run, said.getvalue()

    def test_what_is_kept(self):
        run, said = self.done(sys.executable, "-c", SAYS)
        self.assertEqual(said.splitlines()[:2], ["one", ""])
        self.assertEqual((run["status"], run["printed"]), (0, ["one", "two " + "x" * 296]))
        self.assertEqual(run["commit"], results.git("rev-parse", "--short=12", "HEAD"))
        self.assertIn("print", run["command"])

    def test_the_last_lines(self):
        run, _ = self.done(sys.executable, "-c", "for n in range(40): print(n)\nraise SystemExit(3)")
        self.assertEqual((run["status"], run["printed"]), (3, [str(n) for n in range(28, 40)]))

    def test_a_run_takes_the_place_of_the_one_before(self):
        with tempfile.TemporaryDirectory() as folder:
            path = f"{folder}/results.json"
            results.keep("b", {"status": 1}, path)
            results.keep("a", {"status": 0}, path)
            results.keep("b", {"status": 0}, path)
            self.assertEqual(results.kept(path), {"a": {"status": 0}, "b": {"status": 0}})
            with mock.patch("json.dump", side_effect=KeyboardInterrupt), self.assertRaises(KeyboardInterrupt):
                results.keep("a", {"status": 9}, path)
            with open(path, encoding="utf-8") as file:
                self.assertEqual(json.load(file)["a"], {"status": 0})


if __name__ == "__main__":
    unittest.main()
