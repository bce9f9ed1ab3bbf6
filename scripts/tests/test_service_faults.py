"""What `service_faults.py` takes for a run with a call refused, and where it takes `memory` for a reply: on counts that are made here, and on a
stand-in of the service."""
import argparse
import contextlib
import io
import os
import struct
import sys
import tempfile
import unittest
import unittest.mock

HERE = os.path.dirname(os.path.realpath(__file__))
sys.path.insert(0, f"{os.path.dirname(os.path.dirname(HERE))}/scripts")

from stress import service_faults  # noqa: E402
from stress.journal_walk import Differs  # noqa: E402

STAND_IN = f"{HERE}/stand_in.py"


class Reached(unittest.TestCase):
    """The third request for memory is to be refused."""

    def refused(self, *counts, memory=0, ended="went on"):
        """What comes of runs with so many requests."""
        runs = iter(counts)

        def life(path, options, folder, env):
            with open(env["REFUSE_COUNTS"], "wb") as file:
                file.write(struct.pack("24sQ", b"memory", next(runs)))
            return ended, memory, 9

        with unittest.mock.patch.object(service_faults, "life", life):
            return service_faults.reached("", None, "", "memory", 3, "ENOMEM")

    def test_a_call_that_is_reached(self):
        self.assertEqual(self.refused(3, memory=1), ("went on", 1, None))
        self.assertEqual(self.refused(2, 4), ("went on", 0, None))

    def test_one_that_is_not(self):
        self.assertEqual(self.refused(2, 2), ("not reached", 0, None))

    def test_nothing_refused_and_something_wrong(self):
        for how in ({"memory": 1}, {"ended": "4 fault: poll"}):
            ended, _, differs = self.refused(2, **how)
            self.assertEqual(ended, "differs")
            self.assertIn("memory 3 with ENOMEM: nothing was refused", differs)


class Lives(unittest.TestCase):
    def life(self, plant, env):
        options = argparse.Namespace(seed=1, lines=60)
        with unittest.mock.patch.dict(os.environ, {"PLANT": plant}), tempfile.TemporaryDirectory() as folder:
            return service_faults.life(STAND_IN, options, folder, env)

    def test_memory_lacks_where_it_is_refused(self):
        self.assertEqual(self.life("", {}), ("went on", 0, 60))
        self.assertEqual(self.life("lacks", {"REFUSE_CALL": "memory"}), ("went on", 3, 60))
        for env in ({}, {"REFUSE_CALL": "write"}):
            with self.assertRaisesRegex(Differs, 'was answered .*"memory"'):
                self.life("lacks", env)

    def test_an_end_that_comes_late(self):
        with self.assertRaisesRegex(Differs, "it ended with '1 it died'"):
            self.life("dies", {})

    def test_no_call_of_a_name(self):
        said = io.StringIO()
        made = {"counted": lambda *_: {"write": 3}, "library": lambda name: name}
        with unittest.mock.patch.multiple(service_faults, **made), contextlib.redirect_stderr(said):
            self.assertEqual(service_faults.main(["--program", STAND_IN, "--call", "wirte"]), 2)
        self.assertEqual(said.getvalue(), "the service makes no call of this name: wirte\n")


if __name__ == "__main__":
    unittest.main()
