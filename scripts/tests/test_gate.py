"""What `.ci/run` counts: by a `make` that is made here."""
import os
import shutil
import subprocess
import tempfile
import unittest

TOP = os.path.dirname(os.path.dirname(os.path.dirname(os.path.realpath(__file__))))

# The targets named in FAILING fail; `test` says its count, if it has one.
MAKE = """#!/bin/sh
shift
[ "$MAKEFLAGS" = i ] && FAILING=
case "$1" in test) echo "a proof"; [ -n "$COUNT" ] && echo "$COUNT" ;; esac
case " $FAILING " in *" $1 "*) exit 1 ;; esac
"""


class Gate(unittest.TestCase):
    def ran(self, count="40 passed, 0 failed", failing="", **more):
        with tempfile.TemporaryDirectory() as top:
            os.mkdir(f"{top}/.ci")
            shutil.copy(f"{TOP}/.ci/run", f"{top}/.ci/run")
            with open(f"{top}/make", "w", encoding="ascii") as file:
                file.write(MAKE)
            os.chmod(f"{top}/make", 0o755)
            env = {**os.environ, "PATH": f"{top}:{os.environ['PATH']}", "CC": "sh", "COUNT": count, "FAILING": failing, **more}
            ran = subprocess.run([f"{top}/.ci/run"], env=env, capture_output=True, text=True)
            return ran.returncode, ran.stdout.splitlines()[-1], ran.stdout

    def test_counts(self):
        for count, failing, want in [
            ("40 passed, 0 failed", "", (0, "42 passed, 0 failed")),
            ("40 passed, 0 failed", "check-docs", (1, "41 passed, 1 failed")),
            ("40 passed, 0 failed", "faults", (1, "41 passed, 1 failed")),
            ("38 passed, 2 failed", "test", (1, "40 passed, 2 failed")),
            ("40 passed, 0 failed", "test", (1, "42 passed, 1 failed")),
            ("", "test", (1, "2 passed, 1 failed")),
            ("", "check-docs faults test", (1, "0 passed, 3 failed")),
        ]:
            self.assertEqual(self.ran(count, failing)[:2], want, (count, failing))

    def test_errors_that_make_is_told_to_ignore(self):
        self.assertEqual(self.ran(failing="check-docs faults", MAKEFLAGS="i")[:2], (1, "40 passed, 2 failed"))

    def test_without_a_compiler(self):
        status, last, said = self.ran(CC="/no/compiler")
        self.assertEqual((status, last), (0, "41 passed, 0 failed"))
        self.assertIn("make faults is left out and not counted", said)

    def test_it_tells_times_and_one_count(self):
        said = self.ran()[2]
        for it in ("make check-docs took", "make faults ARGS=--short took", "make test took", "a proof"):
            self.assertIn(it, said)
        self.assertEqual(said.count(" passed, "), 1)


if __name__ == "__main__":
    unittest.main()
