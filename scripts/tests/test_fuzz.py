"""Whether `fuzz.py` finds a program that answers all lines as it must and then doesn't end so: on one that is made here, the reference over its
input and over loopback."""
import os
import random
import sys
import tempfile
import unittest
import unittest.mock

TOP = os.path.dirname(os.path.dirname(os.path.dirname(os.path.realpath(__file__))))
sys.path.insert(0, f"{TOP}/scripts")

from stress import fuzz  # noqa: E402

# How it ends is what END says.
PROGRAM = f"""#!{sys.executable}
import os, socket, sys, time
sys.path.insert(0, {TOP + "/scripts"!r})
from stress.fuzz import ACCOUNTS
from reference import Reference
reference, words = Reference([ACCOUNTS]), sys.argv[1:]
if words:
    with socket.create_server(("127.0.0.1", int(words[1]))) as listener:
        streams = {{n: listener.accept()[0] for n in range(int(words[3]))}}
    while streams:
        for n, stream in list(streams.items()):
            piece = stream.recv(65_536)
            stream.sendall(reference.feed(n, piece) if piece else reference.close(n))
            if not piece:
                streams.pop(n).close()
else:
    sys.stdout.buffer.write(reference.feed(1, sys.stdin.buffer.read()) + reference.close(1))
    sys.stdout.close()
end = os.environ["END"]
if end == "says":
    print("odd", file=sys.stderr)
elif end == "hangs":
    time.sleep(60)
elif end == "aborts":
    os.abort()
"""


class Ends(unittest.TestCase):
    def setUp(self):
        folder = tempfile.TemporaryDirectory()
        self.addCleanup(folder.cleanup)
        self.path = f"{folder.name}/program"
        with open(self.path, "w", encoding="utf-8") as file:
            file.write(PROGRAM)
        os.chmod(self.path, 0o755)
        for name, value in (("FOLDER", folder.name), ("LONGEST_END", 1)):
            changed = unittest.mock.patch.object(fuzz, name, value)
            changed.start()
            self.addCleanup(changed.stop)

    def differ(self, end):
        """How a case differs over input and over loopback."""
        catalog, made = ([fuzz.ACCOUNTS], 0), fuzz.Lines(1)
        lines = [made.text(made.command(catalog[0])) for _ in range(20)]
        with unittest.mock.patch.dict(os.environ, {"END": end}):
            over_pipes = fuzz.over_pipes(self.path, catalog, lines) if end != "hangs" else None
            return over_pipes, fuzz.over_loopback(self.path, catalog, lines, random.Random(1))

    def test_a_sound_one(self):
        self.assertEqual(self.differ(""), (None, None))

    def test_one_that_aborts(self):
        self.assertEqual(self.differ("aborts"), ("the program ended with status -6: ",) * 2)

    def test_one_that_says_something(self):
        self.assertEqual(self.differ("says"), ("the program ended with status 0: odd\n",) * 2)

    def test_one_that_hangs(self):
        self.assertEqual(self.differ("hangs")[1], "the program hadn't ended after 1 s")


if __name__ == "__main__":
    unittest.main()
