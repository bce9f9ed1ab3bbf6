"""The alarms and the dashboard in examples/ ask for nothing but what `weltiyo metrics` writes, and leave out none of it."""
import json
import os
import re
import shutil
import subprocess
import sys
import unittest

TOP = os.path.dirname(os.path.dirname(os.path.dirname(os.path.realpath(__file__))))
sys.path.insert(0, f"{TOP}/clients/python")

from mi_tools import top  # noqa: E402
from mi_tools.journal_files import Base, Files  # noqa: E402
from mi_tools.process import Usage  # noqa: E402

RULES, BOARD = f"{TOP}/examples/weltiyo.rules.yml", f"{TOP}/examples/weltiyo-dashboard.json"


def read(path):
    with open(path, encoding="utf-8") as file:
        return file.read()


def written():
    """The names that `weltiyo metrics` writes where it is told everything."""
    usage = Usage(1, 1, 1, 1)
    sample = top.Sample(0, [("accounts", 1)], 1, 1, "nobody", 1, usage, connections=1, unsent=1, journal=1, is_full=False, lines={1: 1}, uptime=1, room=1,
                        held_for=1, synced=1, memories={"accounts": 1}, files=Files(1, 1, 1, Base(1, 1)), ahead=1, segment=1)
    return set(re.findall(r"^# TYPE (\w+) ", top.prometheus(sample), re.M))


def asked(text):
    return set(re.findall(r"\bweltiyo_\w+", text))


class Examples(unittest.TestCase):
    def test_the_dashboard(self):
        board = json.loads(read(BOARD))
        expressions = [it["expr"] for panel in board["panels"] for it in panel["targets"]]
        self.assertEqual(asked(" ".join(expressions)), written())
        places = [(it["gridPos"]["x"], it["gridPos"]["y"]) for it in board["panels"]]
        self.assertEqual(len(set(places)), len(places))

    def test_the_alarms(self):
        expressions = re.findall(r"^ +expr: (.*)$", read(RULES), re.M)
        self.assertEqual(len(expressions), len(re.findall(r"- alert:", read(RULES))))
        self.assertLessEqual(asked(" ".join(expressions)), written())

    @unittest.skipUnless(shutil.which("promtool"), "promtool isn't there")
    def test_prometheus_takes_the_alarms(self):
        done = subprocess.run(["promtool", "check", "rules", RULES], capture_output=True, text=True)
        self.assertEqual(done.returncode, 0, done.stdout + done.stderr)


if __name__ == "__main__":
    unittest.main()
