"""The unit files for systemd: their words are the service's, its journal lies in the folder that systemd makes for it, and systemd, where that is
there, has nothing against them."""
import configparser
import os
import shlex
import shutil
import socket
import subprocess
import sys
import tempfile
import time
import unittest

HERE = os.path.dirname(os.path.realpath(__file__))
TOP = os.path.dirname(os.path.dirname(HERE))
sys.path.insert(0, f"{TOP}/scripts")

import program  # noqa: E402
from stress import service  # noqa: E402

UNIT = f"{TOP}/examples/mi_service.service"
REBASE = f"{TOP}/examples/mi_service-rebase"
METRICS = f"{TOP}/examples/weltiyo-metrics.service"
STAND_IN = f"{HERE}/stand_in.py"


def read(path):
    """A unit file's parts."""
    found = configparser.ConfigParser(interpolation=None, strict=False)
    found.optionxform = str
    found.read(path)
    return found


def values(path, name):
    """What a unit file says by a name, each time."""
    with open(path, encoding="utf-8") as file:
        return [line.partition("=")[2].strip() for line in file if line.startswith(f"{name}=")]


class UnitFile(unittest.TestCase):
    def setUp(self):
        folder = tempfile.TemporaryDirectory()
        self.addCleanup(folder.cleanup)
        self.folder = folder.name
        self.program = service.path() if service.is_there() else STAND_IN
        self.said = read(UNIT)["Service"]

    def words(self, text):
        """The words behind the program, with the folder of this test in the place of systemd's."""
        return [it.replace("%S", self.folder) for it in text.split()[1:]]

    def test_its_words(self):
        _, *words = self.said["ExecStart"].split()
        self.assertTrue(words[words.index("--journal") + 1].startswith(f"%S/{self.said['StateDirectory']}/"))
        os.mkdir(f"{self.folder}/{self.said['StateDirectory']}")
        words = self.words(self.said["ExecStart"])
        at = words.index("--listen")
        del words[at:at + 2]
        with service.Service(self.program, extra=words) as running, running.connect() as stream:
            self.assertEqual(service.asked(stream, b'{"cmd":"size"}\n'), b'{"ok":true,"size":0}\n')
        self.assertEqual(os.listdir(f"{self.folder}/{self.said['StateDirectory']}"), ["journal"])

    def test_a_rebase_is_of_its_journal(self):
        said, now = read(f"{REBASE}.service")["Service"]["ExecStart"], self.words(self.said["ExecStart"])
        self.assertEqual(said.split()[0], self.said["ExecStart"].split()[0])
        self.assertIn(" ".join(now[now.index("--journal"):][:2]), " ".join(self.words(said)))
        folder = f"{self.folder}/{self.said['StateDirectory']}"
        os.mkdir(folder)
        self.assertEqual(self.rebased(said), (3, f"journal: file: {folder}/journal: no journal is there\n"))
        self.assertEqual(os.listdir(folder), [])
        with service.Service(self.program, journal=f"{folder}/journal") as running:
            self.assertTrue(running.port)
            if self.program != STAND_IN:
                self.assertEqual(self.rebased(said), (0, ""))
                self.assertEqual(os.listdir(folder), ["journal"])
        for _ in range(2):
            self.assertEqual(self.rebased(said), (0, ""))
        self.assertEqual(sorted(os.listdir(folder)), ["journal.000003", "journal.base"])

    def rebased(self, before):
        """The status of a rebase, and what it says."""
        ran = subprocess.run([self.program, *self.words(before)], capture_output=True, text=True, timeout=60)
        return ran.returncode, ran.stderr

    def behind(self, port, process):
        """What the unit runs behind a start, by a port and a process of this test, at work."""
        words = shlex.split(self.said["ExecStartPost"].replace("$$", "$").replace("/8000", f"/{port}"))
        return subprocess.Popen(words, env={**os.environ, "MAINPID": str(process)}, stdout=subprocess.PIPE, stderr=subprocess.STDOUT)

    def test_it_has_started_once_it_answers(self):
        port = program.free_port()
        with self.behind(port, os.getpid()) as waits:
            time.sleep(0.3)
            self.assertIsNone(waits.poll())
            with service.Service(self.program, port=port):
                self.assertEqual(waits.wait(10), 0)
            self.assertEqual(waits.stdout.read(), b"")

    def test_it_has_not_started_where_it_ended(self):
        with subprocess.Popen(["true"]) as ended:
            ended.wait()
        with self.behind(program.free_port(), ended.pid) as waits:
            self.assertNotEqual(waits.wait(10), 0)

    def test_a_port_that_is_no_more_than_listened_on(self):
        with socket.create_server(("127.0.0.1", 0)) as listener, self.behind(listener.getsockname()[1], os.getpid()) as waits:
            stream, _ = listener.accept()
            self.assertEqual(stream.recv(100), b'{"service":"status"}\n')
            self.assertIsNone(waits.poll())
            stream.close()
            self.assertNotEqual(waits.wait(10), 0)

    def test_the_timer_rebases_the_journal(self):
        """It has the journal that the service has, and is its user."""
        said, served = read(f"{REBASE}.service")["Service"], shlex.split(values(UNIT, "ExecStart")[0])
        self.assertEqual(shlex.split(said["ExecStart"])[1:], ["--journal", served[served.index("--journal") + 1], "--rebase"])
        self.assertEqual(said["User"], os.path.basename(UNIT).partition(".")[0])
        for name in ("DynamicUser", "StateDirectory", "StateDirectoryMode", "UMask"):
            self.assertEqual(said[name], self.said[name], name)
        self.assertIn("OnCalendar", read(f"{REBASE}.timer")["Timer"])

    def test_no_limit_of_files_kills_it(self):
        self.assertEqual(self.said["LimitFSIZE"], "infinity")

    def test_it_is_the_service(self):
        if self.program == STAND_IN:
            self.skipTest("the service isn't built: its stand-in has taken its place")
        self.assertTrue(os.path.isfile(self.program))

    def test_systemd_takes_it(self):
        verify = shutil.which("systemd-analyze")
        if not verify:
            self.skipTest("systemd-analyze isn't there")
        names = {UNIT: "mi_service.service", **{f"{REBASE}.{it}": f"mi_service-rebase.{it}" for it in ("service", "timer")}}
        names[METRICS] = "weltiyo-metrics.service"
        for path, name in names.items():
            with open(path, encoding="utf-8") as file:
                text = file.read().replace("/usr/local/bin/mi_service", self.program).replace("/usr/local/bin/weltiyo", shutil.which("true"))
            with open(f"{self.folder}/{name}", "w", encoding="utf-8") as file:
                file.write(text)
        units = [f"{self.folder}/{it}" for it in names.values()]
        ran = subprocess.run([verify, "verify", *units], capture_output=True, text=True, timeout=60)
        self.assertEqual((ran.returncode, ran.stderr), (0, ""))


if __name__ == "__main__":
    unittest.main()
