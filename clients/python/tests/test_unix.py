"""A service that listens at a path: the client and the tools over a Unix socket, and what becomes of the socket's file. The program is the one
that `scripts/program.py` finds or compiles."""
import asyncio
import os
import socket
import stat
import subprocess
import sys
import time
import unittest

import kit
from kit import ANN, TOP

from mi_client import Database, Ended
from mi_client.aio import AsyncDatabase
from mi_tools import process

sys.path.insert(0, f"{TOP}/scripts")

import program  # noqa: E402

TAKEN = "Address already in use (98)"


class Paths(unittest.TestCase):
    @classmethod
    def setUpClass(cls):
        cls.program = program.service()
        if not cls.program:
            raise unittest.SkipTest("neither the service nor rt, which compiles it, is there")

    def setUp(self):
        self.path = f"{kit.folder(self)}/socket"

    def started(self, *words, **how):
        """The service with these words; it listens, as it says by as many lines as there are options for that."""
        running = subprocess.Popen([self.program, *words], stdin=subprocess.DEVNULL, stdout=subprocess.PIPE, stderr=subprocess.PIPE, text=True, **how)
        for end in (running.stderr.close, running.stdout.close, running.wait, running.kill):
            self.addCleanup(end)
        said = [running.stdout.readline() for it in words if it in ("--listen", "--unix")]
        return running, said

    def ended(self, *words):
        ran = subprocess.run([self.program, *words], stdin=subprocess.DEVNULL, capture_output=True, text=True, timeout=60)
        return ran.returncode, ran.stdout, ran.stderr

    def test_both_sockets(self):
        """They are told in this order, and have the same tables. Who comes through one isn't kept waiting by who comes through the other."""
        _, said = self.started("--unix", self.path, "--listen", "0")
        self.assertRegex(said[0], r"^listening 127\.0\.0\.1:[0-9]+\n$")
        self.assertEqual(said[1], f"listening {self.path}\n")
        port = int(said[0].rpartition(":")[2])
        with Database.connect(port, 60) as by_port, Database.connect(self.path, 60) as by_path:
            self.assertEqual(by_port.insert(ANN), 0)
            self.assertEqual(by_path.get(0)["owner"], "ann")
            by_path.begin()
            by_path.erase(0)
            self.assertEqual((by_port.size(), by_port.ask_line('{"cmd":"push"}')), (0, '{"error":"busy","ok":false}'))
            by_path.undo()
            self.assertEqual(by_port.size(), 1)
        for n in range(40):
            with Database.connect((self.path, port)[n % 2], 60) as db, Database.connect((self.path, port)[n // 2 % 2], 60) as other:
                self.assertEqual((db.size(), other.size()), (1, 1))

    def test_all_places_are_taken_through_either(self):
        _, said = self.started("--listen", "0", "--unix", self.path)
        port = int(said[0].rpartition(":")[2])
        taken = [Database.connect((self.path, port)[n % 2], 60) for n in range(64)]
        self.assertEqual({it.size() for it in taken}, {0})
        late = [Database.connect(where, 60) for where in (port, self.path)]
        for it in taken:
            it.close()
        # (who came while no place was free has one now, or was turned away)
        for it in late:
            try:
                self.assertEqual(it.size(), 0)
            except Ended as error:
                self.assertIn("all its places are taken", str(error))
            it.close()
        time.sleep(0.2)
        for where in (port, self.path):
            with Database.connect(where, 60) as db:
                self.assertEqual(db.size(), 0)

    def test_the_file_of_one_that_was_killed(self):
        journal = f"{self.path}.journal"
        for count in range(3):
            running, said = self.started("--unix", self.path, "--journal", journal)
            self.assertEqual(said, [f"listening {self.path}\n"])
            with Database.connect(self.path, 60) as db:
                self.assertEqual(db.size(), count)
                db.insert({**ANN, "owner": str(count)})
                running.kill()
                running.wait()
                with self.assertRaises(Ended):
                    db.size()
            self.assertTrue(stat.S_ISSOCK(os.stat(self.path).st_mode))

    def test_one_that_lives_has_the_path(self):
        self.started("--unix", self.path)
        with Database.connect(self.path, 60) as db:
            self.assertEqual(self.ended("--unix", self.path), (4, "", f"fault: listen: {self.path}: {TAKEN}\n"))
            self.assertEqual(db.size(), 0)
        with Database.connect(self.path, 60) as db:
            self.assertEqual(db.size(), 0)

    def test_what_is_no_socket_stays(self):
        with open(self.path, "w", encoding="ascii") as file:
            file.write("mine")
        link = f"{self.path}.link"
        with socket.socket(socket.AF_UNIX) as left:
            left.bind(f"{self.path}.left")
        os.symlink(f"{self.path}.left", link)
        for path in (self.path, link, os.path.dirname(self.path)):
            self.assertEqual(self.ended("--unix", path), (4, "", f"fault: listen: {path}: {TAKEN}\n"))
        with open(self.path, encoding="ascii") as file:
            self.assertEqual(file.read(), "mine")
        self.assertTrue(os.path.islink(link))
        self.assertEqual(self.ended("--unix", "/no/socket"), (4, "", "fault: listen: /no/socket: No such file or directory (2)\n"))
        self.assertEqual(self.ended("--unix", ""), (4, "", "fault: listen: : entity not found\n"))

    def test_of_two_places_the_one_at_fault_is_told(self):
        with socket.create_server(("127.0.0.1", 0)) as listener:
            port = str(listener.getsockname()[1])
            self.assertEqual(self.ended("--unix", self.path, "--listen", port), (4, "", f"fault: listen: 127.0.0.1:{port}: {TAKEN}\n"))
        self.assertFalse(os.path.exists(self.path))
        os.mkdir(self.path)
        self.assertEqual(self.ended("--unix", self.path, "--listen", "0"), (4, "", f"fault: listen: {self.path}: {TAKEN}\n"))

    def test_the_rights_are_those_that_the_umask_leaves(self):
        for umask, rights in ((0o077, 0o700), (0o007, 0o770)):
            path = f"{self.path}.{umask}"
            self.started("--unix", path, preexec_fn=lambda umask=umask: os.umask(umask))
            self.assertEqual(stat.S_IMODE(os.stat(path).st_mode), rights)

    def test_neither_is_asked_for(self):
        said = ("usage: --listen or --unix; or --rebase, or --rebase-to with --new-schema; rebases, --sync and --segment-bytes need --journal; "
                "--sync is always, turn or never\n")
        for words in ([], ["--sync", "never"], ["--unix", self.path, "--sync", "never"]):
            self.assertEqual(self.ended(*words), (2, "", said))
        self.assertFalse(os.path.exists(self.path))

    def test_tasks(self):
        self.started("--unix", self.path)

        async def asked():
            async with await AsyncDatabase.connect(self.path, timeout=60) as db:
                return await db.insert(ANN), await db.size()

        self.assertEqual(asyncio.run(asked()), (0, 1))

    def test_the_tools(self):
        running, _ = self.started("--unix", self.path)
        self.assertEqual(process.listener(self.path), running.pid)
        rows = f"{self.path}.rows"
        with open(rows, "w", encoding="ascii") as file:
            file.write("owner,balance,vip\nann,50,false\n")
        ran = kit.ran("import", "--connect", self.path, "--table", "accounts", "--format", "csv", rows)
        self.assertEqual(ran.returncode, 0, ran.stderr)
        for words in (["dump"], ["status"], ["top", "--count", "1"], ["metrics", "--every", "0.01", "--count", "2"], ["plot", "by_balance"]):
            ran = kit.ran(*words, "--connect", self.path)
            self.assertEqual(ran.returncode, 0, ran.stderr)
        self.assertIn('{"ok":true,"size":1}\n', kit.ran("--connect", self.path, typed='{"cmd":"size"}\n').stdout)
        running.kill()
        running.wait()
        said = f"nothing listens at {self.path}. Start a service there, as mi_service --unix {self.path}, or name the path of one that runs\n"
        for left in (True, False):
            ran = kit.ran("dump", "--connect", self.path)
            self.assertEqual((ran.returncode, ran.stderr.partition(": ")[2]), (1, said))
            if left:
                os.remove(self.path)

    def test_one_that_gives_no_reply(self):
        with socket.socket(socket.AF_UNIX) as listener:
            listener.bind(self.path)
            listener.listen()
            ran = kit.ran("dump", "--connect", self.path, "--timeout", "0.1")
            self.assertIn(f"{self.path} gave no reply for 0.1 seconds. It may be busy", ran.stderr)


if __name__ == "__main__":
    unittest.main()
