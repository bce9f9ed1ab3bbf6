"""Connections that send nothing, under `--hold-seconds` and `--idle-seconds`: who is let go, when, and what is undone. Over the real program."""
import os
import select
import signal
import subprocess
import sys
import tempfile
import time
import unittest

TOP = os.path.dirname(os.path.dirname(os.path.dirname(os.path.realpath(__file__))))
sys.path.insert(0, f"{TOP}/scripts")

import program  # noqa: E402
from stress import service  # noqa: E402

START, SIZE = b'{"cmd":"start"}\n', b'{"cmd":"size"}\n'
PAGE = b'{"cmd":"range","index":"by_balance"}\n'
BUSY = b'{"error":"busy","ok":false}\n'
STARTED = b'{"ok":true,"revision":1}\n'
UNDONE = b'{"cmd":"undo"}\n'
LATEST = 2
"""Seconds behind its limit at which a silent one is gone."""
SLACK = 5
"""Seconds more that a busy machine may take."""


def insert(owner):
    return b'{"cmd":"insert","row":{"owner":"%s","balance":1,"vip":false}}\n' % owner


def inserted(number):
    return b'{"id":%d,"ok":true}\n' % number


def size(count):
    return b'{"ok":true,"size":%d}\n' % count


def is_gone(stream):
    """Whether a connection has ended, of which no reply waits."""
    if not select.select([stream], [], [], 0)[0]:
        return False
    try:
        return not stream.recv(1)
    except ConnectionResetError:
        return True


class Silent(unittest.TestCase):
    @classmethod
    def setUpClass(cls):
        cls.program = program.service()
        if not cls.program:
            raise unittest.SkipTest("neither the service nor rt, which compiles it, is there")

    def started(self, *words, **how):
        running = service.Service(self.program, extra=words, **how)
        self.addCleanup(running.stop)
        return running

    def connected(self, running, **how):
        stream = running.connect(**how)
        self.addCleanup(stream.close)
        return stream

    def goes(self, stream, since, seconds):
        """It ends, this many seconds behind `since` or a little later."""
        end = since + seconds + LATEST + SLACK
        ready = select.select([stream], [], [], max(0, end - time.monotonic()))[0]
        self.assertTrue(ready, "it wasn't let go")
        self.assertTrue(is_gone(stream))
        self.assertGreaterEqual(time.monotonic() - since, seconds)

    def test_a_silent_holder(self):
        running = self.started("--hold-seconds", "2")
        other, holder = self.connected(running), self.connected(running)
        self.assertEqual(service.asked(other, insert(b"ann")), inserted(0))
        since = time.monotonic()
        self.assertEqual(service.asked(holder, START + insert(b"bob")), STARTED + inserted(1))
        self.assertEqual(service.asked(other, insert(b"cid") + SIZE), BUSY + size(2))
        self.goes(holder, since, 2)
        self.assertEqual(service.asked(other, SIZE + insert(b"cid")), size(1) + inserted(1))

    def test_a_byte_now_and_then(self):
        running = self.started("--hold-seconds", "2", "--idle-seconds", "2")
        holder, other = self.connected(running), self.connected(running)
        self.assertEqual(service.asked(holder, START), STARTED)
        for at in range(0, len(SIZE), 2):
            time.sleep(0.6)
            holder.sendall(SIZE[at:at + 2])
            other.sendall(b"\n")
        self.assertEqual(holder.recv(1 << 16), size(0))
        since = time.monotonic()
        self.assertEqual(service.asked(other, insert(b"ann"))[-len(BUSY):], BUSY)
        self.goes(holder, since - 0.6, 2)

    def test_an_idle_one(self):
        running = self.started("--idle-seconds", "2")
        since = time.monotonic()
        new, asking, holder = (self.connected(running) for _ in range(3))
        self.assertEqual(service.asked(holder, START), STARTED)
        self.assertEqual(service.asked(asking, SIZE), size(0))
        time.sleep(1)
        later = time.monotonic()
        self.assertEqual(service.asked(asking, SIZE), size(0))
        self.goes(new, since, 2)
        self.goes(asking, later, 2)
        self.assertEqual(service.asked(holder, insert(b"ann")), inserted(0))

    def test_each_has_its_own_limit(self):
        running = self.started("--hold-seconds", "1")
        idle, holder = self.connected(running), self.connected(running)
        since = time.monotonic()
        self.assertEqual(service.asked(holder, START), STARTED)
        self.goes(holder, since, 1)
        time.sleep(1)
        self.assertEqual(service.asked(idle, SIZE), size(0))

    def test_one_that_takes_no_replies(self):
        running = self.started("--hold-seconds", "2")
        other, deaf = self.connected(running), self.connected(running, receive=4096)
        service.asked(other, b"".join(insert(b"%064d" % n) for n in range(300)))
        self.assertEqual(service.asked(deaf, START + insert(b"bob")), STARTED + inserted(300))
        since = time.monotonic()
        # (the system takes some 4 MB of replies, and the rest of 10 MB waits)
        deaf.sendall(PAGE * 400)
        self.assertEqual(service.asked(other, insert(b"ann") + SIZE), BUSY + size(301))
        while service.asked(other, insert(b"ann")) == BUSY:
            self.assertLess(time.monotonic() - since, 2 + LATEST + SLACK)
            time.sleep(0.1)
        self.assertGreaterEqual(time.monotonic() - since, 2)
        self.assertEqual(service.asked(other, SIZE), size(301))

    def test_what_came_while_the_service_stood_still(self):
        running = self.started("--hold-seconds", "1", "--idle-seconds", "1")
        holder, silent = self.connected(running), self.connected(running)
        self.assertEqual(service.asked(holder, START), STARTED)
        running.process.send_signal(signal.SIGSTOP)
        holder.sendall(SIZE)
        time.sleep(3)
        since = time.monotonic()
        running.process.send_signal(signal.SIGCONT)
        self.assertEqual(holder.recv(1 << 16), size(0))
        self.goes(silent, since - 3, 3)
        self.goes(holder, since, 1)

    def test_nobody_goes_without_options(self):
        running = self.started()
        holder, idle = self.connected(running), self.connected(running)
        self.assertEqual(service.asked(holder, START), STARTED)
        time.sleep(4)
        self.assertEqual(service.asked(idle, insert(b"ann")), BUSY)
        self.assertEqual(service.asked(holder, insert(b"ann")), inserted(0))

    def test_behind_a_restart(self):
        with tempfile.TemporaryDirectory() as folder:
            journal = f"{folder}/journal"
            running = self.started("--hold-seconds", "1", journal=journal)
            other, holder = self.connected(running), self.connected(running)
            self.assertEqual(service.asked(other, insert(b"ann")), inserted(0))
            since = time.monotonic()
            self.assertEqual(service.asked(holder, START + insert(b"bob") + START), STARTED + inserted(1) + STARTED.replace(b"1", b"2"))
            self.goes(holder, since, 1)
            self.assertEqual(service.asked(other, insert(b"cid")), inserted(1))
            running.kill()
            with open(journal, "rb") as file:
                whole = file.read().rpartition(b"\n")[0] + b"\n"
            self.assertEqual(whole.splitlines(True)[1:], [insert(b"ann"), START, insert(b"bob"), START, UNDONE, UNDONE, insert(b"cid")])
            again = self.connected(self.started(journal=journal))
            self.assertEqual(service.asked(again, SIZE), size(2))
            self.assertIn(b'"owner":"cid"', service.asked(again, b'{"cmd":"get","id":1}\n'))

    def ended(self, *words):
        ran = subprocess.run([self.program, *words], stdin=subprocess.DEVNULL, capture_output=True, text=True, timeout=60)
        return ran.returncode, ran.stdout, ran.stderr.partition(" ")[0]

    def test_bad_values(self):
        self.assertEqual(self.ended("--listen", "70000"), (2, "", "error:"))
        for option in ("--hold-seconds", "--idle-seconds"):
            for value in ("0", "-1", "x", "", "1.5", "1000001", "18446744073709551617"):
                self.assertEqual(self.ended("--listen", "0", option, value), (2, "", "error:"), (option, value))

    def test_the_least_and_the_most(self):
        for value in ("1", "1000000"):
            running = self.started("--hold-seconds", value, "--idle-seconds", value)
            self.assertEqual(service.asked(self.connected(running), SIZE), size(0))


if __name__ == "__main__":
    unittest.main()
