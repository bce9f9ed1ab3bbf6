"""Threads that share a connection, processes that mustn't, refusals that cross processes, and servers that nobody ends."""
import concurrent.futures
import contextlib
import itertools
import multiprocessing
import os
import pickle
import signal
import socket
import subprocess
import sys
import threading
import time
import unittest
from typing import Callable, Optional

import kit
from kit import ANN, BOB, program

from mi_client import Database, Ended, Refused, Server

ORPHAN = """
import os, signal, sys
from mi_client import Server
server = Server(os.environ["MI_SERVER"])
print(server.process.pid, flush=True)
db = server.connect(10)
db.size()
how = sys.argv[1]
if how == "raise":
    raise KeyError
if how != "end":
    os.kill(os.getpid(), getattr(signal, how))
"""


def refused_in_a_worker(path: str) -> None:
    with Database.start(path) as db:
        db.insert(ANN)
        db.insert(ANN)


def balance_in_a_worker(path: str) -> int:
    with Database.start(path) as db:
        return db.get(db.insert(BOB))["balance"]


class Threads(unittest.TestCase):
    def setUp(self) -> None:
        self.db = kit.start(self)

    def in_threads(self, count: int, work: "object") -> None:
        with concurrent.futures.ThreadPoolExecutor(count) as pool:
            for it in [pool.submit(work, n) for n in range(count)]:
                it.result(30)

    def test_each_gets_its_own_replies(self) -> None:
        ids = [self.db.insert({"owner": str(n), "balance": n, "vip": False}) for n in range(100)]

        def read(_: int) -> None:
            for id in ids:
                self.assertEqual(self.db.get(id)["owner"], str(id))

        self.in_threads(8, read)

    def test_a_block_is_alone(self) -> None:
        def add(n: int) -> None:
            for turn in range(10):
                with self.assertRaises(KeyError) if turn % 2 else self.db.session() as number:
                    if turn % 2:
                        with self.db.session():
                            self.db.insert({"owner": f"{n} {turn}", "balance": 1, "vip": False})
                            raise KeyError
                    self.assertEqual(number, 1)
                    self.db.insert({"owner": f"{n} {turn}", "balance": 1, "vip": False})

        self.in_threads(8, add)
        self.assertEqual((self.db.size(), self.db.revision().depth), (40, 0))

    def test_walks_and_lines_ahead_beside_gets(self) -> None:
        with self.db.pipeline() as ahead:
            for n in range(200):
                ahead.insert({"owner": str(n), "balance": n % 7, "vip": False})

        def work(n: int) -> None:
            if n % 3 == 0:
                self.assertEqual(len(list(self.db.walk_range("by_balance", page=10))), 200)
            elif n % 3 == 1:
                self.assertEqual(['"id":%d,' % it in line for it, line in enumerate(self.db.ask_lines(gets))], [True] * 200)
            else:
                self.assertEqual([self.db.get(it)["id"] for it in range(50)], list(range(50)))

        gets = ['{"cmd":"get","id":%d}' % it for it in range(200)]
        self.in_threads(9, work)


class Signals(unittest.TestCase):
    """What a handler does while its thread waits for a reply. The listener answers 0, 1, 2 .., and raises the signal ahead of the first."""

    def during_a_call(self, work: Callable[[Database], None], timeout: Optional[float] = 5, answers: bool = True) -> Database:
        """A connection whose first call is interrupted by this work."""
        listener = socket.create_server(("127.0.0.1", 0))
        self.addCleanup(listener.close)

        def serve() -> None:
            stream, _ = listener.accept()
            with stream, contextlib.suppress(ConnectionError):
                for n in itertools.count():
                    if not stream.recv(65_536):
                        return
                    if n == 0:
                        signal.pthread_kill(threading.main_thread().ident, signal.SIGUSR1)
                    if answers:
                        stream.send(b'{"ok":true,"size":%d}\n' % n)

        thread = threading.Thread(target=serve)
        self.addCleanup(thread.join, 10)
        thread.start()
        db = Database.connect(listener.getsockname()[1], timeout)
        self.addCleanup(db.close)
        self.addCleanup(signal.signal, signal.SIGUSR1, signal.signal(signal.SIGUSR1, lambda *_: work(db)))
        return db

    def test_a_call_in_the_middle_of_another(self) -> None:
        """It would take the reply of the other."""
        said = []

        def ask(db: Database) -> None:
            for call in (db.size, db.pass_turn, lambda: list(db.ask_lines(['{"cmd":"size"}']))):
                try:
                    said.append(call())
                except RuntimeError as error:
                    said.append(str(error))

        db = self.during_a_call(ask)
        self.assertEqual([db.size() for _ in range(3)], [0, 1, 2])
        self.assertEqual(said, ["the connection is in the middle of a call: a signal handler or a finalizer can't make another one there"] * 3)

    def test_an_end_in_the_middle_of_a_call(self) -> None:
        for timeout in (5, None):
            db = self.during_a_call(Database.close, timeout, answers=False)
            with self.assertRaisesRegex(Ended, "^the connection is closed$"):
                db.size()


class Processes(unittest.TestCase):
    def test_a_refusal_comes_back_from_a_pool(self) -> None:
        with concurrent.futures.ProcessPoolExecutor(2) as pool:
            with self.assertRaises(Refused) as caught:
                pool.submit(refused_in_a_worker, program()).result(30)
            self.assertEqual([it.result(30) for it in [pool.submit(balance_in_a_worker, program()) for _ in range(4)]], [7] * 4)
        refusal = caught.exception
        self.assertEqual((refusal.word, refusal.id, refusal.index, refusal.lost), ("unique", 0, "by_owner", None))
        self.assertEqual(str(pickle.loads(pickle.dumps(refusal))), str(refusal))
        for it in [Ended(), Ended("why")]:
            self.assertEqual(str(pickle.loads(pickle.dumps(it))), str(it))

    def test_a_connection_stays_with_its_process(self) -> None:
        db = kit.start(self)
        reading, writing = os.pipe()
        child = os.fork()
        if child == 0:
            try:
                db.size()
            except Ended as error:
                os.write(writing, str(error).encode())
            time.sleep(30)  # (it would hold the server's input open)
        self.addCleanup(os.waitpid, child, 0)
        self.addCleanup(os.kill, child, signal.SIGKILL)
        self.assertIn(b"stayed with the process", os.read(reading, 1000))
        os.close(reading)
        os.close(writing)
        self.assertEqual(db.insert(ANN), 0)
        closing = threading.Thread(target=db.close)
        closing.start()
        closing.join(5)
        self.assertFalse(closing.is_alive())
        self.assertRaises(TypeError, pickle.dumps, db)

    def test_a_child_that_exits_leaves_the_server_alone(self) -> None:
        code = (
            "import os, sys\nfrom mi_client import Server\nwith Server(os.environ['MI_SERVER']) as server:\n    child = os.fork()\n"
            "    if child == 0:\n        sys.exit()\n    os.waitpid(child, 0)\n    db = server.connect(20)\n    print(db.size())\n    db.close()\n"
        )
        ran = subprocess.run([sys.executable, "-c", code], capture_output=True, text=True, env=kit.environment(), timeout=30)
        self.assertEqual((ran.stdout, ran.stderr), ("0\n", ""))

    def test_a_pool_that_forks_beside_a_connection(self) -> None:
        db = kit.start(self)
        with multiprocessing.get_context("fork").Pool(2) as pool:
            self.assertEqual(pool.map(balance_in_a_worker, [program()] * 3), [7] * 3)
            self.assertEqual(db.size(), 0)


class Orphans(unittest.TestCase):
    def test_a_server_ends_with_its_process(self) -> None:
        for how in ["end", "raise", "SIGTERM", "SIGKILL"]:
            with self.subTest(how):
                words = [sys.executable, "-c", ORPHAN, how]
                ran = subprocess.run(words, stdout=subprocess.PIPE, stderr=subprocess.DEVNULL, text=True, env=kit.environment(), timeout=30)
                self.is_gone(int(ran.stdout))

    def test_a_server_ends_with_its_object(self) -> None:
        number = Server(program()).process.pid
        self.is_gone(number)

    def is_gone(self, number: int) -> None:
        end = time.monotonic() + 10
        while time.monotonic() < end:
            try:
                with open(f"/proc/{number}/stat", encoding="ascii") as file:
                    if file.read().rpartition(")")[2].split()[0] == "Z":
                        return
            except OSError:
                return
            time.sleep(0.02)
        self.fail(f"process {number} is still there")

    def test_waiting_for_a_listener(self) -> None:
        with Server(program()) as server:
            with Database.connect(server.port, wait=20) as db:
                self.assertEqual(db.size(), 0)
        with self.assertRaises(OSError):
            Database.connect(server.port, wait=0.1)

    def test_an_end_has_words(self) -> None:
        self.assertEqual(str(Ended()), "the connection is at its end")
        with Server(program(), clients=1) as server:
            db = server.connect(10)
            db.close()
            self.assertEqual(server.ended(), 0)
            with self.assertRaisesRegex(Ended, "^the server ended with status 0$"):
                server.connect()
            with self.assertRaisesRegex(Ended, "^the connection is closed$"):
                db.size()


if __name__ == "__main__":
    unittest.main()
