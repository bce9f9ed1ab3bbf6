"""Lines that are sent ahead: answers in order, refusals, windows, and that nobody stands still however long replies are."""
import json
import os
import socket
import threading
import time
import unittest
from typing import Any, Callable, Iterator
from unittest import mock

import kit
from kit import ANN, program

from mi_client import Database, Ended, Refused, Server

FAKE = f"{kit.HERE}/fake_server.py"


def row(n: int) -> "dict[str, Any]":
    return {"owner": f"owner {n}", "balance": n * 7919 % 1000, "vip": n % 3 == 0}


class Ahead:
    db: Database

    def test_answers_come_in_order(self) -> None:
        for window in [1, 2, 3, 100]:
            with self.db.pipeline(window=window) as ahead:
                ids = [ahead.insert(row(n)) for n in range(30)]
                got = [ahead.get(0), ahead.find("by_owner", {"owner": "owner 5"}), ahead.size()]
                self.assertEqual(got[1].result()["balance"], row(5)["balance"])
                self.assertTrue(ids[-1].is_there())
            self.assertEqual([it.result() for it in ids], list(range(30)))
            self.assertEqual((got[0].result()["owner"], got[2].result()), ("owner 0", 30))
            self.db.close()
            self.db = self.again()

    def again(self) -> Database:
        raise NotImplementedError

    def test_a_refusal_that_nobody_looks_at_is_raised(self) -> None:
        with self.assertRaises(Refused) as caught:
            with self.db.pipeline() as ahead:
                for owner in ["a", "b", "a", "b", "c"]:
                    ahead.insert({"owner": owner, "balance": 0, "vip": False})
        self.assertEqual((caught.exception.word, caught.exception.id, self.db.size()), ("unique", 0, 3))

    def test_a_refusal_that_was_looked_at_is_not(self) -> None:
        with self.db.pipeline() as ahead:
            answers = [ahead.insert({"owner": owner, "balance": 0, "vip": False}) for owner in ["a", "a", "b", "b"]]
            self.assertEqual(answers[0].result(), 0)
            self.assertRaises(Refused, answers[1].result)
            ahead.flush()
            self.assertEqual([it.id for it in ahead.refused()], [1])
        self.assertRaises(Refused, answers[3].result)

    def test_calls_one_by_one_within_a_block(self) -> None:
        with self.db.pipeline() as ahead:
            first = ahead.insert(ANN)
            self.assertEqual(self.db.size(), 1)
            self.assertTrue(first.is_there())
            with self.db.pipeline() as inner:
                inner.erase(0)
            ahead.size()

    def test_blocks_and_lines_within_one_another(self) -> None:
        """Each gets its own replies, in whatever order they are used."""
        gets = ['{"cmd":"get","id":%d}' % n for n in range(40)]
        with self.db.pipeline() as outer:
            first = [outer.insert(row(n)) for n in range(20)]
            with self.db.pipeline() as inner:
                second = [inner.insert(row(n)) for n in range(20, 40)]
                sizes = [(outer.size(), inner.get(7)) for _ in range(3)]
                lines = self.db.ask_lines(gets, window=5)
                for n, line in enumerate(lines):
                    self.assertEqual(json.loads(line)["row"]["id"], n)
                    if n % 3 == 0:
                        self.assertEqual(self.db.get(n)["id"], n)
                    sizes.append((outer.size(), inner.get(7)))
        self.assertEqual([it.result() for it in first + second], list(range(40)))
        self.assertEqual({(size.result(), got.result()["owner"]) for size, got in sizes}, {(40, "owner 7")})
        for it in [outer, inner]:
            self.assertRaises(ValueError, it.size)
        walk = self.db.walk_range("by_balance", page=7)
        with self.db.pipeline() as ahead:
            done = [ahead.modify(it["id"], set={"vip": True}) for it in walk]
        self.assertEqual([it.result() for it in done], [None] * 40)

    def test_a_block_that_raises_sends_what_was_called(self) -> None:
        with self.assertRaises(KeyError):
            with self.db.pipeline() as ahead:
                ahead.insert(ANN)
                ahead.insert(ANN)
                raise KeyError
        self.assertEqual(self.db.size(), 1)

    def test_lines(self) -> None:
        lines = [json.dumps({"cmd": "insert", "row": row(n)}) for n in range(50)]
        self.assertEqual([json.loads(it)["id"] for it in self.db.ask_lines(lines, window=7)], list(range(50)))
        for window in [1, 2, 3]:
            self.assertEqual(list(self.db.ask_lines(['{"cmd":"size"}'] * 9, window)), ['{"ok":true,"size":50}'] * 9)
        some = self.db.ask_lines((b'{"cmd":"get","id":%d}\n' % n for n in range(50)), window=9)
        self.assertEqual([json.loads(next(some))["row"]["id"] for _ in range(12)], list(range(12)))
        some.close()
        self.assertEqual(self.db.size(), 50)
        self.assertEqual(list(self.db.ask_lines([])), [])
        with self.assertRaises(ValueError):
            list(self.db.ask_lines(['{"cmd":"size"}', ""]))
        with self.assertRaises(ValueError):
            list(self.db.ask_lines(['{"cmd":"size"}'], window=0))
        self.assertEqual(self.db.size(), 50)

    def test_lines_that_raise(self) -> None:
        """What was sent is answered, or the connection ends, so that no later call gets a reply to these lines."""
        def lines(error: BaseException) -> Iterator[str]:
            yield json.dumps({"cmd": "insert", "row": {"owner": "x" * 40_000, "balance": 0, "vip": False}})
            raise error

        for error in [KeyError(), ConnectionResetError()]:
            with self.assertRaises(type(error)):
                list(self.db.ask_lines(lines(error)))
            self.assertEqual(self.db.size(), 0)
        for error in [KeyboardInterrupt(), SystemExit()]:
            with self.assertRaises(type(error)):
                list(self.db.ask_lines(lines(error)))
            with self.assertRaisesRegex(Ended, "the connection is closed"):
                self.db.size()
            self.db = self.again()

    def test_long_lines_and_long_replies(self) -> None:
        """A pipe has room for 64 KB; this sends two megabytes ahead, and gets more back."""
        text = "x" * 1024
        with self.db.pipeline(window=100_000) as ahead:
            for n in range(60):
                ahead.insert({"owner": f"{n}{text[9:]}", "balance": n, "vip": False})
            sized = [ahead.range("by_balance") for _ in range(20)]
            refused = [ahead.insert({"owner": "y" * 65_000, "balance": 0, "vip": False}) for _ in range(20)]
            for it in refused:
                with self.assertRaisesRegex(Refused, "row: owner has 65000 bytes; at most 1024 fit"):
                    it.result()
        self.assertEqual([len(it.result().rows) for it in sized], [60] * 20)

    def test_a_server_that_ends(self) -> None:
        with self.assertRaises(Ended):
            with self.db.pipeline() as ahead:
                ahead.insert(ANN)
                ahead.flush()
                self.end()
                while True:
                    ahead.size()
        self.assertFalse(self.db.is_open)

    def end(self) -> None:
        raise NotImplementedError


class OverPipes(Ahead, unittest.TestCase):
    def setUp(self) -> None:
        self.db = self.again()

    def again(self) -> Database:
        return kit.start(self)

    def end(self) -> None:
        self.db._program.kill()


class OverLoopback(Ahead, unittest.TestCase):
    def setUp(self) -> None:
        self.db = self.again()

    def again(self) -> Database:
        self.server = Server(program())
        self.addCleanup(self.server.close)
        db = self.server.connect(timeout=20)
        self.addCleanup(db.close)
        return db

    def end(self) -> None:
        self.server.process.kill()


class AgainstAFakeServer(unittest.TestCase):
    """What the client alone costs, and that it stands still for no server."""

    def fake(self, options: str = "") -> Database:
        with mock.patch.dict(os.environ, {"FAKE_SERVER": options}):
            db = Database.start(FAKE)
        self.addCleanup(db.close)
        return db

    def test_nobody_stands_still(self) -> None:
        """Each piece of 4,096 bytes is answered by megabytes, which the server writes before it reads on."""
        db = self.fake("--reply 30000 --piece 4096")
        self.assertEqual(sum(1 for _ in db.ask_lines([b'{"cmd":"size"}'] * 3000, window=100_000)), 3000)
        with db.pipeline(window=100_000) as ahead:
            for _ in range(3000):
                ahead.insert(ANN)

    def test_speed(self) -> None:
        """Bounds are a quarter of what is asked of a quiet machine (100,000 lines, 60,000 rows a second), by processor time."""
        count, lines = 20_000, [json.dumps({"cmd": "insert", "row": row(n)}).encode() for n in range(20_000)]
        rows = [row(n) for n in range(count)]

        def took(work: Callable[[Database], None]) -> float:
            db = self.fake()
            began = time.process_time()
            work(db)
            return time.process_time() - began

        def by_lines(db: Database) -> None:
            self.assertEqual(sum(1 for _ in db.ask_lines(lines)), count)

        def by_rows(db: Database) -> None:
            with db.pipeline() as ahead:
                for it in rows:
                    ahead.insert(it)

        def in_ones(db: Database) -> None:
            for it in rows[:2000]:
                with db.pipeline() as ahead:
                    ahead.insert(it)

        def one_by_one(db: Database) -> None:
            for it in rows[:2000]:
                db.insert(it)

        self.assertLess(took(by_lines) / count, 4 / 100_000)
        self.assertLess(took(by_rows) / count, 4 / 60_000)
        self.assertLess(took(in_ones), 3 * took(one_by_one))


class Acknowledging(unittest.TestCase):
    def test_no_reply_waits_for_an_acknowledgement(self) -> None:
        """A server that writes its replies one by one, as ours does for each piece of 4,096 bytes, waits with the second until
        the first is acknowledged; put off by 40 ms, 60 batches of two would take two seconds."""
        listener = socket.create_server(("127.0.0.1", 0))
        self.addCleanup(listener.close)

        def serve() -> None:
            stream, _ = listener.accept()
            with stream:
                while True:
                    data = stream.recv(65_536)
                    if not data:
                        return
                    for _ in range(data.count(b"\n")):
                        stream.send(b'{"ok":true,"size":0}\n')

        thread = threading.Thread(target=serve)
        thread.start()
        with Database.connect(listener.getsockname()[1], timeout=20) as db:
            began = time.monotonic()
            for _ in range(60):
                with db.pipeline() as ahead:
                    ahead.size()
                    ahead.size()
            took = time.monotonic() - began
        thread.join(10)
        self.assertLess(took, 1.0)


if __name__ == "__main__":
    unittest.main()
