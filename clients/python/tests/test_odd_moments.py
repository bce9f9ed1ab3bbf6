"""What comes at an odd moment, or twice: interrupts where a session begins or ends, blocks that end out of order, calls between the steps of a
pipeline, a server that stands still, a connection to itself, rows that change while a walk passes, dumps that are refused, columns that stand twice."""
import asyncio
import contextlib
import os
import signal
import socket
import sys
import time
import unittest
from argparse import Namespace
from unittest import mock

import kit

from mi_client import Database, Ended, NeedsSchema, Server, TooManyEqual
from mi_client.aio import AsyncDatabase
from mi_tools import rowfiles, transfer

TWO = """format = 2
[[table]]
name = "item"
column = [{ name = "name", type = "text" }, { name = "stock", type = "int" }]
index = [{ name = "by_stock", kind = "ordered", key = ["stock"] }]
[[table]]
name = "sale"
column = [{ name = "item", type = "int" }]
"""


class Sessions(unittest.TestCase):
    def test_interrupted_where_they_begin_or_end(self) -> None:
        """An interrupt that comes when the reply is there: what is done later must not fall into the session. Behind a line that it doesn't
        know the block asks what is held."""
        for n, line in [*((n, "") for n in range(1, 4)), *((n, '{"cmd":"size"}') for n in range(1, 6))]:
            db, left = kit.start(self), [n]
            read = db._dialect.read

            def interrupted(request, reply, read=read, left=left):
                left[0] -= 1
                if left[0] == 0:
                    raise KeyboardInterrupt
                return read(request, reply)

            with mock.patch.object(db._dialect, "read", interrupted), self.assertRaises(KeyboardInterrupt):
                with db.session():
                    db.insert(kit.ANN)
                    if line:
                        db.ask_line(line)
            with contextlib.suppress(Ended):
                self.assertEqual(db.revision().held, 0, n)

    def test_a_block_that_ends_before_one_that_began_later(self) -> None:
        for step in (lambda it: it.close(), lambda it: next(it, None)):
            db = kit.start(self)

            def within(db=db):
                with db.session():
                    yield db.insert(kit.ANN)

            walk = within()
            next(walk)
            with self.assertRaisesRegex(RuntimeError, "ends before one that began later"):
                with db.session():
                    db.insert(kit.BOB)
                    step(walk)
            self.assertFalse(db.is_open)

    def test_such_a_block_of_tasks(self) -> None:
        async def main() -> None:
            async with await AsyncDatabase.start(kit.program()) as db:

                async def within():
                    async with db.session():
                        yield await db.insert(kit.ANN)

                walk = within()
                await walk.__anext__()
                with self.assertRaisesRegex(RuntimeError, "ends before one that began later"):
                    async with db.session():
                        await db.insert(kit.BOB)
                        await walk.aclose()
                with self.assertRaises(Ended):
                    await db.size()

        asyncio.run(main())


class Between:
    """Makes a call at the nth line of the client."""

    def __init__(self, n, call):
        self.left, self.call, self.fired = n, call, False

    def __call__(self, frame, event, _):
        if "mi_client" not in frame.f_code.co_filename:
            return None
        if event == "line":
            self.left -= 1
            if self.left == 0:
                self.fired = True
                sys.settrace(None)
                with contextlib.suppress(RuntimeError):
                    self.call()
        return self


class Ahead(unittest.TestCase):
    def test_a_call_between_the_steps(self) -> None:
        """As of a finalizer. It is answered, or gets a RuntimeError; what is sent ahead gets its own replies."""
        db = kit.start(self)
        db.answer_within(2)

        def pipeline():
            with db.pipeline() as ahead:
                first, second = ahead.ask("get", id=0), ahead.size()
                self.assertEqual([first.result()["row"]["owner"], second.result()], ["ann", 1])
                third = ahead.revision()
            self.assertEqual(third.result().depth, 0)

        def lines():
            self.assertEqual(list(db.ask_lines(['{"cmd":"size"}'] * 3, window=2)), ['{"ok":true,"size":1}'] * 3)

        db.insert(kit.ANN)
        for work in (pipeline, lines):
            n, between = 0, None
            while between is None or between.fired:
                n += 1
                between = Between(n, lambda: self.assertEqual(db.size(), 1))
                sys.settrace(between)
                try:
                    work()
                finally:
                    sys.settrace(None)


class Connections(unittest.TestCase):
    def test_a_server_of_its_own_that_stands_still(self) -> None:
        db = kit.start(self)
        db.answer_within(0.2)
        os.kill(db.process, signal.SIGSTOP)
        began = time.monotonic()
        with self.assertRaisesRegex(Ended, "took too long"):
            db.size()
        self.assertLess(time.monotonic() - began, 5)

    def test_a_connection_to_itself_is_none(self) -> None:
        it = socket.socket()
        it.bind(("127.0.0.1", 0))
        it.connect(it.getsockname())
        with mock.patch("socket.create_connection", return_value=it), self.assertRaises(ConnectionRefusedError):
            Database.connect(it.getsockname()[1])


class Walks(unittest.TestCase):
    def test_rows_that_were_given_leave_their_key(self) -> None:
        db = kit.start(self)
        for n in range(7):
            db.insert({**kit.ANN, "owner": f"o{n}", "balance": 5})
        db.insert({**kit.ANN, "owner": "end", "balance": 9})
        walk = db.walk_range("by_balance", page=3)
        given = [next(walk)["id"] for _ in range(3)]
        for it in given[1:]:
            db.modify(it, set={"balance": 1})
        self.assertEqual(given + [it["id"] for it in walk], list(range(8)))
        db = kit.start(self, TWO)
        for n in range(8):
            db.insert({"name": f"n{n}", "stock": 5 if n < 7 else 9})
        walk = db.walk_range("by_stock", page=3)
        for it in [next(walk)["id"] for _ in range(3)][1:]:
            db.modify(it, set={"stock": 1})
        with self.assertRaises(TooManyEqual):
            list(walk)

    def test_a_row_that_is_put_ahead_is_seen_again(self) -> None:
        db = kit.start(self)
        for n, balance in enumerate([5, 5, 6, 9]):
            db.insert({**kit.ANN, "owner": f"o{n}", "balance": balance})
        seen = []
        for row in db.walk_range("by_balance", page=3):
            seen.append((row["id"], row["balance"]))
            if row["balance"] == 6:
                db.modify(2, set={"balance": 7})
        self.assertEqual(seen, [(0, 5), (1, 5), (2, 6), (2, 7), (3, 9)])


class Files(unittest.TestCase):
    def test_a_resumed_load_of_a_table_that_is_named_here_and_there(self) -> None:
        schema = 'table = "t"\ncolumn = [{ name = "a", type = "int" }]'
        db = kit.start(self, schema)
        path = kit.written(self, '{"row":{"a":1}}\n{"row":{"a":1},"table":"t"}\n{"row":{"a":2},"table":"t"}\n', "rows.jsonl")
        db.insert({"a": 1})
        transfer.load(db, Namespace(file=path, format=None, table=None, resume=True, keep_going=False))
        self.assertEqual([it["a"] for it in db.walk_range("id")], [1, 1, 2])

    def test_a_refused_dump_leaves_the_file(self) -> None:
        path, schema = f"{kit.folder(self)}/backup.jsonl", kit.written(self, TWO)
        for words in (["dump", "--table", "itme"], ["dump", "--order", "by_stok"], ["dump", "--order", "by_stock"], ["export", "--order", "x"]):
            with open(path, "w", encoding="utf-8") as file:
                file.write("before")
            self.assertEqual(kit.ran(*words, "--force", "--program", kit.program(), "--schema", schema, path).returncode, 1)
            with open(path, encoding="utf-8") as file:
                self.assertEqual(file.read(), "before", words)

    def test_files_that_hold_something_else(self) -> None:
        db, path = kit.start(self, TWO), kit.written(self, "[1]\nlast words", "rows.jsonl")
        with self.assertRaisesRegex(rowfiles.Faulty, "no row of a dump"):
            transfer.dump(db, Namespace(file=path, table=None, order="id", resume=True))
        with open(path, encoding="utf-8") as file:
            self.assertEqual(file.read(), "[1]\nlast words")
        for text in ("[" * 200_000 + "\n", '{"row":{"item":0},"table":["sale"]}\n'):
            with self.assertRaises((rowfiles.Faulty, transfer.Stopped)):
                path = kit.written(self, text, "rows.jsonl")
                transfer.load(db, Namespace(file=path, format=None, table=None, resume=False, keep_going=False))

    def test_a_window_of_none(self) -> None:
        with self.assertRaisesRegex(ValueError, "room for one line"):
            asyncio.run(AsyncDatabase.start(kit.program(), window=0))

    def test_all_tables_or_none(self) -> None:
        path = f"{kit.folder(self)}/out.jsonl"
        with Server(kit.program(), schema=kit.written(self, TWO)) as server, Database.connect(server.port, wait=10) as db:
            db.insert({"name": "pen", "stock": 1})
            db.insert({"item": 0}, table="sale")
            with self.assertRaises(NeedsSchema):
                transfer.dump(db, Namespace(file=path, table=None, order="id", resume=False))
            self.assertEqual(transfer.dump(db, Namespace(file=path, table="sale", order="id", resume=False)), 1)

    def test_a_column_that_stands_twice(self) -> None:
        table = kit.Schema.of_text(TWO).table("item")
        path = kit.written(self, "name,stock,stock\npen,1,2\n", "twice.csv")
        with open(path, "rb") as file, self.assertRaisesRegex(rowfiles.Faulty, ":1: stock stands twice in the first line"):
            list(rowfiles.read_csv(file, path, table))


if __name__ == "__main__":
    unittest.main()
