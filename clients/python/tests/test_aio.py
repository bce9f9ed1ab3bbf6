"""The client for asyncio: the same names, many tasks on one connection, sessions, and ends."""
import asyncio
import contextlib
import inspect
import os
import signal
import unittest
from typing import Any, AsyncIterator
from unittest import mock

import kit
from kit import ANN, BOB, program

from mi_client import Database, Ended, Refused, Server
from mi_client.aio import AsyncDatabase
from mi_client.pipeline import Pipeline
from mi_client.places import Places


class Names(unittest.TestCase):
    def test_all_have_the_same_calls(self) -> None:
        def named(kind: Any) -> "dict[str, Any]":
            made = {name: it for name, it in vars(kind).items() if "Request" in str(getattr(getattr(it, "__wrapped__", None), "__annotations__", ""))}
            return {name: inspect.signature(it) for name, it in made.items()}

        direct = named(Database.__mro__[2])
        for name in ["walk_range", "walk_list", "window", "around", "count_range", "equal", "session", "ask_line", "ask_lines", "pass_turn", "close"]:
            ours, theirs = inspect.signature(getattr(AsyncDatabase, name)), inspect.signature(getattr(Database, name))
            self.assertEqual(list(ours.parameters), list(theirs.parameters))
        self.assertEqual(len(direct), 25)
        self.assertEqual(named(AsyncDatabase), direct)
        self.assertEqual(named(Pipeline), direct)
        self.assertEqual(list(direct["insert"].parameters), ["self", "row", "table", "before"])
        self.assertIn("Adds a record", Database.insert.__doc__ or "")


    def test_what_one_of_them_has_alone(self) -> None:
        def public(kind: Any) -> "set[str]":
            return {it for it in dir(kind) if not it.startswith("_")}

        self.assertEqual(public(Database) - public(AsyncDatabase), {"alone", "pipeline"})  # (tasks wait for a block, and are sent ahead)
        self.assertEqual(public(AsyncDatabase) - public(Database), set())
        for kind in (Database, AsyncDatabase):
            self.assertEqual({it for it in public(kind) if isinstance(inspect.getattr_static(kind, it), property)}, {"schema", "process", "is_open"})
        lacking = set(inspect.signature(Database.connect).parameters) - set(inspect.signature(AsyncDatabase.connect).parameters)
        self.assertEqual(lacking, set())


class Waits(unittest.TestCase):
    def test_a_place_is_not_lost(self) -> None:
        async def work() -> None:
            places = Places(1)

            async def take() -> None:
                async with places:
                    pass

            async with places:
                waits = asyncio.ensure_future(take())
                await asyncio.sleep(0)
            waits.cancel()  # (it has got the place, and hasn't gone on yet)
            await asyncio.gather(waits, return_exceptions=True)
            await asyncio.wait_for(take(), 5)

        asyncio.run(work())


class Calls:
    async def opened(self) -> AsyncDatabase:
        raise NotImplementedError

    def run_on(self, work: Any) -> Any:
        async def run() -> Any:
            async with await self.opened() as db:
                return await asyncio.wait_for(work(db), 30)

        return asyncio.run(run())

    def test_commands(self) -> None:
        async def work(db: AsyncDatabase) -> None:
            ids = await asyncio.gather(*[db.insert({"owner": str(n), "balance": n, "vip": False}) for n in range(100)])
            self.assertEqual(ids, list(range(100)))
            rows = await asyncio.gather(*[db.get(n) for n in reversed(range(100))])
            self.assertEqual([it["owner"] for it in rows], [str(n) for n in reversed(range(100))])
            self.assertEqual([it["id"] async for it in db.walk_range("by_balance", page=7)], ids)
            self.assertEqual([it["id"] async for it in db.walk_list("line", page=9)], ids)
            self.assertEqual([it async for it in db.ask_lines(['{"cmd":"size"}'] * 30, window=4)], ['{"ok":true,"size":100}'] * 30)
            self.assertEqual((await db.find("by_owner", {"owner": "7"}))["id"], 7)
            with self.assertRaisesRegex(Refused, "row: balance is a float; int wanted"):
                await db.insert({"owner": "x", "balance": 1.5, "vip": False})
            self.assertEqual([it["id"] async for it in db.equal("by_owner", ["8"])], [8])
            self.assertEqual([it["id"] async for it in db.equal("by_vip", [False], page=30)], ids)
            self.assertEqual([it["id"] for it in (await db.window("by_balance", 40, 3)).rows], [40, 41, 42])
            self.assertEqual((await db.around(99, 1, "by_balance")).place, 98)
            self.assertEqual(await db.count_range("by_balance", [10], [19]), 10)
            with self.assertRaisesRegex(ValueError, "exchange the bounds"):
                await db.count_range("by_balance", [19], [10])
            with self.assertRaisesRegex(Refused, "kind"):
                await db.window("by_class", 0, 3)
            await db.pass_turn()
            self.assertEqual(await db.size(), 100)
            self.assertRaises(ValueError, await_nothing, db.ask_line(""))

        def await_nothing(it: Any) -> None:
            it.send(None)

        self.run_on(work)

    def test_sessions(self) -> None:
        async def work(db: AsyncDatabase) -> None:
            async def beside() -> None:
                await asyncio.sleep(0)
                await db.insert(BOB)

            other = asyncio.ensure_future(beside())
            with self.assertRaises(KeyError):
                async with db.session() as number:
                    self.assertEqual(number, 1)
                    await asyncio.sleep(0.01)
                    await asyncio.gather(db.insert(ANN), db.size())
                    async with db.session():
                        await db.begin()
                    self.assertEqual((await db.revision()).depth, 1)
                    raise KeyError
            await other
            self.assertEqual((await db.get(0))["owner"], "bob")
            async with db.session():
                await db.erase(0)
            self.assertEqual((await db.size(), (await db.revision()).depth), (0, 0))

        self.run_on(work)

    def test_cancelled(self) -> None:
        async def work(db: AsyncDatabase) -> None:
            asked = [asyncio.ensure_future(db.insert({"owner": str(n), "balance": n, "vip": False})) for n in range(10)]
            await asyncio.sleep(0)
            asked[4].cancel()
            await asyncio.gather(*asked, return_exceptions=True)
            self.assertEqual([(await db.get(n))["owner"] for n in range(10)], [str(n) for n in range(10)])

        self.run_on(work)

    def test_sessions_of_two_connections(self) -> None:
        async def work(db: AsyncDatabase) -> None:
            async with await self.opened() as other:
                async with db.session(), other.session():
                    await asyncio.gather(db.insert(ANN), other.insert(BOB))
                self.assertEqual((await db.size(), await other.size()), (1, 1))

        self.run_on(work)

    def test_sessions_within_a_session_take_turns(self) -> None:
        async def work(db: AsyncDatabase) -> None:
            async def part(n: int) -> None:
                with contextlib.suppress(KeyError):
                    async with db.session():
                        await db.insert({"owner": f"{n}", "balance": n, "vip": False})
                        await asyncio.sleep(0.01)
                        if n % 2:
                            raise KeyError

            async with db.session():
                await asyncio.gather(*[part(n) for n in range(4)], db.insert(ANN))
                self.assertEqual((await db.revision()).depth, 1)
            self.assertEqual([it["owner"] async for it in db.walk_list("line")], ["0", "2", "ann"])

        self.run_on(work)

    def test_a_session_that_ends_in_another_task(self) -> None:
        async def work(db: AsyncDatabase) -> None:
            async def rows() -> AsyncIterator[int]:
                async with db.session():
                    yield await db.insert(ANN)

            walk = rows()
            self.assertEqual(await asyncio.ensure_future(walk.__anext__()), 0)
            await walk.aclose()
            self.assertEqual((await db.size(), await db.revision()), (0, (0, 0, 0)))

        self.run_on(work)

    def test_a_session_that_is_cancelled_where_it_begins_or_ends(self) -> None:
        """Nobody knows then whether it is open, so the connection ends, also for those that wait."""
        async def work(db: AsyncDatabase) -> None:
            async def block() -> None:
                async with db.session():
                    await db.insert(ANN)
                    if word == b"undo":
                        raise KeyError
                    if word == b"revision":  # (which is asked behind a line that the block doesn't know)
                        await db.ask_line('{"cmd":"size"}')

            def write(line: bytes) -> None:
                written(line)
                if word in line:
                    asyncio.get_running_loop().call_soon(task.cancel)

            written, db._writer.write = db._writer.write, write
            task = asyncio.ensure_future(block())
            await asyncio.sleep(0)
            behind = asyncio.ensure_future(db.insert(BOB))
            with self.assertRaises(asyncio.CancelledError):
                await task
            for it in (behind, db.size(), db.begin()):
                with self.assertRaisesRegex(Ended, "a session was interrupted where it begins or ends"):
                    await it

        for word in (b"start", b"revision", b"squash", b"undo"):
            with self.subTest(word):
                self.run_on(work)

    def test_a_session_that_is_cancelled_ahead_of_its_turn(self) -> None:
        async def work(db: AsyncDatabase) -> None:
            async def block() -> None:
                async with db.session():
                    await asyncio.sleep(0.01)

            first, second = asyncio.ensure_future(block()), asyncio.ensure_future(block())
            await asyncio.sleep(0)
            second.cancel()
            await asyncio.gather(first, second, return_exceptions=True)
            self.assertEqual(await db.insert(ANN), 0)

        self.run_on(work)

    def test_a_loop_that_ends(self) -> None:
        """It cancels all tasks, also the one that reads replies."""
        async def work(db: AsyncDatabase) -> None:
            async def block() -> None:
                async with db.session():
                    begun.set()
                    await asyncio.sleep(30)

            begun = asyncio.Event()
            task = asyncio.ensure_future(block())
            await begun.wait()
            for it in (task, db._reading):
                it.cancel()
            with self.assertRaises(Ended):
                await task

        self.run_on(work)


class OverPipes(Calls, unittest.TestCase):
    async def opened(self) -> AsyncDatabase:
        return await AsyncDatabase.start(program())

    def test_ends(self) -> None:
        async def work(db: AsyncDatabase) -> None:
            self.assertTrue(db.is_open)
            os.kill(db.process, signal.SIGKILL)
            with self.assertRaisesRegex(Ended, "status -9"):
                while True:
                    await db.size()
            self.assertFalse(db.is_open)
            with self.assertRaises(Ended):
                await AsyncDatabase.start(program(), "/no/such/file")

        self.run_on(work)

    def test_a_schema_that_the_client_cannot_read(self) -> None:
        async def work() -> None:
            path = kit.written(self, 'table = "t"\ncolumn = [{ name = "n", type = "int" }]\n')
            with mock.patch.object(kit.Schema, "read", side_effect=ValueError("line 1: what")):
                with self.assertWarnsRegex(UserWarning, "the client can't read it: line 1: what"):
                    db = await AsyncDatabase.start(program(), path)
            async with db:
                self.assertEqual((await db.size(), db.schema), (0, None))

        asyncio.run(work())


class OverLoopback(Calls, unittest.TestCase):
    async def opened(self) -> AsyncDatabase:
        self.server = Server(program())
        self.addCleanup(self.server.close)
        return await AsyncDatabase.connect(self.server.port, kit.Schema.built_in(), wait=20)

    def test_it_has_no_process(self) -> None:
        async def work(db: AsyncDatabase) -> None:
            self.assertEqual((db.process, db.is_open), (None, True))
            await db.close()
            self.assertFalse(db.is_open)

        self.run_on(work)

    def test_no_listener(self) -> None:
        async def work() -> None:
            with self.assertRaises(OSError):
                await AsyncDatabase.connect(1, wait=0.05)

        asyncio.run(work())


if __name__ == "__main__":
    unittest.main()
