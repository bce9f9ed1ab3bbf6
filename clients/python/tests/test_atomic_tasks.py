"""Changes that are done all or not at all, and sessions, of tasks that share a connection: what is written, what is undone, and cancellation."""
import asyncio
import json
import unittest
from typing import Any, Awaitable, Callable, List

import kit
from kit import ANN, BOB

from mi_client import Ended, Refused, calls
from mi_client.aio import AsyncDatabase

Work = Callable[[AsyncDatabase], Awaitable[None]]


def inserts(n: int, name: str = "o") -> List[Any]:
    return [calls.insert({"owner": f"{name}{it}", "balance": it, "vip": False}) for it in range(n)]


def watched(db: AsyncDatabase, at: Callable[[bytes], None] = lambda _: None) -> List[List[str]]:
    """The commands that are written together from here on; something may be done at each write."""
    writes: List[List[str]] = []
    write = db._writer.write

    def note(data: bytes) -> None:
        writes.append([it.split(b'"')[3].decode() for it in data.splitlines()])
        write(data)
        at(data)

    db._writer.write = note  # type: ignore[method-assign]
    return writes


class Together(unittest.TestCase):
    def run_on(self, work: Work, window: int = 1024) -> None:
        async def run() -> None:
            async with await AsyncDatabase.start(kit.program(), window=window) as db:
                await asyncio.wait_for(work(db), 60)

        asyncio.run(run())

    def test_a_squash_that_is_refused(self) -> None:
        """As `journal`: what was done is undone, and the connection goes on."""
        asked: List[str] = []

        async def serve(reader: asyncio.StreamReader, writer: asyncio.StreamWriter) -> None:
            while line := await reader.readline():
                asked.append(json.loads(line)["cmd"])
                said = {"error": "journal", "ok": False} if asked[-1] == "squash" else {"id": 0, "ok": True, "revision": 1}
                writer.write(json.dumps(said).encode() + b"\n")
            writer.close()

        async def run() -> None:
            server = await asyncio.start_server(serve, "127.0.0.1", 0)
            async with await AsyncDatabase.connect(server.sockets[0].getsockname()[1], timeout=20) as db:
                asked.clear()
                with self.assertRaisesRegex(Refused, "^journal: the service's journal has no room"):
                    async with db.session():
                        await db.insert(ANN)
                with self.assertRaisesRegex(Refused, "^journal") as caught:
                    await db.atomically(inserts(1))
                self.assertIsNone(caught.exception.change)
                self.assertEqual((asked, await db.insert(BOB)), (["start", "insert", "squash", "undo"] * 2 + ["insert"], 0))
            server.close()

        asyncio.run(asyncio.wait_for(run(), 60))

    def test_what_is_written(self) -> None:
        async def work(db: AsyncDatabase) -> None:
            writes = watched(db)
            self.assertEqual(await db.atomically(inserts(3)), [0, 1, 2])
            async with db.session():
                await db.modify(0, add={"balance": 1})
            self.assertEqual(writes, [["start", "insert", "insert", "insert"], ["squash"], ["start"], ["modify"], ["squash"]])
            writes.clear()
            async with db.session():
                await db.push()
            self.assertEqual(writes, [["start"], ["push"], ["revision"]])
            await db.undo()
            writes.clear()
            behind = asyncio.ensure_future(db.insert(BOB))  # (the start waits for its turn at the server: what stands behind it waits too)
            await asyncio.sleep(0)
            await db.atomically(inserts(2, "p"))
            self.assertEqual((writes, await behind), ([["insert"], ["start"], ["insert", "insert"], ["squash"]], 3))
            self.assertEqual((await db.atomically([]), await db.revision()), ([], (0, 0, 0)))

        self.run_on(work)

    def test_a_narrow_window(self) -> None:
        async def work(db: AsyncDatabase) -> None:
            writes = watched(db)
            await db.atomically(inserts(7))
            self.assertEqual(writes, [["start", "insert", "insert"], ["insert"] * 3, ["insert"] * 2, ["squash"]])

        self.run_on(work, 3)

    def test_what_is_done_and_undone(self) -> None:
        async def work(db: AsyncDatabase) -> None:
            await db.atomically([calls.insert(ANN), calls.insert(BOB)])
            for changes in ([calls.erase(0), calls.insert(BOB)], [calls.get(0), calls.modify(1, set={"owner": "ann"}, rollback=False)]):
                with self.assertRaisesRegex(Refused, "^change 1: unique: record . has this key in by_owner$"):
                    await db.atomically(changes)
            with self.assertRaises(ValueError):
                await db.atomically([calls.erase(0), calls.squash()])
            self.assertEqual((await db.get(0), await db.get(1), await db.size()), ({"id": 0, **ANN}, {"id": 1, **BOB}, 2))
            self.assertEqual(await db.atomically(inserts(300)), list(range(2, 302)))
            with self.assertRaisesRegex(Refused, "^change 299: unique"):
                await db.atomically([*inserts(299, "p"), calls.insert(ANN)])
            self.assertEqual((await db.size(), await db.revision()), (302, (0, 0, 0)))

        for window in (1, 7, 1024):
            self.run_on(work, window)

    def test_beside_other_tasks(self) -> None:
        async def work(db: AsyncDatabase) -> None:
            async def part(n: int) -> None:
                await db.insert({"owner": f"{n} alone", "balance": n, "vip": False})
                if n % 2:
                    with self.assertRaises(Refused):
                        await db.atomically([*inserts(2, f"{n} "), calls.erase(10_000)])
                elif n % 3:
                    await db.atomically(inserts(2, f"{n} "))
                else:
                    async with db.session():
                        await db.atomically(inserts(2, f"{n} "))

            await asyncio.gather(*[part(n) for n in range(20)])
            self.assertEqual((await db.size(), await db.revision()), (20 + 10 * 2, (0, 0, 0)))

        for window in (1, 5, 1024):
            self.run_on(work, window)

    def test_cancelled(self) -> None:
        """Nobody knows then what is open, so the connection ends, also for those that wait."""
        for word in (b'"start"', b'"squash"', b'"undo"'):

            async def work(db: AsyncDatabase, word: bytes = word) -> None:
                def cancel(data: bytes) -> None:
                    if word in data:
                        asyncio.get_running_loop().call_soon(task.cancel)

                watched(db, cancel)
                task = asyncio.ensure_future(db.atomically([calls.insert(ANN), *[calls.erase(9)] * (word == b'"undo"')]))
                await asyncio.sleep(0)
                behind = asyncio.ensure_future(db.insert(BOB))
                with self.assertRaises(asyncio.CancelledError):
                    await task
                for it in (behind, db.size()):
                    with self.assertRaisesRegex(Ended, "^changes that are done together were interrupted$"):
                        await it

            self.run_on(work)

    def test_cancelled_ahead_of_its_turn(self) -> None:
        async def work(db: AsyncDatabase) -> None:
            async def block() -> None:
                async with db.session():
                    await asyncio.sleep(0.01)

            first, second = asyncio.ensure_future(block()), asyncio.ensure_future(db.atomically(inserts(1)))
            await asyncio.sleep(0)
            second.cancel()
            await asyncio.gather(first, second, return_exceptions=True)
            self.assertEqual((await db.size(), db.is_open), (0, True))

        self.run_on(work)

    def test_a_session_that_is_refused(self) -> None:
        async def work(db: AsyncDatabase) -> None:
            await asyncio.gather(*[db.begin() for _ in range(1024)])
            with self.assertRaisesRegex(Refused, "^depth"):
                await db.atomically([calls.size()])
            with self.assertRaisesRegex(Ended, "^the session was refused as depth, and a change behind it was done outside of one$"):
                await db.atomically([calls.insert(ANN)])
            self.assertFalse(db.is_open)

        self.run_on(work)


if __name__ == "__main__":
    unittest.main()
