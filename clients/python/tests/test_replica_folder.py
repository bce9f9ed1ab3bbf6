"""A member over a fake etcd, with a server of its own: checkpoints in its folder that can't be written, are damaged, or are gone."""
import asyncio
import contextlib
import os
import shutil
import unittest
from typing import Any, Callable
from unittest import mock

import kit
from member_kit import INSERT, OWNERS, SIZE, Test, changed, lines_in

from mi_replica import lines as known
from mi_replica.checkpoint import Folder, digest_of, header
from mi_replica.following import Diverged
from mi_replica.front import Front


class Writing(Test):
    def fails(self, *calls: int) -> Any:
        """The syncs of these numbers fail. A checkpoint has one of its file and then one of its folder."""
        count, synced = [0], os.fsync

        def sync(handle: int) -> None:
            count[0] += 1
            if count[0] in calls:
                raise OSError(28, "No space left on device")
            synced(handle)

        return mock.patch("mi_replica.checkpoint.os.fsync", sync)

    def test_one_that_failed_is_tried_again(self) -> None:
        """With each line once, where it had got its name too."""
        async def act() -> None:
            for calls in ((1,), (1, 2, 3), (2,), (4,)):
                self.etcd.wipe()
                self.notes.clear()
                folder = kit.folder(self)
                async with self.running(folder) as it:
                    with self.fails(*calls):
                        await it.insert(*OWNERS)
                    await it.until_checkpoint(4)
                    self.assertEqual((it.member._tail, it.member._tail_bytes), ([], 0))
                self.assertEqual(lines_in(folder), [INSERT % owner for owner in OWNERS], calls)
                self.assertEqual(len([text for text in self.notes if text.startswith("no checkpoint")]), len(calls))

        with mock.patch("mi_replica.member.REST_SECONDS", 0.0, create=True):
            self.play(act)

    def test_there_is_a_rest_before_the_next(self) -> None:
        async def act() -> None:
            async with self.running() as it:
                with self.fails(*range(99)):
                    await it.insert(*OWNERS)
                self.assertEqual([f"no checkpoint, and {len(INSERT % b'a')} bytes" in text for text in self.notes if "checkpoint" in text], [True])
                self.assertEqual([value for _, value in it.member._tail], [INSERT % owner for owner in OWNERS])
                self.assertEqual(os.listdir(self.folder), [])

        self.play(act)


class Reading(Test):
    def damaged(self, change: Callable[[bytes], bytes], is_named: bool = False) -> None:
        """A member whose checkpoint was changed by this begins from the log, tells of none meanwhile, and writes another. The file may have the
        name of what it became."""
        async def act() -> None:
            await self.with_checkpoint(b"a", b"b", b"c")
            name, = os.listdir(self.folder)
            changed(f"{self.folder}/{name}", change)
            if is_named:
                name, old = ".".join([*name.split(".")[:4], digest_of(f"{self.folder}/{name}"), "journal"]), name
                os.rename(f"{self.folder}/{old}", f"{self.folder}/{name}")
            async with self.running(checkpoint=4 * len(INSERT % b"a")) as it:
                self.assertEqual(it.member._said()["checkpoint"], 0)
                self.assertEqual(await it.ask(SIZE), {"ok": True, "size": 3})
                self.assertEqual(it.member._said()["checkpoint"], 0)
                self.assertEqual(os.listdir(self.folder), [f"{name}.damaged"])
                self.assertIn(f"set aside as {self.folder}/{name}.damaged", "".join(self.notes))
                await it.insert(b"d")
                await it.until_checkpoint(4)
            self.assertEqual(lines_in(self.folder), [INSERT % owner for owner in OWNERS])

        self.play(act)

    def test_one_that_is_torn_is_set_aside(self) -> None:
        self.damaged(lambda text: text[:-5])

    def test_one_that_lacks_whole_lines_is_set_aside(self) -> None:
        self.damaged(lambda text: text[:-len(INSERT % b"c")])

    def test_one_with_other_lines_is_set_aside(self) -> None:
        self.damaged(lambda text: text.replace(b'"balance":1', b'"balance":2'))

    def test_one_that_is_no_journal_is_set_aside(self) -> None:
        """Though its name says so."""
        for change in (lambda text: b"", lambda text: text + b"\n", lambda text: text[:-5]):
            with self.subTest(change=change):
                self.setUp()
                self.damaged(change, is_named=True)

    def test_one_that_the_server_refuses_is_set_aside(self) -> None:
        self.damaged(lambda text: text.replace(b'"b"', b'"a"'), is_named=True)

    def test_one_that_is_damaged_while_its_member_runs(self) -> None:
        """Is found when the next one is to grow from it: the member begins anew from the log."""
        async def act() -> None:
            async with self.running() as it:
                await it.insert(b"a", b"b")
                await it.until_checkpoint(2)
                name, = os.listdir(self.folder)
                changed(f"{self.folder}/{name}", lambda text: text[:-len(INSERT % b"b")])
                await it.insert(b"c")
                self.assertEqual(it.member._said()["checkpoint"], 0)
                with contextlib.suppress(ValueError):  # (its connection is cut without a reply, and the line is in the log)
                    await it.ask(INSERT % b"d")
                await it.until(SIZE, {"ok": True, "size": 4})
                self.assertTrue(os.path.isfile(f"{self.folder}/{name}.damaged"))
                await it.until_checkpoint(4)
                await it.insert(b"e")
                await it.until_checkpoint(5)
            kept, = [f"{self.folder}/{it}" for it in os.listdir(self.folder) if it.endswith(".journal")]
            self.assertEqual(lines_in(self.folder), [INSERT % owner for owner in (*OWNERS, b"e")])
            self.assertEqual(kept.split(".")[-2], digest_of(kept))

        self.play(act)

    def test_one_that_is_gone_while_its_member_runs(self) -> None:
        async def act() -> None:
            async with self.running() as it:
                await it.insert(b"a", b"b")
                await it.until_checkpoint(2)
                os.unlink(f"{self.folder}/{os.listdir(self.folder)[0]}")
                await it.insert(b"c")
                self.assertEqual(it.member._said()["checkpoint"], 0)
                with contextlib.suppress(ValueError):  # (its connection is cut without a reply, and the line is in the log)
                    await it.ask(INSERT % b"d")
                await it.until(SIZE, {"ok": True, "size": 4})
                await it.until_checkpoint(4)
            self.assertEqual(lines_in(self.folder), [INSERT % owner for owner in OWNERS])

        self.play(act)

    def test_a_member_goes_on_where_no_other_has_what_it_has(self) -> None:
        """Entries have left the log, and its own checkpoint is damaged: its server has them. It begins anew once another member has them."""
        async def act() -> None:
            async with self.running() as it:
                await it.insert(b"a", b"b")
                await it.until_checkpoint(2)
                name, = os.listdir(self.folder)
                copy = kit.folder(self)
                shutil.copy(f"{self.folder}/{name}", copy)
                await self.forget(it, 2)
                changed(f"{self.folder}/{name}", lambda text: text[:-9])
                await it.insert(b"c", b"d")
                self.assertEqual(await it.ask(SIZE), {"ok": True, "size": 4})
                self.assertEqual(it.member._said()["checkpoint"], 0)
                async with self.running(copy, checkpoint=1 << 20) as other:
                    await other.has_told(2)
                    for owner in (b"e", b"f"):
                        with contextlib.suppress(ValueError):  # (its connection may be cut without a reply)
                            await it.insert(owner)
                    while not os.path.isfile(f"{self.folder}/{name}.damaged") or it.member._front.number < 6:
                        await asyncio.sleep(0.02)

        with mock.patch("mi_replica.member.REST_SECONDS", 0.0):
            self.play(act)

    def test_one_for_which_there_is_no_room_stays(self) -> None:
        async def act() -> None:
            await self.with_checkpoint(b"a")
            async with self.running() as it:
                await it.ask(SIZE)
                before = os.listdir(self.folder)
                for refusal in (known.MEMORY, known.NO_ROOM):
                    own = mock.Mock(start=mock.AsyncMock(), ask=mock.AsyncMock(side_effect=[[refusal]]))
                    with self.assertRaises(Diverged):
                        await it.member._load(own)
                    self.assertEqual(os.listdir(self.folder), before)

        self.play(act)

    def test_of_several_that_were_set_aside_the_newest_stays(self) -> None:
        folder = Folder(self.folder, "led", "0a")
        for n in (1, 2):
            made = folder.write(Front(n, "0" * 16), header(0, "00"), [(at, INSERT % b"a") for at in range(1, n + 1)])
            self.assertEqual(folder.set_aside(made), f"{made.path}.damaged")
            self.assertIsNone(folder.newest())
        self.assertEqual(os.listdir(self.folder), [f"{os.path.basename(made.path)}.damaged"])


if __name__ == "__main__":
    unittest.main()
