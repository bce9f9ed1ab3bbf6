"""A member over a fake etcd, with a server of its own: a ledger that is another one or was put back, checkpoints of other members, and look-ups
while nobody is elected."""
import asyncio
import contextlib
import hashlib
import io
import os
import threading
import unittest
from typing import Any, Dict, List
from unittest import mock

import kit
from member_kit import INSERT, LONG, NOWHERE, OWNERS, SIZE, Test, lines_in

from mi_replica import cli
from mi_replica import lines as known
from mi_replica.checkpoint import header, shorten
from mi_replica.etcd import Unreachable
from mi_replica.front import Front
from mi_replica.log import OtherLedger


class Ledgers(Test):
    def test_a_member_of_another_ledger_refuses(self) -> None:
        """Where etcd was begun anew, and has a ledger of this name that goes farther than the checkpoint."""
        async def act() -> None:
            await self.with_checkpoint(b"old1", b"old2", b"old3")
            self.etcd.wipe()
            async with self.running(kit.folder(self)) as other:
                await other.insert(*(b"new%d" % n for n in range(1, 6)))
            before = os.listdir(self.folder)
            async with self.running() as it:
                with self.assertRaisesRegex(OtherLedger, "journal is a checkpoint of another ledger: led in etcd has the identity .* move that file away"):
                    await asyncio.wait_for(asyncio.shield(it.task), LONG)
            self.assertEqual(os.listdir(self.folder), before)
            os.rename(f"{self.folder}/{before[0]}", f"{kit.folder(self)}/kept")
            async with self.running() as it:
                self.assertEqual(await it.ask(SIZE), {"ok": True, "size": 5})

        self.play(act)

    def test_a_member_whose_log_has_lost_entries_refuses(self) -> None:
        async def act() -> None:
            await self.with_checkpoint(b"a", b"b", b"c")
            self.etcd.put_back("led", 2)
            async with self.running() as it:
                with self.assertRaisesRegex(OtherLedger, "ends before entry 3"):
                    await asyncio.wait_for(asyncio.shield(it.task), LONG)

        self.play(act)

    def test_a_member_whose_log_has_others_refuses(self) -> None:
        """As many as its checkpoint has, and more."""
        async def act() -> None:
            await self.with_checkpoint(b"a", b"b", b"c")
            self.etcd.put_back("led", 2)
            async with self.running(kit.folder(self)) as other:
                for owner in (b"x", b"y"):
                    await other.insert(owner)
                    async with self.running() as it:
                        with self.assertRaisesRegex(OtherLedger, "up to entry 3 it has other entries"):
                            await asyncio.wait_for(asyncio.shield(it.task), LONG)

        self.play(act)

    def test_a_leader_whose_log_was_put_back_ends(self) -> None:
        """Without any checkpoint: it knows up to where it has had the log, and what was acknowledged is in its last one. So where it was begun
        anew, and had the lines of an earlier server."""
        async def act() -> None:
            for is_anew in (False, True):
                folder = kit.folder(self)
                async with self.running(folder, checkpoint=1 << 20) as it:
                    await it.insert(b"a", b"b", b"c")
                    if is_anew:
                        self.etcd.wipe()
                    else:
                        self.etcd.put_back("led", 2)
                    with contextlib.suppress(ValueError):  # (it cuts the connection without a reply)
                        await it.ask(INSERT % b"d")
                    with self.assertRaisesRegex(OtherLedger, "was begun anew" if is_anew else "ends before entry 3"):
                        await asyncio.wait_for(asyncio.shield(it.task), LONG)
                    self.assertEqual(it.member._folder.newest(), (it.member._had, *(it.member._folder.newest() or ())[1:]))
                self.assertEqual(lines_in(folder), [INSERT % owner for owner in (b"a", b"b", b"c")])
                self.etcd.wipe()

        self.play(act)

    def test_one_knows_what_it_has_loaded(self) -> None:
        """Also where its checkpoint is gone when it begins anew."""
        async def act() -> None:
            await self.with_checkpoint(b"a", b"b", b"c")
            async with self.running(checkpoint=1 << 20) as it:
                self.assertEqual((await it.ask(SIZE))["size"], 3)
                os.unlink(f"{self.folder}/{os.listdir(self.folder)[0]}")
                self.etcd.put_back("led", 2)
                with contextlib.suppress(ValueError):
                    await it.ask(INSERT % b"d")
                with self.assertRaisesRegex(OtherLedger, "ends before entry 3"):
                    await asyncio.wait_for(asyncio.shield(it.task), LONG)

        self.play(act)

    def test_what_is_lost_stays_where_the_log_begins_behind_it(self) -> None:
        """Then a member can't know that it has other entries."""
        async def act() -> None:
            await self.with_checkpoint(b"a", b"b", b"c")
            name, = os.listdir(self.folder)
            self.etcd.put_back("led", 2)
            async with self.running(kit.folder(self)) as other:
                await other.insert(b"x", b"y", b"z")
                await other.has_told(5)
                await self.forget(other, 5)
                async with self.running() as it:
                    while it.member._said()["checkpoint"] != 5:
                        await asyncio.sleep(0.02)
            os.rename(f"{self.folder}/{name}.replaced", f"{kit.folder(self)}/{name}")
            self.assertEqual(len(os.listdir(self.folder)), 1)

        self.play(act)

    def test_a_member_whose_ledger_is_another_ends(self) -> None:
        async def act() -> None:
            async with self.running() as it:
                await it.insert(b"a")
                self.etcd.wipe()
                with self.assertRaisesRegex(OtherLedger, "etcd was begun anew"):
                    await asyncio.wait_for(asyncio.shield(it.task), LONG)

        self.play(act)

    def test_a_refusal_is_a_line_and_a_status(self) -> None:
        words, said = ["--etcd", NOWHERE, "--name", "led", "--listen", "8001"], io.StringIO()
        with mock.patch("mi_replica.cli.serve", mock.Mock(side_effect=OtherLedger("why"))), contextlib.redirect_stderr(said):
            self.assertEqual(cli.main(words), 3)
        self.assertEqual(said.getvalue(), "mi_replica: ledger: why\n")


class Others(Test):
    """What another member answers to `checkpoint`."""

    async def listening(self, *pieces: bytes, is_over: bool = True) -> str:
        async def serve(reader: asyncio.StreamReader, writer: asyncio.StreamWriter) -> None:
            self.asked.append(await reader.readline())
            writer.write(b"".join(pieces))
            self.writers.append(writer)
            if is_over:
                writer.close()

        server = await asyncio.start_server(serve, "127.0.0.1", 0)
        self.servers.append(server)
        return f"127.0.0.1:{server.sockets[0].getsockname()[1]}"

    def test_the_next_is_asked_where_one_gives_none(self) -> None:
        """Behind those that are gone, stand still, have none, have another ledger's or one that is too short, break off, or aren't members."""
        whole = header(0, "00") + INSERT % b"a"
        self.asked: List[bytes] = []
        self.servers: List[asyncio.AbstractServer] = []
        self.writers: List[asyncio.StreamWriter] = []

        async def act() -> None:
            async with self.running() as it:
                await it.ask(SIZE)
                mine = getattr(it.member._log, "identity", "")
                digest = hashlib.sha256(whole).hexdigest()[:16]
                offer: Dict[str, Any] = {"bytes": len(whole), "digest": digest, "entry": 7, "identity": mine, "ok": True, "sum": "0" * 16}
                said = known.said
                told = ["127.0.0.1:1", await self.listening(is_over=False), await self.listening(b'{"error":"checkpoint","ok":false}\n')]
                for other in ({"identity": "00"}, {"entry": 5}, {"digest": "0" * 16}, {"digest": "../x"}, {"sum": ""}):
                    other = {**offer, **other}
                    told.append(await self.listening(said(other) + b"\n", whole))
                told += [await self.listening(said(offer) + b"\n", whole[:-9]), await self.listening(b"[]\n"), await self.listening(b"5\n")]
                told += [await self.listening(said({"ok": True, "identity": mine}) + b"\n"), await self.listening()]
                last, low = await self.listening(said(offer) + b"\n", whole), await self.listening(said(offer) + b"\n", whole)
                stand = {**dict.fromkeys([*told, last], {"checkpoint": 7}), low: {"checkpoint": 6 - 1}}
                it.member._log.has = mock.AsyncMock(return_value=True)  # type: ignore[method-assign]
                it.member._log.members = mock.AsyncMock(return_value=stand)  # type: ignore[method-assign]
                await asyncio.wait_for(it.member._fetch(7), LONG)
                self.assertEqual(lines_in(self.folder), [INSERT % b"a"])
                self.assertEqual((len(self.asked), len([text for text in self.notes if "no checkpoint was taken" in text])), (len(told), len(told)))
                it.member._log.members = mock.AsyncMock(return_value={low: {"checkpoint": 5}})  # type: ignore[method-assign]
                await it.member._fetch(7)
                self.assertIn("has a checkpoint up to entry 6", self.notes[-1])
            for end in (*self.servers, *self.writers):
                end.close()
            await asyncio.sleep(0.02)

        with mock.patch("mi_replica.member.SILENT_SECONDS", 0.3, create=True):
            self.play(act)

    def test_one_is_told_of_and_sent_once_it_was_loaded(self) -> None:
        async def act() -> None:
            await self.with_checkpoint(b"a", b"b")
            async with self.running() as it:
                self.assertEqual((await it.ask(SIZE))["size"], 2)
                found = await it.ask(b'{"cmd":"checkpoint"}\n')
                made = it.member._folder.newest()
                self.assertEqual((found["entry"], found["identity"]), (2, it.member._log.identity))
                self.assertEqual(made, (Front(2, found["sum"]), found["digest"], made and made.path))
                it.member._checkpoint = None  # (as before it was loaded)
                self.assertEqual(await it.ask(b'{"cmd":"checkpoint"}\n'), {"error": "checkpoint", "ok": False})

        self.play(act)

    def test_none_is_taken_from_one_that_has_what_is_lost(self) -> None:
        """And hasn't looked since etcd's data was put back: it has others than the log goes on from."""
        async def act() -> None:
            async with self.running() as lost:
                await lost.insert(*OWNERS)
                await lost.has_told(4)
                passes = lost.cut()
                self.etcd.put_back("led", 2)
                del self.etcd.keys[b"led/leader"]
                # (which has none to give until the sixth entry, so the one that is lost is asked first)
                async with self.running(kit.folder(self), checkpoint=6 * len(INSERT % b"x")) as other:
                    await other.insert(b"x", b"y", b"z")
                    await self.forget(other, 3)
                    async with self.running(kit.folder(self)) as it:
                        while not any("go on from its checkpoint up to entry 4" in text for text in self.notes):
                            await asyncio.sleep(0.02)
                        await other.insert(b"w")
                        await other.has_told(6)
                        while it.member._front.number != 6:
                            await asyncio.sleep(0.02)
                passes.set()

        self.play(act)

    def test_one_that_is_being_written_takes_no_newer_ones_place(self) -> None:
        async def act() -> None:
            goes_on = threading.Event()

            def slow(path: str) -> None:
                if path.startswith(self.folder):
                    goes_on.wait(LONG)
                shorten(path)

            with mock.patch("mi_replica.checkpoint.shorten", slow):
                async with self.running(kit.folder(self)) as other:
                    await other.insert(b"a")
                    async with self.running() as it:
                        while not it.member._writing:
                            await asyncio.sleep(0.02)
                        passes = it.cut()
                        await other.insert(b"b", b"c")
                        await other.has_told(3)
                        await self.forget(other, 3)
                        passes.set()
                        while "takes a checkpoint: the log begins with entry 4" not in self.notes:
                            await asyncio.sleep(0.02)
                        await asyncio.sleep(0.2)
                        goes_on.set()
                        while it.member._said()["checkpoint"] != 3:
                            await asyncio.sleep(0.02)
                        self.assertEqual(len([text for text in self.notes if "has the checkpoint of" in text]), 1)

        self.play(act)

    def test_a_member_with_an_empty_folder_takes_one(self) -> None:
        """Where the log begins behind what it has, from a member that has it."""
        async def act() -> None:
            async with self.running() as it:
                await it.insert(b"a", b"b", b"c")
                await it.until_checkpoint(3)
                await self.forget(it, 3)
                async with self.running(kit.folder(self)) as other:
                    while other.member._front.number != 3:
                        await asyncio.sleep(0.02)
                    self.assertEqual(other.member._said()["checkpoint"], 3)

        self.play(act)


class Following(Test):
    def test_look_ups_are_answered_while_no_election_is(self) -> None:
        """As where etcd has no room, or two of three are gone behind the leader."""
        async def act() -> None:
            async with self.running() as it:
                await it.insert(b"a")
                async with self.running(kit.folder(self)) as other:
                    while other.member._front.number != 1:
                        await asyncio.sleep(0.02)
                    electing = other.member._log._electing
                    post, electing.post = electing.post, mock.AsyncMock(side_effect=Unreachable("no answer in time"))  # type: ignore[method-assign]
                    await it.end()
                    while not electing.post.called:  # type: ignore[attr-defined]
                        await asyncio.sleep(0.02)
                    self.assertEqual(await other.look(SIZE), {"ok": True, "size": 1})
                    self.assertEqual(await other.look(INSERT % b"b"), {"error": "leader", "leader": "", "ok": False})
                    electing.post = post  # type: ignore[method-assign]
                    await other.insert(b"b")

        self.play(act)


if __name__ == "__main__":
    unittest.main()
