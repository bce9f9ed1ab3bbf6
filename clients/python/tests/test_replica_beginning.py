"""A ledger that begins with the tables of a checkpoint, over a fake etcd, and checkpoints that become journals of a service. The service is the one that
MI_SERVICE names, else the built one, else the stand-in of the scripts' tests."""
import asyncio
import contextlib
import io
import os
import shutil
import unittest
from typing import Any, List
from unittest import mock

import kit
from fake_etcd import etcds
from member_kit import INSERT, NOWHERE, OWNERS, SIZE, Test, changed, lines_in
from test_replica_based import LIST, SERVICE, START

from mi_client import Server
from mi_replica import based, cli
from mi_replica.beginning import begin, named
from mi_replica.checkpoint import Damaged, digest_of
from mi_replica.log import Log, OtherLedger
from mi_replica.member import OtherSchema, Settings


def setUpModule() -> None:
    """A busy machine keeps what runs quietly waiting for too long."""
    patched = mock.patch.object(based, "QUIETLY", [])
    patched.start()
    unittest.addModuleCleanup(patched.stop)


class Begun(Test):
    service = SERVICE

    def settings(self, folder: str, **more: Any) -> Settings:
        how = dict(etcd=[NOWHERE], name="led", program=self.service or kit.program(), port=0, folder=folder, body="service" if self.service else "pipes")
        return Settings(**{**how, **more})

    async def begun(self, path: str, folder: str, **more: Any) -> Any:
        log = Log([NOWHERE], "led")
        self.etcd.serve(*etcds(log))
        return await begin(self.settings(folder, **more), path, log)

    def the_one(self) -> str:
        name, = os.listdir(self.folder)
        return f"{self.folder}/{name}"

    def test_it_goes_on_where_the_checkpoint_ends(self) -> None:
        """Behind a loss of etcd's data; the others begin with empty folders."""
        async def act() -> None:
            async with self.running() as it:
                await it.insert(*OWNERS)
                await it.ask(b'{"cmd":"erase","id":1}\n')
                await it.until_checkpoint(5)
                before = await it.ask(LIST)
            old, kept = self.the_one(), kit.folder(self)
            self.etcd.wipe()
            made, identity = await self.begun(old, kept)
            self.assertEqual((made.front.number, named(made.path)[:2]), (5, made[:2]))
            self.assertNotEqual(made.front.sum, named(old).front.sum)
            self.assertEqual(self.etcd.keys[b"led/identity"].value, identity.encode())
            async with self.running(kept) as it:
                self.assertEqual(await it.ask(LIST), before)
                self.assertEqual((await it.ask(INSERT % b"e"))["id"], 4)
                await it.until_checkpoint(6)
                async with self.running(kit.folder(self)) as other:
                    while other.member._front.number != 6:
                        await asyncio.sleep(0.02)
                    self.assertEqual(await other.look(LIST), await it.look(LIST))
            async with self.running() as it:  # (the folder of before is another ledger's)
                with self.assertRaises(OtherLedger):
                    await it.task

        self.play(act)

    def test_what_is_held_is_undone(self) -> None:
        async def act() -> None:
            async with self.running() as it:
                await it.insert(b"a")
                _, writer = await asyncio.open_connection("127.0.0.1", it.port)
                writer.write(START + INSERT % b"b")
                while it.member._said()["checkpoint"] != it.member._front.number or it.member._front.number < 2 or it.member._writing:
                    await asyncio.sleep(0.02)
                await asyncio.sleep(0.1)
                old = shutil.copy(self.the_one(), kit.folder(self))
                writer.close()
            self.etcd.wipe()
            kept = kit.folder(self)
            await self.begun(old, kept)
            async with self.running(kept) as it:
                self.assertEqual((await it.ask(SIZE))["size"], 1)
                self.assertEqual(await it.ask(b'{"cmd":"revision"}\n'), {"depth": 0, "held": 0, "ok": True, "revision": 0})

        self.play(act)

    def test_what_is_refused(self) -> None:
        async def act() -> None:
            await self.with_checkpoint(*OWNERS)
            old, kept = self.the_one(), kit.folder(self)
            with self.assertRaises(OtherLedger):  # (which is there)
                await self.begun(old, kept)
            self.etcd.wipe()
            with self.assertRaises(OtherLedger):  # (a folder of an earlier one)
                await self.begun(old, self.folder)
            with self.assertRaises(OtherSchema):
                await self.begun(old, kept, schema=kit.written(self, SCHEMA))
            with self.assertRaises(Damaged):
                await self.begun(kit.written(self, "x", "led.journal"), kept)
            aside = shutil.copy(old, f"{old}.replaced")
            changed(aside, lambda text: text[:-9])
            with self.assertRaises(Damaged):
                await self.begun(aside, kept)
            changed(aside, lambda text: text + b'{"cmd":"erase","id":9}\n')
            parts = os.path.basename(old).split(".")
            other = shutil.copy(aside, f"{kept}/x")
            os.rename(other, other := f"{kept}/{'.'.join([*parts[:4], digest_of(other), *parts[5:]])}")
            with self.assertRaises(Damaged):
                await self.begun(other, kit.folder(self))
            self.assertEqual((len(os.listdir(kept)), [it for it in self.etcd.keys if it.startswith(b"led/")]), (1, []))

        self.play(act)

    def test_one_of_lines_alone(self) -> None:
        async def act() -> None:
            with mock.patch("mi_replica.based.Rebase.__call__", lambda self, path: None):
                await self.with_checkpoint(*OWNERS)
            self.etcd.wipe()
            kept = kit.folder(self)
            await self.begun(self.the_one(), kept)
            self.assertEqual(lines_in(kept), [INSERT % it for it in OWNERS])
            async with self.running(kept) as it:
                self.assertEqual((await it.ask(INSERT % b"e"))["id"], 4)

        self.play(act)

    def test_by_words(self) -> None:
        async def act() -> None:
            await self.with_checkpoint(*OWNERS)

        self.play(act)
        self.etcd.wipe()
        said, kept = io.StringIO(), kit.folder(self)

        def log(urls: List[str], name: str) -> Log:
            made = Log(urls, name)
            self.etcd.serve(*etcds(made))
            return made

        words = ["--etcd", NOWHERE, "--name", "led", "--program", SERVICE, "--body", "service", "--folder", kept, "--begin"]
        with mock.patch("mi_replica.cli.Log", log), contextlib.redirect_stdout(said), contextlib.redirect_stderr(said):
            self.assertEqual(cli.main([*words, f"{kept}/none"]), 3)
            self.assertEqual(cli.main([*words, self.the_one()]), 0)
            self.assertEqual(cli.main([*words, self.the_one()]), 3)
        self.assertRegex(said.getvalue(), r"(?s)checkpoint: .*led: begun with the identity [0-9a-f]{16}, behind entry 4\. Start .*ledger: ")

    def test_one_becomes_a_journal(self) -> None:
        async def act() -> None:
            await self.with_checkpoint(*OWNERS)

        self.play(act)
        said, journal = io.StringIO(), f"{kit.folder(self)}/journal"
        with contextlib.redirect_stdout(said), contextlib.redirect_stderr(said):
            self.assertEqual(cli.main(["--unpack", self.the_one(), journal]), 0)
            self.assertEqual(cli.main(["--unpack", self.the_one(), journal]), 4)
            self.assertEqual(cli.main(["--unpack", f"{journal}.base", f"{journal}2"]), 3)
        with Server(service=SERVICE, journal=journal) as server, server.connect(10) as db:
            self.assertEqual([it["owner"] for it in db.list("line").rows], [it.decode() for it in OWNERS])
        self.assertRegex(said.getvalue(), r"journal\.00000[0-9]: start mi_service with --journal .*\n.* is there\n.*isn't called as a checkpoint")


SCHEMA = """format = 2

[[table]]
name = "notes"

[[table.column]]
name = "text"
type = "text"
"""


if __name__ == "__main__":
    unittest.main()
