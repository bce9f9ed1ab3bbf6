"""Checkpoints with a base that a service makes, and members over a fake etcd that load them. The service is the one that MI_SERVICE names, else the
built one, else the stand-in of the scripts' tests."""
import asyncio
import contextlib
import json
import os
import shutil
import sys
import unittest
from typing import Any, Callable, Dict, List, Tuple
from unittest import mock

import kit
from kit import TOP
from member_kit import INSERT, LONG, OWNERS, SIZE, Running, Test, changed, checkpoints_in, lines_in, put, script, text_in
from test_replica_parts import BASE, SEGMENT, front

from mi_replica import based
from mi_replica.based import Rebase, copied, in_memory
from mi_replica.checkpoint import Damaged, Folder, batches, digest_of
from mi_replica.own import SPARED, Gone, Service

BUILT = f"{TOP}/crates/mi_service/out/mi_service"
SERVICE = os.environ.get("MI_SERVICE") or (BUILT if os.path.exists(BUILT) else f"{TOP}/scripts/tests/stand_in.py")
MODIFY = b'{"cmd":"modify","id":0,"add":{"balance":1}}\n'
START, PUSH, COMMIT = b'{"cmd":"start"}\n', b'{"cmd":"push"}\n', b'{"cmd":"commit","revision":9}\n'
LIST = b'{"cmd":"list","index":"line"}\n'


def setUpModule() -> None:
    """A busy machine keeps what runs quietly waiting for too long."""
    patched = mock.patch.object(based, "QUIETLY", [])
    patched.start()
    unittest.addModuleCleanup(patched.stop)


class Made(unittest.TestCase):
    """By the service itself."""

    def setUp(self) -> None:
        self.notes: List[str] = []
        self.header = asyncio.run(Service(SERVICE, None).header())
        self.path = kit.folder(self)
        self.folder = Folder(self.path, "led", "0a", Rebase(SERVICE, None, self.notes.append))
        self.addCleanup(lambda: self.assertEqual(self.notes, []))

    def tables(self, path: str) -> Tuple[List[Any], List[Any]]:
        """What a server shows that has loaded a checkpoint, and its sessions."""
        async def loaded() -> Tuple[List[Any], List[Any]]:
            own = Service(SERVICE, None)
            try:
                await own.start(path)
                for lines in batches(path):
                    await own.ask(lines)
                shown, stands = await own.ask([LIST, b'{"cmd":"revision"}\n'])
                stand = json.loads(stands)
                return [[it["id"], it["owner"]] for it in json.loads(shown)["rows"]], [stand[it] for it in ("revision", "depth", "held")]
            finally:
                await own.close()

        return asyncio.run(loaded())

    def write(self, number: int, *lines: bytes) -> str:
        return self.folder.write(front(number), self.header, [(number, b"".join(lines))]).path

    def test_it_has_the_tables_and_no_lines(self) -> None:
        first = self.write(1, *(INSERT % it for it in OWNERS), b'{"cmd":"erase","id":1}\n', MODIFY * 99)
        self.assertTrue(first.endswith(".checkpoint"))
        self.assertEqual(os.stat(first).st_mode & 0o777, 0o600)
        self.assertEqual((list(batches(first)), os.listdir(self.path)), ([], [os.path.basename(first)]))
        self.assertEqual(self.tables(first), ([[0, "a"], [2, "c"], [3, "d"]], [0, 0, 0]))
        size = os.path.getsize(first)
        second = self.write(2, b'{"cmd":"relocate","index":"line","id":3,"before":0}\n', MODIFY * 999, INSERT % b"e")
        self.assertLess(os.path.getsize(second), size + 99)
        self.assertEqual(self.tables(second), ([[3, "d"], [0, "a"], [2, "c"], [4, "e"]], [0, 0, 0]))

    def test_few_lines_stand_behind_the_base(self) -> None:
        first = text_in(self.write(1, *(INSERT % b"%d" % n for n in range(99))))
        second = self.write(2, INSERT % b"a", INSERT % b"b")
        self.assertEqual(text_in(second), first + INSERT % b"a" + INSERT % b"b")
        self.assertEqual(len(self.tables(second)[0]), 101)

    def test_one_of_lines_alone_becomes_one_with_a_base(self) -> None:
        plain = Folder(self.path, "led", "0a", lambda path: None).write(front(1), self.header, [(1, INSERT % b"a" + INSERT % b"b")])
        self.assertTrue(plain.path.endswith(".journal"))
        self.assertEqual(self.tables(plain.path), ([[0, "a"], [1, "b"]], [0, 0, 0]))
        made = self.write(2, INSERT % b"c")
        self.assertEqual((os.listdir(self.path), list(batches(made))), ([os.path.basename(made)], []))
        self.assertEqual(self.tables(made), ([[0, "a"], [1, "b"], [2, "c"]], [0, 0, 0]))

    def test_open_sessions_stay_as_they_were(self) -> None:
        """Held ones and those that were let go of, however often a checkpoint is made meanwhile."""
        held = [[0, "a"], [1, "b"]]
        found = self.write(1, INSERT % b"a", START, INSERT % b"b")
        self.assertEqual(self.tables(found), (held, [1, 1, 1]))
        for number in range(2, 6):
            found = self.write(number, MODIFY * 20)
            self.assertEqual(self.tables(found), (held, [1, 1, 1]))
        found = self.write(6, PUSH, START, INSERT % b"c")
        self.assertEqual(self.tables(found), ([*held, [2, "c"]], [2, 2, 1]))
        found = self.write(7, b'{"cmd":"undo"}\n', MODIFY)
        self.assertEqual(self.tables(found), (held, [1, 1, 0]))
        found = self.write(8, COMMIT, MODIFY * 20)
        self.assertEqual((self.tables(found), list(batches(found))), ((held, [1, 0, 0]), []))

    def test_a_changed_base_is_refused(self) -> None:
        made = self.write(1, INSERT % b"a", INSERT % b"b")
        changed(made, lambda text: text.replace(b'"b"', b'"a"'))
        with self.assertRaisesRegex(ValueError, "refuses the base"):
            self.tables(made)
        with self.assertRaises(Damaged):
            self.write(2, INSERT % b"c")
        with mock.patch("mi_replica.own.copied", side_effect=OSError(28, "No space left on device")), self.assertRaisesRegex(Gone, "No space left"):
            self.tables(made)

    def test_a_server_gives_back_what_its_journal_takes(self) -> None:
        made = self.write(1, INSERT % b"a", INSERT % b"b")

        async def act() -> None:
            own = Service(SERVICE, None)
            try:
                await own.start(made)
                assert own._journal is not None
                put(f"{self.path}/big", bytes(SPARED) + b"x" * SPARED)
                os.close(own._journal)
                own._journal = os.open(f"{self.path}/big", os.O_RDWR)
                own._unspared = SPARED
                self.assertEqual(len(await own.ask([MODIFY] * 3)), 3)
                self.assertEqual(own._unspared, 0)
                self.assertEqual(os.fstat(own._journal).st_size, 2 * SPARED)
            finally:
                await own.close()

        asyncio.run(act())
        self.assertLess(os.stat(f"{self.path}/big").st_blocks * 512, SPARED + (1 << 20))
        os.unlink(f"{self.path}/big")


class Members(Test):
    service = SERVICE

    async def rows(self, it: Running) -> Dict[str, Any]:
        return await it.look(LIST)

    def test_one_begins_with_its_base(self) -> None:
        async def act() -> None:
            async with self.running() as it:
                await it.insert(*OWNERS)
                await it.until_checkpoint(4)
                before = await self.rows(it)
            self.assertEqual((lines_in(self.folder), len(os.listdir(self.folder))), ([], 1))
            self.assertTrue(checkpoints_in(self.folder)[0].endswith(".checkpoint"))
            async with self.running() as it:
                self.assertEqual(await it.ask(LIST), before)
                self.assertEqual((await it.ask(INSERT % b"e"))["id"], 4)
                self.assertEqual(os.listdir("/dev/shm") if in_memory(self.folder) else [], [
                    name for name in os.listdir("/dev/shm") if not name.startswith(os.path.basename(in_memory(self.folder)))])
                await it.until_checkpoint(5)
            self.assertEqual(len(os.listdir(self.folder)), 1)

        self.play(act)

    def test_one_of_an_earlier_version_is_read(self) -> None:
        """It has all lines."""
        async def act() -> None:
            with mock.patch("mi_replica.based.Rebase.__call__", lambda self, path: None):
                await self.with_checkpoint(*OWNERS)
            self.assertEqual(lines_in(self.folder), [INSERT % owner for owner in OWNERS])
            async with self.running() as it:
                self.assertEqual((await it.ask(SIZE))["size"], 4)
                await it.insert(b"e")
                await it.until_checkpoint(5)
            self.assertEqual(lines_in(self.folder), [])

        self.play(act)

    def damaged(self, change: Callable[[bytes], bytes], is_named: bool = False) -> None:
        """A member whose checkpoint was changed begins from the log."""
        async def act() -> None:
            await self.with_checkpoint(b"a", b"b", b"c")
            name, = os.listdir(self.folder)
            changed(f"{self.folder}/{name}", change)
            if is_named:
                name, old = ".".join([*name.split(".")[:4], digest_of(f"{self.folder}/{name}"), "checkpoint"]), name
                os.rename(f"{self.folder}/{old}", f"{self.folder}/{name}")
            async with self.running(checkpoint=4 * len(INSERT % b"a")) as it:
                self.assertEqual(await it.ask(SIZE), {"ok": True, "size": 3})
                self.assertEqual((it.member._said()["checkpoint"], os.listdir(self.folder)), (0, [f"{name}.damaged"]))
                await it.insert(b"d")
                await it.until_checkpoint(4)
            self.assertEqual(len(checkpoints_in(self.folder)), 1)

        self.play(act)

    def test_damaged_ones_are_set_aside(self) -> None:
        changes: List[Tuple[Callable[[bytes], bytes], bool]] = [
            (lambda text: text[:-5], False), (lambda text: b"", False), (lambda text: text.replace(b'"b"', b'"x"'), False),
            (lambda text: text.replace(b'"b"', b'"a"'), True), (lambda text: text[text.index(b'{"journal"'):], True),
            (lambda text: text[:text.index(b'{"journal"')], True), (lambda text: text + b"{}\n", True), (lambda text: text + b"torn", True),
        ]
        for change, is_named in changes:
            with self.subTest(text=change(BASE + SEGMENT)):
                self.setUp()
                self.damaged(change, is_named)

    def test_another_members_is_taken(self) -> None:
        async def act() -> None:
            async with self.running() as it:
                await it.insert(*OWNERS)
                await it.until_checkpoint(4)
                await it.has_told(4)
                await self.forget(it, 4)
                folder = kit.folder(self)
                async with self.running(folder) as other:
                    while other.member._front.number != 4:
                        await asyncio.sleep(0.02)
                    self.assertEqual(await self.rows(other), await self.rows(it))
                    self.assertEqual(checkpoints_in(folder), checkpoints_in(self.folder))
                    await it.insert(b"e")
                    while other.member._said()["checkpoint"] != 5:
                        await asyncio.sleep(0.02)
                    self.assertEqual(await self.rows(other), await self.rows(it))

        self.play(act)

    def test_held_sessions_outlast_a_followers_start(self) -> None:
        """A follower writes checkpoints while another's client holds sessions, ends, and begins from the last one."""
        async def act() -> None:
            folder = kit.folder(self)
            async with self.running() as it:
                await it.insert(b"a")
                reader, writer = await asyncio.open_connection("127.0.0.1", it.port)

                async def held(*lines: bytes) -> List[Any]:
                    writer.write(b"".join(lines))
                    return [json.loads(await asyncio.wait_for(reader.readline(), LONG)) for _ in lines]

                async def followed(count: int) -> None:
                    async with self.running(folder) as other:
                        while other.member._front.number < it.member._front.number:
                            await asyncio.sleep(0.02)
                        while other.member._writing:
                            await asyncio.sleep(0.02)
                        self.assertEqual((await self.rows(other))["rows"], (await self.rows(it))["rows"])
                        self.assertEqual(len((await self.rows(other))["rows"]), count)
                        self.assertEqual(self.notes_of_divergence(), [])

                await held(START, INSERT % b"b", *[MODIFY] * 40)
                for n in range(3):
                    await followed(2 + n)
                    await held(INSERT % b"%d" % n)
                await followed(5)
                self.assertEqual((await held(b'{"cmd":"undo"}\n'))[0]["ok"], True)
                await followed(1)
                writer.close()

        self.play(act)

    def notes_of_divergence(self) -> List[str]:
        return [it for it in self.notes if "Diverged" in it or "Damaged" in it]

    def test_where_no_base_can_be_made_the_lines_are_kept(self) -> None:
        async def act() -> None:
            program = script(self, f'for it; do [ "$it" = --rebase ] && exit 4; done; exec {sys.executable if SERVICE.endswith(".py") else ""} {SERVICE} "$@"')
            with mock.patch.object(Members, "service", program):
                await self.with_checkpoint(*OWNERS)
                self.assertEqual(lines_in(self.folder), [INSERT % owner for owner in OWNERS])
                self.assertIn("the checkpoint keeps its lines, without a new base: a rebase ended with status 4", "".join(self.notes))
                async with self.running() as it:
                    self.assertEqual((await it.ask(SIZE))["size"], 4)

        self.play(act)

    def test_one_for_which_there_is_no_room_stays(self) -> None:
        """The member tries again until there is."""
        async def act() -> None:
            await self.with_checkpoint(b"a")
            before = os.listdir(self.folder)
            real, left = copied, [2]

            def scarce(path: str) -> str:
                left[0] -= 1
                if left[0] >= 0:
                    raise OSError(28, "No space left on device")
                return real(path)

            with mock.patch("mi_replica.own.copied", scarce):
                async with self.running() as it:
                    self.assertEqual((await it.ask(SIZE))["size"], 1)
            self.assertEqual((os.listdir(self.folder), len([it for it in self.notes if "No space left on device" in it])), (before, 2))

        self.play(act)

    def test_what_killed_members_have_left_goes(self) -> None:
        async def act() -> None:
            await self.with_checkpoint(*OWNERS)
            before = os.listdir(self.folder)
            os.mkdir(f"{self.folder}/led.new.a.parts")
            put(f"{self.folder}/led.new.a.parts/journal.base", b"half")
            put(f"{self.folder}/led.new.a", b"half")
            left = f"{in_memory(self.folder) or self.folder + '/led.new.'}left"
            os.mkdir(left)
            put(f"{left}/journal.base", b"half")
            async with self.running(checkpoint=1 << 20) as it:
                self.assertEqual((await it.ask(SIZE))["size"], 4)
                self.assertEqual((os.listdir(self.folder), os.path.exists(left)), (before, False))
            # (a kill between a rename and the end of the older one leaves both)
            path = f"{self.folder}/{before[0]}"
            with contextlib.suppress(FileExistsError):
                shutil.copy(path, path.replace(f".{4:020}.", f".{3:020}."))
            async with self.running() as it:
                self.assertEqual((await it.ask(INSERT % b"e"))["id"], 4)
                await it.until_checkpoint(5)
            self.assertEqual(len(os.listdir(self.folder)), 1)

        self.play(act)


if __name__ == "__main__":
    unittest.main()
