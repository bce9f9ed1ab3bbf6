"""Members of a ledger without etcd: which lines are a journal's, cutting bytes into lines, and what a leader lets out when.
With etcd `scripts/stress replicas` tests them."""
import asyncio
import socket
import subprocess
import sys
import threading
import time
import unittest
from typing import Any, Awaitable, Callable, List, Tuple

import kit

from mi_client import Ended, Server, connect_leader
from mi_client.commands import belongs_in_journal
from mi_replica import lines as known
from mi_replica.clients import Clients
from mi_replica.etcd import behind, place
from mi_replica.following import Diverged, Following, replay
from mi_replica.front import Front
from mi_replica.leading import Leading
from mi_replica.log import Leader, Lost, Term, clock
from mi_replica.own import Piped

BEGIN = Front(0, "0a")
INSERT = b'{"cmd":"insert","row":{"owner":"%s","balance":1,"vip":false}}\n'


class Lines(unittest.TestCase):
    def test_which_lines_are_a_journals(self) -> None:
        """Told by the replies of the program itself."""
        asked = [
            ('{"cmd":"insert","row":{"owner":"a","balance":1,"vip":false}}', True), ('{"cmd":"insert","row":{"owner":"b","balance":1,"vip":false}}', True),
            ('{"cmd":"insert","row":{"owner":"a","balance":1,"vip":false}}', False), ('{"cmd":"get","id":0}', False), ('{"cmd":"get","id":9}', False),
            ('{"cmd":"start"}', True), ('{"cmd":"modify","id":0,"add":{"balance":1}}', True), ('{"cmd":"revision"}', False), ('{"cmd":"push"}', True),
            ('{"cmd":"commit","revision":1}', True), ('{"cmd":"undo"}', False), ('{"cmd":"undo_all"}', True), ('{"cmd":"size"}', False),
            ('{"cmd":"modify","id":0,"set":{"owner":"b"},"rollback":true}', False), ('{"cmd":"modify","id":0,"set":{"owner":"b"}}', True),
            ('{"cmd":"range","index":"id"}', False), ('{"cmd":"list","index":"line"}', False), ('{"cmd":"count","index":"by_vip","key":[true]}', False),
            ('{"cmd":"rank","index":"by_balance","id":1}', False), ('{"cmd":"erase_key","index":"by_vip","key":[true]}', True), ("no JSON", False),
            ('{"cmd":"relocate","index":"line","id":1}', True), ('{"cmd":"erase","id":1}', True), ('{"cmd":"fly"}', False),
        ]
        db = kit.start(self)
        for line, wanted in asked:
            reply = db.ask_line(line)
            self.assertEqual(belongs_in_journal(reply.encode()), wanted, (line, reply))

    def test_pieces_of_any_size_give_the_same_lines(self) -> None:
        data = b'{"a":1}\n\n\r\n{"b"\r\n' + b"x" * 70_000 + b"\nrest"
        wanted = [b'{"a":1}\n', b'{"b"\r\n', b"x" * (known.LONGEST_LINE + 1) + b"\n", b"rest\n"]
        for size in (97, 4096, 100_000):
            cut = known.Splitter()
            found = [line for at in range(0, len(data), size) for line in cut.feed(data[at:at + size])]
            self.assertEqual(found + cut.end() + cut.end(), wanted, size)
        cut, short = known.Splitter(), b'{"a":1}\n\n\r\n{"b"\r\nrest'
        self.assertEqual([line for at in range(len(short)) for line in cut.feed(short[at:at + 1])] + cut.end(), [wanted[0], wanted[1], wanted[3]])
        cut = known.Splitter()
        self.assertEqual(cut.feed(b"\r") + cut.end(), [b"\r\r\n"])  # (which no newline ended: it isn't empty)

    def test_commands(self) -> None:
        self.assertEqual(known.command(b'{"cmd":"undo","cmd":"get"}')[0], "get")
        for text, refusal in [(b"{", known.JSON), (b"[]", known.FORM), (b'{"cmd":"fly"}', known.FORM), (b'{"cmd":[]}', known.FORM), (b"\xff", known.JSON)]:
            self.assertEqual(known.command(text), (None, refusal))
        self.assertTrue(known.is_of_member(b' {"cmd": "member"}\r\n'))
        self.assertFalse(known.is_of_member(b'{"cmd":"insert","row":{"owner":"member"}}\n'))
        self.assertTrue(known.may_start(b'{"cmd":"\\u0073tart"}'))
        self.assertEqual(behind(b"a/"), b"a0")


class FakeLog:
    """A log whose entries are committed once `may` is set, or which a member has lost."""

    def __init__(self) -> None:
        self.may, self.entries = asyncio.Event(), []  # type: Any, List[bytes]
        self.is_lost, self.is_ended, self.is_reached = False, False, True
        self.may.set()

    async def append(self, front: Front, lines: bytes, term: int) -> Front:
        await self.may.wait()
        if self.is_lost:
            raise Lost("by the test")
        assert front == BEGIN if not self.entries else front.number == len(self.entries)
        self.entries.append(lines)
        return front.with_entry(lines)

    async def prolong(self, term: Term) -> None:
        if self.is_ended:
            raise Lost("by the test")
        if self.is_reached:
            term.prolong(clock())


class Talk:
    """A client's end of a connection."""

    def __init__(self, reader: asyncio.StreamReader, writer: asyncio.StreamWriter) -> None:
        self.reader, self.writer = reader, writer

    def send(self, data: bytes) -> None:
        self.writer.write(data)

    async def reply(self) -> bytes:
        return await asyncio.wait_for(self.reader.readline(), 10)

    async def ask(self, data: bytes) -> bytes:
        self.send(data)
        return await self.reply()

    async def nothing(self) -> None:
        """Nothing comes."""
        try:
            found = await asyncio.wait_for(self.reader.read(1), 0.15)
        except asyncio.TimeoutError:
            return
        raise AssertionError(f"{found!r} came")


class Scene:
    """A leader of an empty log, or a follower, with its own server."""

    async def begin(self, lines: Tuple[bytes, ...] = ()) -> None:
        self.log, self.clients, self.own = FakeLog(), Clients(), Piped(kit.program(), None)
        await self.own.start()
        if lines:
            await self.own.ask(lines)
        self.server = await asyncio.start_server(self.clients.serve, "127.0.0.1", 0)
        self.talks: List[Talk] = []

    def lead(self, most_lines: int = 0) -> None:
        term = Term(1, b"", 1, 0.5)
        leading = Leading(self.own, self.log, self.clients, term, BEGIN, most_lines)  # type: ignore[arg-type]
        leading.on_member = lambda: b'{"role":"leader"}'
        self.running = asyncio.ensure_future(leading.run())

    async def talk(self) -> Talk:
        self.talks.append(Talk(*await asyncio.open_connection(*self.server.sockets[0].getsockname())))
        return self.talks[-1]

    async def end(self) -> None:
        self.running.cancel()
        await asyncio.gather(self.running, return_exceptions=True)
        self.server.close()
        self.clients.cut_all()
        await self.own.close()
        for it in self.talks:
            it.writer.close()
        await asyncio.sleep(0.01)


class Replies(unittest.TestCase):
    def play(self, act: Callable[[Scene], Awaitable[None]], most_lines: int = 0, before: Tuple[bytes, ...] = ()) -> None:
        async def played() -> None:
            scene = Scene()
            await scene.begin(before)
            scene.lead(most_lines)
            try:
                await asyncio.wait_for(act(scene), 60)
            finally:
                await scene.end()

        asyncio.run(played())

    def test_a_reply_waits_for_the_log(self) -> None:
        async def act(it: Scene) -> None:
            one, other = await it.talk(), await it.talk()
            it.log.may.clear()
            one.send(INSERT % b"a")
            await one.nothing()
            other.send(b'{"cmd":"get","id":0}\n')  # (which would show what may be lost)
            await other.nothing()
            it.log.may.set()
            self.assertEqual(await one.reply(), b'{"id":0,"ok":true}\n')
            self.assertIn(b'"owner":"a"', await other.reply())
            self.assertEqual(it.log.entries, [INSERT % b"a"])

        self.play(act)

    def test_a_look_up_waits_for_the_lease(self) -> None:
        async def act(it: Scene) -> None:
            one = await it.talk()
            it.log.is_reached = False
            await asyncio.sleep(0.8)  # (the term lasted for half a second)
            one.send(b'{"cmd":"size"}\n')
            await one.nothing()
            it.log.is_reached = True
            self.assertEqual(await one.reply(), b'{"ok":true,"size":0}\n')

        self.play(act)

    def test_a_lost_term_lets_nothing_out(self) -> None:
        async def act(it: Scene) -> None:
            one = await it.talk()
            it.log.may.clear()
            one.send(INSERT % b"a" + b'{"cmd":"size"}\n')
            await one.nothing()
            it.log.is_lost = True
            it.log.may.set()
            with self.assertRaises(Lost):
                await it.running
            await one.nothing()

        self.play(act)

    def test_a_lease_that_is_gone_ends_the_term(self) -> None:
        async def act(it: Scene) -> None:
            it.log.is_ended = True
            with self.assertRaises(Lost):
                await it.running

        self.play(act)

    def test_entries_have_as_many_lines_as_wait(self) -> None:
        async def act(it: Scene) -> None:
            one = await it.talk()
            it.log.may.clear()
            one.send(b"".join(INSERT % b"o%d" % n for n in range(7)))
            await one.nothing()
            it.log.may.set()
            for n in range(7):
                self.assertEqual(await one.reply(), b'{"id":%d,"ok":true}\n' % n)
            self.assertEqual([it.count(b"\n") for it in it.log.entries], [3, 3, 1])

        self.play(act, most_lines=3)

    def test_others_of_a_holder_are_busy_and_its_end_is_an_undo(self) -> None:
        async def act(it: Scene) -> None:
            one, other = await it.talk(), await it.talk()
            one.send(b'{"cmd":"start"}\n' + INSERT % b"a" + b'{"cmd":"start"}\n')
            for wanted in (b'{"ok":true,"revision":1}\n', b'{"id":0,"ok":true}\n', b'{"ok":true,"revision":2}\n'):
                self.assertEqual(await one.reply(), wanted)
            self.assertEqual(await other.ask(INSERT % b"b"), known.BUSY + b"\n")
            self.assertEqual(await other.ask(b'{"cmd":"revision"}\n'), b'{"depth":2,"held":0,"ok":true,"revision":2}\n')
            self.assertEqual(await one.ask(b'{"cmd":"revision"}\n'), b'{"depth":2,"held":2,"ok":true,"revision":2}\n')
            self.assertEqual(await other.ask(b'{"cmd":"member"}\n'), b'{"role":"leader"}\n')
            one.writer.transport.abort()
            while await other.ask(INSERT % b"b") == known.BUSY + b"\n":
                await asyncio.sleep(0.01)
            self.assertEqual(b"".join(it.log.entries), b'{"cmd":"start"}\n' + INSERT % b"a" + b'{"cmd":"start"}\n' + 2 * known.UNDO + INSERT % b"b")

        self.play(act)

    def test_what_a_gone_leader_held_is_undone(self) -> None:
        async def act(it: Scene) -> None:
            one = await it.talk()
            self.assertEqual(await one.ask(b'{"cmd":"size"}\n'), b'{"ok":true,"size":1}\n')
            self.assertEqual(it.log.entries, [known.UNDO])

        self.play(act, before=(INSERT % b"a", b'{"cmd":"start"}\n', INSERT % b"b"))

    def test_the_last_line_needs_no_newline(self) -> None:
        async def act(it: Scene) -> None:
            one = await it.talk()
            one.send(INSERT % b"a" + b'{"cmd":"size"}')
            one.writer.write_eof()
            self.assertEqual(await one.reply() + await one.reply() + await one.reply(), b'{"id":0,"ok":true}\n{"ok":true,"size":1}\n')

        self.play(act)


class FakeMember(threading.Thread):
    """Says how it stands, as a member does, or stands still."""

    def __init__(self, role: str, leader: str = "") -> None:
        super().__init__(daemon=True)
        self.said, self.listener = known.said({"leader": leader, "ok": True, "role": role}) + b"\n", socket.create_server(("127.0.0.1", 0))
        self.port: int = self.listener.getsockname()[1]
        self.start()

    def run(self) -> None:
        try:
            while True:
                stream, _ = self.listener.accept()
                with stream, stream.makefile("rb") as lines:
                    for _ in lines:
                        if b"still" in self.said:
                            time.sleep(2)
                        stream.sendall(self.said)
        except OSError:
            pass


class Finding(unittest.TestCase):
    def member(self, role: str, leader: str = "") -> FakeMember:
        made = FakeMember(role, leader)
        self.addCleanup(made.listener.close)
        return made

    def test_the_leader_is_found(self) -> None:
        """Where members are gone, stand still, follow, or tell of one that the list doesn't name."""
        leader = self.member("leader")
        follower = self.member("follower", f"127.0.0.1:{leader.port}")
        still = self.member("still")
        for members in ([leader.port], [still.port, f"127.0.0.1:{leader.port}"], [1, follower.port], [follower.port, follower.port]):
            with connect_leader(members, wait=5, answers=0.3) as db:
                self.assertIn('"role":"leader"', db.ask_line('{"cmd":"member"}'))

    def test_none_is_found(self) -> None:
        follower = self.member("follower")
        with self.assertRaises(Ended):
            connect_leader([follower.port], wait=0.3)

    def test_a_plain_server_is_no_member(self) -> None:
        with Server(kit.program(), clients=1) as server, self.assertRaises(Ended):
            connect_leader([server.port], wait=1)


class Places(unittest.TestCase):
    def test_a_place_is_named_whole(self) -> None:
        for url, wanted in (("http://10.0.0.5:2379", ("10.0.0.5", 2379)), ("http://[::1]:80", ("::1", 80)), ("http://e-1.x:1", ("e-1.x", 1))):
            self.assertEqual(place(url), wanted)
        for url in ("10.0.0.5:2379", "https://10.0.0.5:2379", "10.0.0.5", "localhost:23791", "http://10.0.0.5", "http://a:0", "http://a:65536", "",
                    "http://a:1/", "http://a:1/v3", "http://u@a:1", " http://a:1", "http://a:1\n", "http://:1", "http://::1:80", "ftp://a:1"):
            with self.assertRaisesRegex(ValueError, "isn't http://HOST:PORT", msg=url):
                place(url)

    def test_others_are_refused_by_name(self) -> None:
        for urls in ("10.0.0.5:2379", "https://10.0.0.5:2379", "http://127.0.0.1:1,"):
            for more in (["--status"], ["--listen", "8001"]):
                words = [sys.executable, "-m", "mi_replica", "--etcd", urls, "--name", "a", *more]
                ran = subprocess.run(words, capture_output=True, text=True, env=kit.environment(), timeout=60)
                self.assertEqual(ran.returncode, 2, ran.stderr)
                self.assertIn(f"--etcd: {urls.split(',')[-1]!r} isn't http://HOST:PORT", ran.stderr.splitlines()[-1])


class Options(unittest.TestCase):
    def test_words_that_are_refused(self) -> None:
        for words in (["--name", "a b", "--listen", "8001"], ["--name", "a"], ["--name", "a", "--listen", "8001", "--lease", "2", "--margin", "2"]):
            ran = subprocess.run([sys.executable, "-m", "mi_replica", "--etcd", "http://127.0.0.1:1", *words], capture_output=True, text=True,
                                 env=kit.environment(), timeout=60)
            self.assertEqual(ran.returncode, 2, ran.stderr)

    def test_without_etcd_there_is_no_status(self) -> None:
        ran = subprocess.run([sys.executable, "-m", "mi_replica", "--etcd", "http://127.0.0.1:1", "--name", "a", "--status"], capture_output=True,
                             text=True, env=kit.environment(), timeout=60)
        self.assertEqual((ran.returncode, ran.stderr[:12]), (4, "mi_replica: "))


class Looks(unittest.TestCase):
    def test_a_follower_answers_look_ups_alone(self) -> None:
        async def played() -> None:
            scene = Scene()
            await scene.begin((INSERT % b"a",))
            following = Following(scene.own, scene.log, scene.clients, BEGIN, BEGIN)  # type: ignore[arg-type]
            following.leader = Leader(1, {"address": "127.0.0.1:5"})
            scene.running = asyncio.ensure_future(following._answer())
            try:
                one = await scene.talk()
                self.assertEqual(await one.ask(b'{"cmd":"size"}\n' + INSERT % b"b" + b"{\n"), b'{"ok":true,"size":1}\n')
                self.assertEqual(await one.reply(), b'{"error":"leader","leader":"127.0.0.1:5","ok":false}\n')
                self.assertEqual(await one.reply(), known.JSON + b"\n")
                with self.assertRaises(Diverged):
                    await replay(scene.own, [INSERT % b"a"], "entry 1")
            finally:
                await scene.end()

        asyncio.run(played())


if __name__ == "__main__":
    unittest.main()
