"""A service tells its schema: tools that are connected to it, the prompt and the calls of the client need no file of it. Where none is told all
is as it is without one."""
import asyncio
import contextlib
import json
import socket
import subprocess
import sys
import threading
import time
import unittest
import urllib.request
from typing import Any, Callable, List, Optional
from unittest import mock

import kit
from kit import ANN
from test_ends import dies, listener
from test_service import SERVICE
from test_terminal import Terminal

from mi_client import Database, Ended, NeedsSchema, Refused, Schema, Server
from mi_client.aio import AsyncDatabase
from mi_client.schema import BUILT_IN
from mi_client.service_lines import SCHEMA_LINE
from mi_tools.prompt import Prompt
from mi_tools.web_source import Source

SHOP = f"{kit.TOP}/examples/shop.toml"
REFUSED = b'{"error":"form","ok":false}'
COLUMNS = "the columns come from the schema: name it by --schema, or connect to a service, which tells it"
MOST = 64


class Odd:
    """A server in threads of the test. It answers the question for the schema with this line, and others as the built-in table does that is
    empty; `lines` are those that came."""

    def __init__(self, test: unittest.TestCase, told: bytes) -> None:
        self.told = told
        self.lines: List[str] = []
        self.listener = socket.create_server(("127.0.0.1", 0), backlog=64)
        self.port = str(self.listener.getsockname()[1])
        threading.Thread(target=self.work, daemon=True).start()
        test.addCleanup(self.listener.close)

    def work(self) -> None:
        with contextlib.suppress(OSError):
            while True:
                threading.Thread(target=self.serve, args=self.listener.accept()[:1], daemon=True).start()

    def serve(self, stream: socket.socket) -> None:
        with contextlib.suppress(OSError), stream, stream.makefile("rwb") as file:
            for line in file:
                self.lines.append(line.decode().rstrip("\n"))
                file.write((self.told if self.lines[-1] == SCHEMA_LINE else self.answer(line)) + b"\n")
                file.flush()

    def answer(self, line: bytes) -> bytes:
        cmd = json.loads(line).get("cmd")
        return {"size": b'{"ok":true,"size":0}', "revision": b'{"depth":0,"held":0,"ok":true,"revision":0}'}.get(cmd, REFUSED)

    @property
    def asked(self) -> int:
        """How often the schema was asked for."""
        return self.lines.count(SCHEMA_LINE)


class Replies(unittest.TestCase):
    def test_what_is_no_schema(self) -> None:
        for it in (None, 5, [], {}, {"ok": True}, {"ok": False, "schema": BUILT_IN}, {"ok": True, "schema": 5}, {"ok": True, "schema": "\ud800"},
                   {"ok": True, "schema": ""}, {"ok": True, "schema": "table = 5"}, {"ok": True, "schema": 'table = "t"'}):
            self.assertIsNone(Schema.told(json.dumps(it).encode()), it)
        for line in (b"", b"\xff", b"HTTP/1.1 400 Bad Request\r", b"[" * 100_000, REFUSED):
            self.assertIsNone(Schema.told(line), line[:40])
        self.assertEqual(Schema.told(json.dumps({"ok": True, "schema": BUILT_IN}).encode()), Schema.built_in())


class Calls(unittest.TestCase):
    def test_a_service(self) -> None:
        with Server(service=SERVICE, schema=SHOP) as server, Database.connect(server.port, 20) as db:
            self.assertIsNone(db.schema)
            with self.assertRaises(NeedsSchema):
                db.find("by_name", {"name": "pen"})
            with db.pipeline() as ahead:  # (with replies outstanding, and another that comes behind)
                first = ahead.insert({"name": "pen", "stock": 3})
                self.assertEqual(db.learn_schema(), Schema.read(SHOP))
                last = ahead.find("by_name", {"name": "pen"})
            self.assertEqual((first.result(), last.result()["stock"], db.schema), (0, 3, Schema.read(SHOP)))
            with self.assertRaisesRegex(Refused, "^row: stock is a text; int wanted$"):
                db.insert({"name": "cap", "stock": "5"})
            self.assertEqual([it["id"] for it in db.walk_range("by_name")], [0])

    def test_a_session_stays_open(self) -> None:
        with Server(service=SERVICE, schema=SHOP) as server, Database.connect(server.port, 20) as db:
            with db.session():
                steps = db._dialect.session_steps
                db.learn_schema()
                self.assertEqual((db._dialect.session_steps, db.revision().held), (steps, 1))

    def test_tasks(self) -> None:
        async def work(port: int) -> None:
            async with await AsyncDatabase.connect(port, timeout=20) as db:
                id, told, size = await asyncio.gather(db.insert({"name": "pen", "stock": 3}), db.learn_schema(), db.size())
                self.assertEqual((id, told, db.schema, size), (0, Schema.read(SHOP), Schema.read(SHOP), 1))
                self.assertEqual([it["id"] async for it in db.walk_range("by_stock")], [0])

        with Server(service=SERVICE, schema=SHOP) as server:
            asyncio.run(asyncio.wait_for(work(server.port), 60))

    def test_a_server_that_tells_none(self) -> None:
        """What was known stays known."""
        async def work(port: int) -> None:
            async with await AsyncDatabase.connect(port, schema=SHOP, timeout=20) as db:
                self.assertEqual(await db.learn_schema(), Schema.read(SHOP))

        with Server(kit.program()) as server, Database.connect(server.port, 20, wait=20) as db:
            self.assertIsNone(db.learn_schema())
            self.assertEqual((db.schema, db.size()), (None, 0))
        with kit.start(self) as db:
            self.assertEqual(db.learn_schema(), Schema.built_in())
        asyncio.run(asyncio.wait_for(work(int(Odd(self, REFUSED).port)), 60))

    def test_no_hidden_line(self) -> None:
        there = Odd(self, REFUSED)
        with Database.connect(int(there.port), 20) as db:
            db.size()
        self.assertEqual(there.lines, ['{"cmd":"size"}'])

    def test_a_connection_that_breaks_off(self) -> None:
        db = Database.connect(listener(self, dies), 20)
        with self.assertRaisesRegex(Ended, "^the server ended the connection$"):
            db.learn_schema()
        self.assertFalse(db.is_open)


class Tools(unittest.TestCase):
    def setUp(self) -> None:
        self.folder = kit.folder(self)

    def shop(self) -> Server:
        """A service over two tables, each of which has a row."""
        server = Server(service=SERVICE, schema=SHOP)
        self.addCleanup(server.close)
        with server.connect(20) as db:
            db.insert({"name": "pen", "stock": 3})
            db.insert({"item": "pen", "count": 2, "paid": True}, "sale")
        return server

    def well(self, *words: str, typed: str = "") -> str:
        ran = kit.ran(*words, typed=typed)
        self.assertEqual(ran.returncode, 0, ran.stderr)
        return ran.stdout

    def test_rows(self) -> None:
        """A dump has all tables, and what the dump wrote is loaded by a service that tells the same."""
        server, path = self.shop(), f"{self.folder}/rows.jsonl"
        self.well("dump", "--connect", str(server.port), path)
        with open(path, encoding="utf-8") as file:
            self.assertEqual([json.loads(it)["table"] for it in file], ["item", "sale"])
        self.assertEqual(self.well("export", "--connect", str(server.port), "--format", "csv", "--table", "sale"), "id,item,count,paid\n1000,pen,2,true\n")
        self.assertRegex(self.well("plot", "--connect", str(server.port), "by_stock"), "3 +1 #")
        self.assertIn('weltiyo_rows{table="sale"} 1', self.well("metrics", "--connect", str(server.port)))
        other = Server(service=SERVICE, schema=SHOP)
        self.addCleanup(other.close)
        self.well("load", "--connect", str(other.port), path)
        more = kit.written(self, "name,stock\ncap,5\n", "more.csv")
        self.well("import", "--connect", str(other.port), more)
        with other.connect(20) as db:
            self.assertEqual((db.size("item"), db.size("sale")), (2, 1))
        ran = kit.ran("load", "--connect", str(other.port), "--references", "sale.item=item", path)
        self.assertIn("sale.item=item: an int column and a table are wanted", ran.stderr)

    def test_the_prompt(self) -> None:
        port = str(self.shop().port)
        said = self.well("--connect", port, "--tables", typed='\\d\nrange by_stock limit=1\nfind by_count {"count":2} table=sale\ninsert {"name":5}\n')
        for it in ("table sale: item text, count int, paid flag", "1000  pen", "stock is missing; name is an int; text wanted"):
            self.assertIn(it, said)
        lines = kit.written(self, "\\d\n", "lines.txt")
        self.assertIn("table sale:", self.well("--connect", port, "--run", lines))
        it = Terminal(self, "--connect", port)
        it.until("weltiyo> ")
        self.assertIn("table item:", it.asked("\\d", "weltiyo> "))
        it.asked("\\c", "weltiyo> ")
        self.assertIn("table item:", it.asked("\\d", "weltiyo> "))

    def test_the_window(self) -> None:
        """Its page has the tables that were told; of a server that tells none those that are built in."""
        server = self.shop()
        words = [sys.executable, "-m", "mi_client", "web", "--connect", str(server.port)]
        with subprocess.Popen(words, stdout=subprocess.PIPE, text=True, env=kit.environment()) as ran:
            assert ran.stdout
            try:
                ran.stdout.readline()
                address, _, token = ran.stdout.readline().strip().partition("/#")
                head = {"Origin": address, "Content-Type": "application/json", "Authorization": f"Bearer {token}"}
                with urllib.request.urlopen(urllib.request.Request(f"{address}/open", b"{}", head), timeout=20) as answer:
                    self.assertEqual([it["name"] for it in json.load(answer)["tables"]], ["item", "sale"])
            finally:
                ran.kill()

    def test_the_window_asks_once(self) -> None:
        """A server that comes back is compared with what was told."""
        first = self.shop()
        ports = [first.port, first.port]
        source = Source(lambda: Database.connect(ports[0], 20), None, first.port, True)
        self.addCleanup(source.close)
        with mock.patch.object(Database, "learn_schema", autospec=True, side_effect=Database.learn_schema) as learn:
            for _ in ports:
                source._come()
                assert source._db
                source._db.close()
            self.assertEqual((learn.call_count, source.schema), (1, Schema.read(SHOP)))
            with Server(service=SERVICE) as other:
                ports[0] = other.port
                self.assertRaisesRegex(ValueError, "the server refuses the table item as table", source._come)

    def test_a_schema_that_is_named(self) -> None:
        """It is compared, and nothing is asked beside."""
        for words in (["dump"], [], ["web"]):
            there = Odd(self, json.dumps({"ok": True, "schema": BUILT_IN}).encode())
            ran = kit.ran(*words, "--connect", there.port, "--schema", SHOP, typed="size\n")
            self.assertEqual(ran.returncode, 1, words)
            self.assertIn("this schema isn't its own; name it by --schema FILE", ran.stderr)
            self.assertEqual((there.asked, len(there.lines) > 0), (0, True), words)

    def test_each_asks_once(self) -> None:
        for words, times in [(["dump"], 1), (["load", "/dev/null"], 1), ([], 1), (["status"], 0)]:
            there = Odd(self, json.dumps({"ok": True, "schema": BUILT_IN}).encode())
            kit.ran(*words, "--connect", there.port, typed="size\nsize\n")
            self.assertEqual(there.asked, times, words)
        there = Odd(self, REFUSED)
        self.assertEqual(kit.ran("--connect", there.port, typed="help\nquit\n").returncode, 0)
        self.assertEqual(there.asked, 0)

    def test_a_server_that_tells_none(self) -> None:
        """It refuses the line, as mi_server does, or tells what can't be read: then all is as it was."""
        bad = json.dumps({"ok": True, "schema": "table = ["}).encode()
        for told in (REFUSED, bad, b"no reply of a table server"):
            there = Odd(self, told)
            for words, said in [
                (["dump"], "the tables come from the schema: name it by --schema, or one table by --table"),
                (["export", "--format", "csv"], COLUMNS), (["plot", "by_balance"], COLUMNS),
            ]:
                ran = kit.ran(*words, "--connect", there.port)
                self.assertEqual((ran.returncode, ran.stdout, ran.stderr), (1, "", f"weltiyo {words[0]}: {said}\n"))
            ran = kit.ran("--connect", there.port, typed="size\n\\d\n")
            self.assertEqual(ran.stdout.splitlines(), ['{"ok":true,"size":0}', "the schema isn't known: start the prompt with --schema FILE, or "
                                                       "connect to a service, which tells it"])
        with Server(kit.program(), clients=1) as server:
            ran, end = None, time.monotonic() + 20
            while not ran or "nothing listens" in ran.stderr and time.monotonic() < end:
                ran = kit.ran("--connect", str(server.port), "--tables", typed=f"insert {json.dumps(ANN)}\nsize\n")
            self.assertEqual(ran.stdout.splitlines()[-1], "size 1", ran.stderr)

    def test_no_reply(self) -> None:
        """The words are those of any command, and one line alone is waited for."""
        heard: List[bytes] = []

        def serve(stream: socket.socket) -> None:
            heard.append(stream.recv(65_536))
            heard.append(stream.recv(65_536))

        for words in ([], ["dump"], ["web"]):
            port = listener(self, serve)
            ran = kit.ran(*words, "--connect", str(port), "--timeout", "0.3", typed="size\n")
            self.assertEqual((ran.returncode, ran.stdout), (1, ""), (words, ran.stderr))
            self.assertRegex(ran.stderr, f"^weltiyo[ a-z]*: port {port} gave no reply for 0.3 seconds. It may be busy, all its places may be taken")
        self.assertEqual(heard, [f"{SCHEMA_LINE}\n".encode(), b""] * 3)

    def test_all_places_are_taken(self) -> None:
        with Server(service=SERVICE, schema=SHOP) as server, contextlib.ExitStack() as taken:
            for _ in range(MOST):
                taken.enter_context(server.connect(20)).size()
            ran = kit.ran("dump", "--connect", str(server.port), "--timeout", "0.5")
            self.assertEqual((ran.returncode, ran.stdout), (1, ""))
            self.assertIn("all its places are taken", ran.stderr)
            it = Terminal(self, "--connect", str(server.port), "--timeout", "0.5")
            it.until("all its places are taken")
            it.until("weltiyo (not connected)> ")
            taken.close()
            self.assertIn("connected", it.asked("\\c", "weltiyo> "))
            self.assertIn("table item:", it.asked("\\d", "weltiyo> "))


class ThePrompt(unittest.TestCase):
    def test_another_connection_is_asked_anew(self) -> None:
        told: List[Optional[str]] = []

        def again() -> Any:
            db = mock.Mock(is_open=True, schema=None)
            db.learn_schema.side_effect = lambda: told.append("asked")
            db.ask_line.return_value = '{"ok":true,"size":0}'
            return db

        made: Callable[[], Any] = again
        prompt = Prompt(made(), typed=False, tables=False, times=False, again=made, learns=True)
        for line, asked in [("help", 0), ("size", 1), ("size", 1), ("\\c", 1), ("\\d", 2), ("size", 2)]:
            prompt.answer(line)
            self.assertEqual(len(told), asked, line)
        prompt.db.is_open = False
        prompt._asked = None
        prompt.answer("\\x")
        self.assertEqual(len(told), 2)


if __name__ == "__main__":
    unittest.main()
