"""Dump, load, export, import: rows go out and come back, page by page, and what was stopped is gone on with."""
import asyncio
import errno
import io
import json
import os
import socket
import unittest
from argparse import Namespace
from typing import Any, Iterator, List

import kit

from mi_client import Database
from mi_client.aio import AsyncDatabase
from mi_tools import transfer
from mi_tools.opening import opened
from mi_tools.progress import Progress, clock_time
from mi_tools.rowfiles import Item
from mi_tools.transfer import Stopped, load_rows

SHOP = f"{kit.TOP}/examples/shop.toml"

TWO = """format = 2
[[table]]
name = "item"
column = [{ name = "name", type = "text" }, { name = "stock", type = "int" }, { name = "sold", type = "flag" }]
index = [
    { name = "by_name", kind = "hashed", unique = true, key = ["name"] },
    { name = "by_stock", kind = "ranked", key = ["-stock"] },
    { name = "line", kind = "sequenced" },
]
[[table]]
name = "sale"
column = [{ name = "item", type = "int" }]
"""

ODD = 'a "b", c\nd\te\\ ä漢\u2028'


class Files(unittest.TestCase):
    def setUp(self) -> None:
        self.folder = kit.folder(self)
        self.schema = kit.written(self, TWO)
        self.dump = f"{self.folder}/dump.jsonl"
        self.lines(self.dump, [*({"id": n, "row": self.row(n), "table": "item"} for n in range(40)), {"id": 0, "row": {"item": 7}, "table": "sale"}])

    def row(self, n: int) -> "dict[str, Any]":
        return {"name": f"{ODD if n == 25 else 'n'}{n}", "sold": n % 2 == 0, "stock": n % 3}

    def lines(self, path: str, rows: List[Any]) -> None:
        with open(path, "w", encoding="utf-8", newline="\n") as file:
            file.writelines(json.dumps(it, separators=(",", ":"), ensure_ascii=False) + "\n" for it in rows)

    def read(self, path: str) -> str:
        with open(path, encoding="utf-8", newline="") as file:
            return file.read()

    def run_tool(self, *words: str, status: int = 0, said: str = "", schema: "str | None" = None) -> str:
        ran = kit.ran(*words, *(["--schema", schema or self.schema] if "--connect" not in words else []))
        self.assertEqual((ran.returncode, ran.stderr), (status, said))
        return ran.stdout

    def test_a_load_and_a_dump(self) -> None:
        again = f"{self.folder}/again.jsonl"
        self.run_tool("load", self.dump, "--dump", again, said="41 rows loaded\n")
        self.assertEqual(self.read(again), self.read(self.dump))

    def test_a_load_that_stops(self) -> None:
        """Whole pages are in, and none of the page in which a row is refused; then it goes on there."""
        db = kit.start(self, TWO)
        items = [Item(f"f:{n}", "item", n, self.row(n), n) for n in range(28)]
        items[25] = items[25]._replace(row={**self.row(25), "stock": 0.5})
        told: List[Any] = []
        with self.assertRaisesRegex(Stopped, "^f:25: row: stock is a float; int wanted$"):
            load_rows(db, items, told=lambda *it: told.append(it), size=10)
        self.assertEqual((told, db.size("item"), db.revision()), ([(10, 9), (10, 19)], 20, (0, 0, 0)))
        done = load_rows(db, transfer.behind_loaded(db, items), keep_going=True, size=5)
        self.assertEqual((done.rows, done.other_ids, done.refused), (7, 2, ["f:25: row: stock is a float; int wanted"]))

    def test_a_load_with_refused_rows_that_stops(self) -> None:
        """What was left out stays out, and nothing comes in twice."""
        path, db = f"{self.folder}/sales.jsonl", kit.start(self, TWO)
        numbers = [0.5, 7, True, 7, 8, 1, 9]
        self.lines(path, [{"row": {"item": it}, "table": "sale"} for it in numbers])

        def interrupted() -> Iterator[Item]:
            yield from (Item(f"f:{n}", "sale", None, {"item": it}, n) for n, it in enumerate(numbers[:5]))
            raise KeyboardInterrupt

        with self.assertRaises(KeyboardInterrupt):
            load_rows(db, interrupted(), keep_going=True, size=4)
        self.assertEqual([it["item"] for it in db.walk_range("id", table="sale")], [7, 7])
        again = Namespace(file=path, format="jsonl", table=None, resume=True, keep_going=True)
        for rows in [3, 0]:
            self.assertEqual((transfer.load(db, again).rows, [it["item"] for it in db.walk_range("id", table="sale")]), (rows, [7, 7, 8, 1, 9]))
        db.modify(3, set={"item": 2}, table="sale")
        with self.assertRaisesRegex(ValueError, "^record 3 of sale isn't among the rows of the file, in their order"):
            transfer.load(db, again)
        self.assertEqual(db.size("sale"), 5)

    def test_a_dump_that_broke_off(self) -> None:
        db = kit.start(self, TWO)
        transfer.load(db, Namespace(file=self.dump, format=None, table=None, resume=False, keep_going=False))
        for cut in [1, 100, 700, len(self.read(self.dump).encode()) - 3]:
            part = f"{self.folder}/part.jsonl"
            self.assertEqual(transfer.dump(db, Namespace(file=part, table=None, order="id", resume=False)), 41)
            whole = self.read(part)
            with open(part, "wb") as file:
                file.write(whole.encode()[:cut])
            transfer.dump(db, Namespace(file=part, table=None, order="id", resume=True))
            self.assertEqual(self.read(part), whole)

    def test_a_dump_that_may_not_be_gone_on_with(self) -> None:
        db = kit.start(self, TWO)
        self.lines(self.dump, [{"id": 0, "row": {"item": 7}, "table": "other"}])
        with self.assertRaisesRegex(ValueError, "dump.jsonl: its last row is of the table other, so it isn't a dump of these tables that broke off"):
            transfer.dump(db, Namespace(file=self.dump, table=None, order="id", resume=True))

    def test_references_that_are_none(self) -> None:
        for text in ("foo", "payment=account", "payment.from", ".from=account"):
            ran = kit.ran("load", "--references", text, self.dump)
            self.assertEqual(ran.returncode, 2)
            said = f"argument --references: {text!r} names no column and table: TABLE.COLUMN=TABLE is wanted, as payment.from=account"
            self.assertIn(said, ran.stderr)

    def test_in_another_order(self) -> None:
        db = kit.start(self, TWO)
        for n in range(6):
            db.insert(self.row(n), before=("line", 0) if n else None)
        path = f"{self.folder}/out.csv"
        for order, want in [("id", [0, 1, 2, 3, 4, 5]), ("line", [1, 2, 3, 4, 5, 0]), ("by_stock", [2, 5, 1, 4, 0, 3])]:
            transfer.export(db, Namespace(file=path, table="item", order=order, format=None))
            self.assertEqual([int(it.split(",")[0]) for it in self.read(path).splitlines()[1:]], want)

    def test_csv(self) -> None:
        self.lines(f"{self.folder}/rows.jsonl", [self.row(n) for n in range(7)])
        path = f"{self.folder}/rows.csv"
        with open(path, "w", encoding="utf-8-sig", newline="") as file:
            file.write('sold,name,stock\r\ntrue,"a ""b"",\nc",5\r\n0,,-9223372036854775808\r\n')
        again = f"{self.folder}/again.jsonl"
        self.run_tool("import", path, "--table", "item", "--dump", again, said="2 rows loaded\n")
        self.assertEqual(
            self.read(again),
            '{"id":0,"row":{"name":"a \\"b\\",\\nc","sold":true,"stock":5},"table":"item"}\n'
            '{"id":1,"row":{"name":"","sold":false,"stock":-9223372036854775808},"table":"item"}\n',
        )
        for text, words in [
            ("name,stock\n", ":1: the first line has the names of the columns, name, stock, sold; it has name, stock"),
            ("", ":1: the first line has the names of the columns, name, stock, sold; it has none"),
            ("name,stock,sold\na,b,true\n", ":2: stock is 'b'; a whole number wanted"),
            ("name,stock,sold\na,1_000,true\n", ":2: stock is '1_000'; a whole number wanted"),
            ("name,stock,sold\na,1,maybe\n", ":2: sold is 'maybe'; true or false wanted"),
            ("name,stock,sold\n\na,1\n", ":3: 2 values, and 3 names in the first line"),
            ("id,name,stock,sold\n7,a,1,true\n8,a,1,true\n", ":3: unique: record 0 has this key in by_name"),
        ]:
            with open(path, "w", encoding="utf-8") as file:
                file.write(text)
            self.run_tool("import", "--renumber", path, status=1, said=f"weltiyo import: {path}{words}\n")

    def test_every_text_comes_back_from_csv(self) -> None:
        texts = ["", "\r", "a\rb", "\r\n", "\n", "c\n", '"', ',"\r', ",", "'", " d ", ODD]
        first, second, path = kit.start(self, TWO), kit.start(self, TWO), f"{self.folder}/texts.csv"
        for it in texts:
            first.insert({"name": it, "stock": -1, "sold": True})
        transfer.export(first, Namespace(file=path, table="item", order="id", format=None))
        transfer.load(second, Namespace(file=path, table="item", format=None, resume=False, keep_going=False))
        self.assertEqual(list(second.walk_range("id")), list(first.walk_range("id")))

    def test_export(self) -> None:
        ran = kit.ran("export", "--force", "--program", kit.program(), "--table", "none", "--schema", self.schema)
        self.assertEqual((ran.returncode, ran.stderr), (1, "weltiyo export: table: there is no table none; tables are item, sale\n"))
        words = ["export", "--force", "--program", kit.program()]
        self.assertEqual(self.run_tool(*words, "--format", "csv", said="0 rows written\n"), "id,name,stock,sold\n")
        self.run_tool(*words, "--order", "by_name", status=1,
                      said="weltiyo export: by_name is hashed and has no order; take another index, or `id`\n")

    def test_json_lines_that_are_none(self) -> None:
        for text, words in [("{", ":1: no JSON:"), ("\n5\n", ":2: a row is an object"), ('{"name":"a"}\n', ":1: row: stock, sold are missing")]:
            path = f"{self.folder}/bad.jsonl"
            with open(path, "w", encoding="utf-8") as file:
                file.write(text)
            ran = kit.ran("load", path, "--schema", self.schema)
            self.assertEqual(ran.returncode, 1)
            self.assertIn(path + words, ran.stderr)
        self.run_tool("load", f"{self.folder}/none", status=1, said=f"weltiyo load: [Errno 2] No such file or directory: '{self.folder}/none'\n")

    def test_bytes_that_are_no_utf8(self) -> None:
        """The byte is told, and its line, however far that is behind what is read at once."""
        for tool, name, before, line in [
            ("load", "rows.jsonl", b"", b'{"name":"caf\xe9","stock":1,"sold":true}\n'),
            ("import", "rows.csv", b"name,stock,sold\n", b"caf\xe9,1,true\n"),
            ("import", "rows.csv", b"name,stock,sold\n" + b'"a\nb",1,true\rc,2,true\r\n' * 2 + b"\n" * 30_000, b"caf\xe9,1,true\n"),
        ]:
            path = f"{self.folder}/{name}"
            with open(path, "wb") as file:
                file.write(before + line + line)
            number = len((before.decode().replace("\r\n", "\n").replace("\r", "\n")).split("\n"))
            said = f"{path}:{number}: the byte 0xE9, number {line.index(0xe9) + 1} of the line, isn't UTF-8"
            self.run_tool(tool, "--table", "item", path, status=1, said=f"weltiyo {tool}: {said}\n")
        with open(path, "wb") as file:
            file.write(b"\xef\xbb\xbfname,stock,sold\na,1,true\n")
        self.run_tool("import", "--table", "item", path, said="1 rows loaded\n")
        with open(f"{self.folder}/rows.jsonl", "wb") as file:
            file.write(b'\xef\xbb\xbf{"name":"a","stock":1,"sold":true}\n')
        self.run_tool("load", f"{self.folder}/rows.jsonl", said="1 rows loaded\n")

    def test_keep_going(self) -> None:
        path = f"{self.folder}/rows.jsonl"
        self.lines(path, [self.row(0), self.row(0), self.row(1)])
        said = f"{path}:2: unique: record 0 has this key in by_name\n2 rows loaded, 1 refused\n"
        self.run_tool("load", "--keep-going", path, status=1, said=said)


class Drawing(unittest.TestCase):
    def test_progress(self) -> None:
        class Screen(io.StringIO):
            def isatty(self) -> bool:
                return True

        now = [0.0]
        screen = Screen()
        with Progress(1000, screen, lambda: now[0]) as progress:
            for _ in range(5):
                now[0] += 1
                progress.step(100)
            self.assertEqual(progress.line(), "[############............]  50%  500 rows, 100/s, 0:05 left")
            progress.step(500)
        self.assertEqual(screen.getvalue().rpartition("\r")[2], "[########################] 100%  1,000 rows, 200/s\x1b[K\n")
        silent = io.StringIO()
        with Progress(10, silent) as quiet:
            quiet.step(5)
        self.assertEqual(silent.getvalue(), "")
        self.assertEqual([clock_time(it) for it in [0, 59.6, 3661]], ["0:00", "1:00", "1:01:01"])
        self.assertIn("100%", Progress(0, screen).line())


class Ports(unittest.TestCase):
    def test_a_port_where_nobody_listens(self) -> None:
        """It is told with its host, and what is to be done."""
        with socket.socket() as unheard:
            unheard.bind(("127.0.0.1", 0))
            port = unheard.getsockname()[1]
            said = (f"nothing listens on port {port} of 127.0.0.1. Start a server there, as mi_service --listen {port}, "
                    "or name the port of one that runs")
            for words in ([], ["dump"], ["load", os.devnull], ["top"], ["plot", "id"]):
                ran = kit.ran(*words, "--connect", str(port))
                self.assertEqual((ran.returncode, ran.stdout, ran.stderr.partition(": ")[2]), (1, "", f"{said}\n"), words)
            with self.assertRaisesRegex(ConnectionRefusedError, said) as raised:
                Database.connect(port)
            self.assertEqual(raised.exception.errno, errno.ECONNREFUSED)
            with self.assertRaisesRegex(ConnectionRefusedError, said):
                asyncio.run(AsyncDatabase.connect(port))
        for text in ("65536", "-1", "x", "127.0.0.1:8000"):
            ran = kit.ran("dump", f"--connect={text}")
            self.assertEqual((ran.returncode, ran.stderr.rpartition("error: ")[2]),
                             (2, f"argument --connect: {text!r} is no port: a number from 0 to 65535 is wanted, or a path with a / in it\n"))

    def test_port_0_starts_no_server(self) -> None:
        words = ["--connect", "0", "--program", kit.program(), f"{kit.folder(self)}/none"]
        self.assertEqual(transfer.main_load(words), 1)
        with self.assertRaises(OSError):
            opened(Namespace(connect=0, program=kit.program(), schema=None, timeout=5))


if __name__ == "__main__":
    unittest.main()
