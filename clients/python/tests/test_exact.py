"""Exact dumps: what the base of a journal has goes out as lines and comes back as a new journal, on which a service has the same tables."""
import contextlib
import hashlib
import io
import os
import subprocess
import unittest

import kit
from test_service import SERVICE

from mi_client import Server
from mi_tools import cli

HASH = "4a97872940a86388d00bd4dd133ac68c2bb50dead4fefa2fb1b161a892770f4b"
"""Of the built-in table, as docs/OPERATING.md has it."""
HEADER = f'{{"journal":1,"revision":0,"schema":"{HASH}"}}'
BODY = """{"arrivals":7,"next":5,"rows":2,"table":"accounts"}
[1,"ann",50,false]
[3,"b\u00e4\\n",50,false]
[1,3]
[3,1]
[3,1]
[1,3]
[3,1]
"""
DUMPED = """{"ids":1,"revision":4}
{"arrivals":7,"next":5,"table":"accounts"}
{"id":1,"row":{"balance":50,"owner":"ann","vip":false},"table":"accounts"}
{"id":3,"row":{"balance":50,"owner":"b\u00e4\\n","vip":false},"table":"accounts"}
{"index":"by_owner","order":[1,3],"table":"accounts"}
{"index":"by_balance","order":[3,1],"table":"accounts"}
{"index":"by_vip","order":[3,1],"table":"accounts"}
{"index":"by_class","order":[1,3],"table":"accounts"}
{"index":"line","order":[3,1],"table":"accounts"}
"""
LONG = "\u00e4" * 513
"""1,026 bytes."""
OTHER = """table = "accounts"
column = [{ name = "owner", type = "text" }, { name = "balance", type = "int" }, { name = "vip", type = "flag" }]
index = [{ name = "queue", kind = "sequenced" }, { name = "by_balance", kind = "ordered", key = ["balance"] }]
"""


def sum_of(text: str) -> str:
    return hashlib.sha256(text.encode()).hexdigest()


def base(body: str = BODY, schema: str = HASH, header: str = HEADER, line: int = 0) -> str:
    """A base by the format, of a first segment with this header."""
    text = f'{{"base":1,"line":{line},"revision":4,"schema":"{schema}","segment":1,"sum":"{sum_of(header)}"}}\n{body}'
    return f'{text}{{"sha256":"{sum_of(text)}"}}\n'


class Exact(unittest.TestCase):
    def setUp(self) -> None:
        self.folder = kit.folder(self)
        self.journal, self.file = f"{self.folder}/journal", f"{self.folder}/dump.jsonl"

    def write(self, **files: str) -> None:
        """Files by what stands behind the journal's name."""
        for name, text in files.items():
            with open(self.file if name == "dump" else f"{self.journal}{'.' + name if name != 'journal' else ''}", "w", encoding="utf-8", newline="") as file:
                file.write(text)

    def read(self, path: str) -> str:
        with open(path, encoding="utf-8", newline="") as file:
            return file.read()

    def tool(self, *words: str, status: int = 0) -> str:
        said = io.StringIO()
        with contextlib.redirect_stderr(said):
            self.assertEqual(cli.main(list(words)), status, said.getvalue())
        return said.getvalue().replace(f"{self.folder}/", "")

    def test_a_base_goes_out(self) -> None:
        self.write(journal=HEADER + "\n", base=base())
        self.assertEqual(self.tool("dump", "--ids", "--journal", self.journal, self.file), "2 rows written\n")
        self.assertEqual(self.read(self.file), DUMPED)

    def test_and_comes_back(self) -> None:
        self.write(dump=DUMPED)
        said = self.tool("load", "--ids", "--journal", self.journal, self.file)
        self.assertEqual(said, "2 rows are in journal.base; start mi_service with --journal journal\n")
        self.assertEqual((self.read(self.journal), self.read(f"{self.journal}.base")), (HEADER + "\n", base()))
        self.assertEqual(sorted(os.listdir(self.folder)), ["dump.jsonl", "journal", "journal.base"])

    def test_room_behind_the_text_is_no_line(self) -> None:
        self.write(journal=HEADER + "\n" + "\0" * 100, base=base())
        self.tool("dump", "--ids", "--journal", self.journal, self.file)
        self.assertEqual(self.read(self.file), DUMPED)

    def test_bases_that_are_refused(self) -> None:
        dump = ("dump", "--ids", "--journal", self.journal, self.file)
        self.write(journal=HEADER + "\n")
        self.assertIn("journal.base isn't there: mi_service --rebase makes it", self.tool(*dump, status=1))
        for size in (0, 10, len(base()) - 1):
            self.write(base=base()[:size])
            self.assertEqual(self.tool(*dump, status=1), "weltiyo dump: journal.base: the base is torn, or was changed\n")
        self.write(base=base(schema="0" * 64))
        self.assertIn("journal.base: it is of another schema", self.tool(*dump, status=2))
        self.write(base=base(header="{}"))
        self.assertIn("journal: it is no segment of the base's journal", self.tool(*dump, status=1))
        self.write(base=base(), journal=f'{HEADER}\n{{"cmd":"start"}}\n')
        self.assertIn("journal: lines stand behind its base", self.tool(*dump, status=1))
        self.write(base=base(line=1))
        self.assertEqual(self.tool(*dump), "2 rows written\n")

    def refused(self, was: str, now: str, why: str) -> None:
        self.assertIn(was, DUMPED)
        self.write(dump=DUMPED.replace(was, now, 1))
        self.assertEqual(self.tool("load", "--ids", "--journal", self.journal, self.file, status=1), f"weltiyo load: dump.jsonl:{why}\n")
        self.assertEqual(os.listdir(self.folder), ["dump.jsonl"])

    def test_dumps_that_are_refused(self) -> None:
        first = '1: {"ids":1,"revision":R} is the first line of what dump --ids writes, and no other'
        self.refused('{"ids":1,"revision":4}\n', "", first)
        self.refused('"ids":1', '"ids":2', first)
        self.refused('"table":"accounts"', '"table":"other"', "2: the schema has no table other")
        self.refused('"next":5', '"next":-1', f"2: arrivals and next are counted from 0 to {2**63 - 1}")
        self.refused('"id":3', '"id":1', "4: the id 1 isn't above 1, that of the row before, and below 5, the next one")
        self.refused('"id":3', '"id":5', "4: the id 5 isn't above 1, that of the row before, and below 5, the next one")
        self.refused('"balance":50', '"saldo":50', "3: a row of accounts has the columns owner, balance, vip")
        self.refused('"balance":50', '"balance":true', "3: balance is true; int wanted")
        self.refused('"balance":50', '"balance":9223372036854775808', "3: balance is no number of 64 bits")
        self.refused('"ann"', f'"{LONG}"', "3: owner is longer than 1024 bytes")
        self.refused('"b\u00e4\\n"', '"ann"', '4: unique: an earlier row has the same key ["ann"] of by_owner')
        for order in ("[1]", "[1,1]", "[1,2]", "[1,3,3]", '["1",3]', "1"):
            self.refused('"by_balance","order":[3,1]', f'"by_balance","order":{order}', "6: the order of by_balance has each id of accounts once")

    def test_lines_that_are_no_json(self) -> None:
        for n, line in enumerate((b"{", b"[]", b'{"ids":1,"revision":"\xff"}', b'{"ids":1,"revision":"\\ud800"}')):
            with open(self.file, "wb") as file:
                file.write(line + b"\n")
            said = self.tool("load", "--ids", "--journal", self.journal, self.file, status=1)
            self.assertTrue(said.startswith("weltiyo load: dump.jsonl:1: " + ("an object is wanted" if n == 1 else "no JSON: ")), said)

    def test_a_journal_that_is_there_stays(self) -> None:
        self.write(dump=DUMPED)
        for name in ("", ".base", ".000007"):
            path = self.journal + name
            with open(path, "w", encoding="utf-8") as file:
                file.write("mine")
            self.assertIn(f"journal{name} is there", self.tool("load", "--ids", "--journal", self.journal, self.file, status=1))
            self.assertEqual((self.read(path), len(os.listdir(self.folder))), ("mine", 2))
            os.remove(path)

    def test_another_schema(self) -> None:
        """Indexes that are new have the rows by their ids; the order of one that is gone is left out."""
        schema = kit.written(self, OTHER)
        self.write(dump=DUMPED)
        said = self.tool("load", "--ids", "--journal", self.journal, "--schema", schema, self.file)
        gone = [f"the schema has no index accounts.{it}, whose order is left out" for it in ("by_owner", "by_vip", "by_class", "line")]
        self.assertEqual(said.splitlines()[:-1], gone)
        self.assertEqual(self.read(f"{self.journal}.base").splitlines()[1:-1], [*BODY.splitlines()[:3], "[1,3]", "[3,1]"])

    def test_words_that_go_together(self) -> None:
        for words in (("dump", "--ids"), ("dump", "--ids", "--connect", "8000"), ("load", "--ids"), ("load", "--journal", "f", "--renumber"),
                      ("dump", "--ids", "--journal", "f", "--order", "line")):
            with self.assertRaises(SystemExit) as ended, contextlib.redirect_stderr(io.StringIO()):
                cli.main(list(words))
            self.assertEqual(ended.exception.code, 2, words)

    def test_a_service_has_the_same_tables(self) -> None:
        looks = [f'{{"cmd":"range","index":"{it}"}}' for it in ("id", "by_balance", "by_class")]
        looks += ['{"cmd":"list","index":"line"}', '{"cmd":"find","index":"by_vip","key":[false]}', '{"cmd":"revision"}']
        odd = "z\"\\\n\x00\x1f\x7f\u2028\u00e4\U0001f600"
        with Server(service=SERVICE, journal=self.journal) as server, server.connect(10) as db:
            for n, owner in enumerate(("a", odd, "c", "d", "")):
                db.insert({"owner": owner, "balance": n % 2, "vip": n == 3})
            db.modify(0, set={"balance": 1})
            db.modify(0, set={"balance": 0, "vip": True})
            db.modify(0, set={"vip": False})
            db.relocate("line", 4, 1)
            db.erase(3)
            want = [db.ask_line(it) for it in looks]
        self.assertEqual(subprocess.run([SERVICE, "--journal", self.journal, "--rebase"], timeout=60).returncode, 0)
        self.tool("dump", "--ids", "--journal", self.journal, self.file)
        again = f"{self.folder}/again"
        self.tool("load", "--ids", "--journal", again, self.file)
        with Server(service=SERVICE, journal=again) as server, server.connect(10) as db:
            self.assertEqual([db.ask_line(it) for it in looks], want)
            self.assertEqual(db.insert({"owner": "new", "balance": 0, "vip": True}), 5)


if __name__ == "__main__":
    unittest.main()
