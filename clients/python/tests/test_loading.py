"""Ids of rows that are loaded: they are those of the file, or nothing is loaded, or the columns that hold them follow."""
import json
import os
import unittest
from argparse import Namespace
from typing import Any, List, Tuple

import kit

from mi_client import Database
from mi_tools import transfer
from mi_tools.loading import Reference, References, Stopped, load_rows
from mi_tools.rowfiles import Item

BANK = """format = 2
[[table]]
name = "account"
column = [{ name = "owner", type = "text" }, { name = "parent", type = "int" }]
index = [{ name = "by_owner", kind = "hashed", unique = true, key = ["owner"] }]
[[table]]
name = "payment"
column = [{ name = "from", type = "int" }, { name = "to", type = "int" }, { name = "memo", type = "text" }]
"""


def account(id: int, owner: str, parent: int = 0) -> Any:
    return {"id": id, "row": {"owner": owner, "parent": parent}, "table": "account"}


def payment(id: int, of: int, to: int) -> Any:
    return {"id": id, "row": {"from": of, "to": to, "memo": f"{of}"}, "table": "payment"}


GAP = [account(0, "ann"), account(2, "bob"), account(5, "cid"), payment(0, 5, 2), payment(1, 2, 0)]
FOLLOW = [Reference("payment", "from", "account"), Reference("payment", "to", "account")]
WORDS = ["--references", "payment.from=account", "--references", "payment.to=account"]


class Ids(unittest.TestCase):
    def file(self, rows: List[Any]) -> str:
        return kit.written(self, "".join(json.dumps(it) + "\n" for it in rows), "rows.jsonl")

    def load(self, db: Database, rows: List[Any], **how: Any) -> transfer.Loaded:
        given = {"table": None, "resume": False, "keep_going": False, "format": None, **how}
        return transfer.load(db, Namespace(file=self.file(rows), **given))

    def payments(self, db: Database) -> List[Tuple[int, int]]:
        return [(it["from"], it["to"]) for it in db.walk_range("id", table="payment")]

    def test_ids_that_would_differ(self) -> None:
        """Nothing is loaded, not even of the tables and pages before."""
        for rows, words in [
            (GAP, r"rows.jsonl:2: record 2 of account would get the id 1\. --renumber lets ids differ, and --references "),
            ([account(0, "ann"), payment(3, 0, 0)], r"rows.jsonl:2: record 3 of payment would get the id 0"),
            ([account(n, f"a{n}") for n in range(2500)] + [account(2501, "z")], r"rows.jsonl:2501: record 2501 of account would get the id 2500"),
        ]:
            db = kit.start(self, BANK)
            with self.assertRaisesRegex(Stopped, words):
                self.load(db, rows)
            self.assertEqual((db.size("account"), db.size("payment"), db.revision()), (0, 0, (0, 0, 0)))

    def test_a_server_that_has_counted_on(self) -> None:
        db = kit.start(self, BANK)
        db.erase(db.insert({"owner": "z", "parent": 0}))
        with self.assertRaisesRegex(Stopped, ":1: record 0 of account would get the id 1"):
            self.load(db, [account(0, "ann"), account(1, "bob")])
        self.assertEqual(self.load(db, [account(1, "ann"), account(2, "bob")]).other_ids, 0)
        self.assertEqual([it["id"] for it in db.walk_range("id")], [1, 2])

    def test_a_row_that_is_left_out(self) -> None:
        """Behind it the ids would differ, so nothing of that page is loaded."""
        db = kit.start(self, BANK)
        with self.assertRaisesRegex(Stopped, ":3: record 2 of account would get the id 1"):
            self.load(db, [account(0, "ann"), account(1, "ann"), account(2, "bob")], keep_going=True)
        self.assertEqual(db.size("account"), 0)

    def test_columns_that_follow(self) -> None:
        db = kit.start(self, BANK)
        done = self.load(db, GAP, references=FOLLOW)
        self.assertEqual((done, self.payments(db)), ((5, 2, []), [(2, 1), (1, 0)]))
        self.assertEqual([it["owner"] for it in db.walk_range("id")], ["ann", "bob", "cid"])

    def test_rows_that_name_rows_of_their_table(self) -> None:
        db = kit.start(self, BANK)
        own = [Reference("account", "parent", "account")]
        for parent, words in [(3, "parent is 3, and no row of account that came before has this id"), (True, "row: parent is a flag; int wanted")]:
            with self.assertRaisesRegex(Stopped, f"rows.jsonl:1: {words}"):
                self.load(db, [account(3, "ann", parent)], references=own)
        self.load(db, [account(3, "ann")], renumber=True)
        known = References(own, db.schema)
        known.known(Item("", "account", 3, {}, 0), 0)
        items = [Item(f"f:{n}", "account", n + 4, account(0, f"a{n}", n + 3)["row"], n) for n in range(1200)]
        self.assertEqual(load_rows(db, items, references=known).other_ids, 1200)
        self.assertEqual([it["parent"] for it in db.walk_range("id")], [0, *range(1200)])

    def test_an_id_that_is_no_row(self) -> None:
        rows = [*GAP, payment(2, 1, 0), payment(3, 0, 5)]
        db = kit.start(self, BANK)
        with self.assertRaisesRegex(Stopped, r"rows.jsonl:6: from is 1, and no row of account that came before has this id$"):
            self.load(db, rows, references=FOLLOW)
        self.assertEqual(db.size("payment"), 0)
        done = self.load(db, rows, references=FOLLOW, keep_going=True)
        self.assertEqual((done.rows, len(done.refused), self.payments(db)), (6, 1, [(2, 1), (1, 0), (0, 2)]))
        again = self.load(db, [*rows, payment(4, 2, 2)], references=FOLLOW, keep_going=True, resume=True)
        self.assertEqual((again.rows, self.payments(db)[-1]), (1, (1, 1)))

    def test_programs(self) -> None:
        path, schema, out = self.file(GAP), kit.written(self, BANK), f"{kit.folder(self)}/out.jsonl"
        for words in (["load", path], ["import", path], ["load", "-"]):
            ran = kit.ran(*words, "--schema", schema, "--dump", out, typed="".join(json.dumps(it) + "\n" for it in GAP))
            self.assertEqual((ran.returncode, os.path.exists(out)), (1, False), words)
            self.assertIn(":2: record 2 of account would get the id 1. --renumber", ran.stderr)
        ran = kit.ran("load", path, "--schema", schema, "--renumber")
        self.assertEqual((ran.returncode, ran.stderr), (0, "5 rows loaded\n2 of them have other ids than they had\n"))
        ran = kit.ran("load", "-", "--schema", schema, *WORDS, "--dump", out, typed="".join(json.dumps(it) + "\n" for it in GAP))
        self.assertEqual((ran.returncode, ran.stderr), (0, "5 rows loaded\n2 of them have other ids than they had\n"))
        with open(out, encoding="utf-8") as file:
            written = file.read()
        self.assertIn('{"id":0,"row":{"from":2,"memo":"5","to":1},"table":"payment"}', written)
        ran = kit.ran("load", "-", "--schema", schema, "--dump", "-", typed=written)
        self.assertEqual((ran.returncode, ran.stdout), (0, written))
        for text in ("payment=account", "payment.from", ".from=account"):
            self.assertEqual(kit.ran("load", path, "--schema", schema, "--references", text).returncode, 2)
        for text in ("payment.memo=account", "payment.form=account", "pay.from=account", "payment.from=accounts"):
            ran = kit.ran("load", path, "--schema", schema, "--references", text)
            self.assertEqual((ran.returncode, ran.stderr), (1, f"weltiyo load: --references {text}: an int column and a table are wanted\n"))


if __name__ == "__main__":
    unittest.main()
