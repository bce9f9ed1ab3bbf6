"""What the client knows of a schema: tables and keys, and why a command is refused. The words are the server's."""
import json
import os
import unittest
from typing import Any, Dict

import kit

from mi_client import Refused, Schema
from mi_client.explain import why

TWO = """format = 2
[[table]]
name = "item"
max_rows = 2
column = [{ name = "name", type = "text" }, { name = "stock", type = "int" }, { name = "sold", type = "flag" }]
index = [
    { name = "by_name", kind = "hashed", key = ["name", "sold"] },
    { name = "by_stock", kind = "ranked", key = ["-stock", "name"] },
    { name = "line", kind = "sequenced" },
]
[[table]]
name = "sale"
column = [{ name = "item", type = "int" }]
"""

ROW = {"name": "a", "stock": 1, "sold": False}

# The members of a command that is refused, the word, and what is said beyond it.
REFUSED = [
    ({"cmd": "insert", "row": {**ROW, "stock": 1.5}}, "row", "stock is a float; int wanted"),
    ({"cmd": "insert", "row": {**ROW, "stock": True}}, "row", "stock is a flag; int wanted"),
    ({"cmd": "insert", "row": {**ROW, "stock": 2**63}}, "row", "stock is beyond 64 bits"),
    ({"cmd": "insert", "row": {**ROW, "sold": 0}}, "row", "sold is an int; flag wanted"),
    ({"cmd": "insert", "row": {**ROW, "name": None}}, "row", "name is null; text wanted"),
    ({"cmd": "insert", "row": {**ROW, "name": ["a"]}}, "row", "name is a list; text wanted"),
    ({"cmd": "insert", "row": {**ROW, "name": "ä" * 513}}, "row", "name has 1026 bytes; at most 1024 fit"),
    ({"cmd": "insert", "row": {"name": 1, "stok": 5}}, "row",
     "stock, sold are missing; name is an int; text wanted; stok is no column; columns are name, stock, sold"),
    ({"cmd": "insert", "row": {**ROW, "id": 5}}, "row", "id is no column: the server gives it"),
    ({"cmd": "insert", "table": "sale", "row": {}}, "row", "item is missing"),
    ({"cmd": "modify", "id": 0, "set": {"stock": "x"}}, "row", "stock is a text; int wanted"),
    ({"cmd": "modify", "id": 0, "add": {"name": 1}}, "row", "name is a text column; only an int can be added to"),
    ({"cmd": "modify", "id": 0, "add": {"stock": 1.0}}, "row", "stock is a float; int wanted"),
    ({"cmd": "modify", "id": 0, "add": {"price": 1}}, "row", "price is no column; columns are name, stock, sold"),
    ({"cmd": "modify", "id": 0, "set": {"stock": 1}, "add": {"stock": 1}}, "row", "stock stands in set and in add"),
    ({"cmd": "size", "table": "none"}, "table", "there is no table none; tables are item, sale"),
    ({"cmd": "find", "index": "name", "key": ["a"]}, "index", "item has no index name; indexes are id, by_name, by_stock, line"),
    ({"cmd": "insert", "row": ROW, "before": {"index": "board", "id": 0}}, "index", "item has no index board; indexes are id, by_name, by_stock, line"),
    ({"cmd": "range", "index": "by_name"}, "kind", "by_name is hashed, and range is for ordered or ranked ones: id, by_stock"),
    ({"cmd": "relocate", "index": "by_stock", "id": 0}, "kind", "by_stock is ranked, and relocate is for sequenced ones: line"),
    ({"cmd": "find", "index": "by_name", "key": ["a"]}, "key", "1 of 2 values: the key of by_name is name, sold"),
    ({"cmd": "find", "index": "by_stock", "key": []}, "key", "the key is empty; by_stock has -stock, name"),
    ({"cmd": "count", "index": "by_stock", "key": [1, "a", 2]}, "key", "3 of 2 values: the key of by_stock is -stock, name"),
    ({"cmd": "erase_key", "index": "by_stock", "key": [1]}, "key", "1 of 2 values: the key of by_stock is -stock, name"),
    ({"cmd": "range", "index": "by_stock", "lower": {"ge": [5]}, "upper": {"le": ["x"]}}, "key", "stock is a text; int wanted"),
    ({"cmd": "find", "index": "id", "key": ["x"]}, "key", "id is a text; int wanted"),
]


class Explaining(unittest.TestCase):
    def test_each_refusal_says_why(self) -> None:
        db = kit.start(self, TWO)
        for members, word, want in REFUSED:
            with self.subTest(json.dumps(members)[:100]):
                self.assertEqual(json.loads(db.ask_line(json.dumps(members)))["error"], word)
                assert db.schema
                self.assertEqual(why(db.schema, members, word), want)

    def test_calls_say_it(self) -> None:
        db = kit.start(self, TWO)
        with self.assertRaises(Refused) as caught:
            db.insert({**ROW, "stock": 0.5})
        self.assertEqual((str(caught.exception), caught.exception.word), ("row: stock is a float; int wanted", "row"))
        db.insert(ROW)
        db.insert(ROW)
        with self.assertRaisesRegex(Refused, "^full: item has its most rows, 2$"):
            db.insert(ROW)
        with self.assertRaisesRegex(Refused, "^line: the line is longer than 65,536 bytes$"):
            db.insert({**ROW, "name": "x" * 70_000})
        db._dialect.schema = None
        for call, words in [
            (lambda: db.get(7), "id: there is no record 7"),
            (lambda: db.find("by_name", ["b", True]), r'id: no record has the key \["b", true\] in by_name'),
            (lambda: db.nth("by_stock", 5), "id: no record stands at place 5 of by_stock"),
            (lambda: db.list("line", after=9), "id: there is no record 9"),
            (lambda: db.relocate("line", 0, before=8), "id: there is no record 0, or none 8"),
            (lambda: db.modify(0, add={"stock": 2**63 - 1}), "range: an addition leaves 64 bits"),
            (lambda: db.undo(), "session: no session is open"),
            (lambda: db.insert({}), "row: the row, `set` or `add` doesn't fit the columns"),
        ]:
            with self.assertRaisesRegex(Refused, f"^{words}$"):
                call()

    def test_forms(self) -> None:
        db = kit.start(self, TWO)
        for asked, want in [
            ({"cmd": "fly"}, "there is no command fly"),
            ({"cmd": "get"}, "id is missing"),
            ({"cmd": "get", "id": "x"}, "id is a text; a whole number from 0 wanted"),
            ({"cmd": "get", "id": -1}, "id is -1; a whole number from 0 wanted"),
            ({"cmd": "get", "id": 0, "reverse": True}, "get has no member reverse; it has id, table"),
            ({"cmd": "range", "index": "by_stock", "limit": 1001}, "limit is 1001; 1 to 1000 wanted"),
            ({"cmd": "range", "index": "by_stock", "lower": {"le": [1]}},
             'lower has "le", which is for upper; "ge" or "gt" wanted, as lower={"ge": [1]}'),
            ({"cmd": "range", "index": "by_stock", "upper": {"ge": [1], "gt": [2]}},
             'upper has "ge", "gt", which are for lower; "le" or "lt" wanted, as upper={"le": [1]}'),
            ({"cmd": "range", "index": "by_stock", "lower": {"ge": [1], "gt": [2]}},
             'lower has "ge", "gt"; "ge" or "gt" wanted, as lower={"ge": [1]}'),
            ({"cmd": "range", "index": "by_stock", "lower": {"from": "\u00e4"}}, 'lower has "from"; "ge" or "gt" wanted, as lower={"ge": [10]}'),
            ({"cmd": "range", "index": "by_stock", "lower": {}}, 'lower has none; "ge" or "gt" wanted, as lower={"ge": [10]}'),
            ({"cmd": "range", "index": "by_stock", "upper": 5}, 'upper is an int; "le" or "lt" wanted, as upper={"le": [10]}'),
            ({"cmd": "range", "index": "by_stock", "reverse": 1}, "reverse is 1; true or false wanted"),
            ({"cmd": "find", "index": "by_stock", "key": 1}, "key is 1; an array wanted"),
            ({"cmd": "insert", "row": [1]}, "row is a list; an object wanted"),
            ({"cmd": "reserve", "changes": 1, "sessions": 1025}, "sessions is 1025; 0 to 1024 wanted"),
            ({"cmd": "count", "index": 5}, "index is 5; a text wanted; key is missing"),
        ]:
            with self.subTest(want):
                self.assertEqual(json.loads(db.ask_line(json.dumps(asked)))["error"], "form")
                self.assertEqual(why(None, asked, "form"), want)


class Keys(unittest.TestCase):
    def test_by_columns(self) -> None:
        db = kit.start(self, TWO)
        id = db.insert(ROW)
        for key in [["a", False], {"name": "a", "sold": False}, {"sold": False, "name": "a"}]:
            self.assertEqual(db.find("by_name", key)["id"], id)
        self.assertEqual(db.count("by_stock", {"stock": 1}), 1)
        self.assertEqual(len(db.range("by_stock", lower={"ge": {"stock": 1, "name": "a"}}).rows), 1)
        self.assertEqual(db.lower_rank("by_stock", {"stock": 0}), 1)
        self.assertEqual(db.find("id", {"id": id})["name"], "a")
        wrong: Dict[str, Dict[str, Any]] = {
            "name can't be left out before sold": {"sold": False},
            "stock is no part of the key of by_name": {"stock": 1},
        }
        for words, key in wrong.items():
            with self.assertRaisesRegex(ValueError, words):
                db.find("by_name", key)
        with self.assertRaisesRegex(Refused, "index: item has no index none"):
            db.find("none", {"name": "a"})
        self.assertEqual(db.erase_key("by_name", {"sold": False, "name": "a"}), 1)


class Reading(unittest.TestCase):
    def test_examples(self) -> None:
        accounts, built_in = Schema.read(f"{kit.TOP}/examples/accounts.toml"), Schema.built_in()
        self.assertEqual([it.name for it in built_in.tables], ["accounts"])
        self.assertEqual([it.kind for it in built_in.tables[0].indexes], ["ranked", "hashed", "ranked", "hashed", "ordered", "sequenced"])
        self.assertEqual(len(accounts.tables), 1)
        two = Schema.of_text(TWO)
        self.assertEqual([str(it) for it in two.tables[0].indexes[2].parts], ["-stock", "name"])
        self.assertEqual((two.tables[0].max_rows, two.tables[1].max_rows), (2, 1_000_000))
        self.assertIs(two.table("sale"), two.tables[1])
        self.assertIsNone(two.table("none"))

    def test_what_is_none(self) -> None:
        for text, words in [("table =", "line 1"), ("", "no schema"), ("table = 5", "no schema"), ('table = "a"', "no schema")]:
            with self.assertRaisesRegex(ValueError, words):
                Schema.of_text(text)
            path = kit.written(self, text)
            with self.assertRaisesRegex(ValueError, f"^{path}:{'1: ' if 'line' in words else ' this is no schema: '}"):
                Schema.read(path)

    def test_a_file_that_is_no_utf8(self) -> None:
        """The file is told, the line and the byte."""
        path = f"{kit.folder(self)}/schema.toml"
        with open(path, "wb") as file:
            file.write(b'table = "t" # caf\xc3\xa9\n# caf\xe9\n')
        said = f"{path}:2: the byte 0xE9, number 6 of the line, isn't UTF-8"
        with self.assertRaises(ValueError) as raised:
            Schema.read(path)
        self.assertEqual(str(raised.exception), said)
        for words in (["dump", "--connect", "1"], ["load", os.devnull], ["--connect", "1"]):
            ran = kit.ran(*words, "--schema", path)
            self.assertEqual(ran.returncode, 1)
            self.assertIn(said, ran.stderr)

    def test_a_schema_that_the_server_refuses(self) -> None:
        """The tools name the file behind the server's word, and the line where the client reads it as little."""
        for text, words in [('table = "t"', "this is no schema: 'column'"), ('table = "t"\ncolumn = []', "weltiyo-lint tells the line")]:
            path = kit.written(self, text)
            ran = kit.ran("load", os.devnull, "--schema", path)
            self.assertEqual(ran.returncode, 1)
            self.assertRegex(ran.stderr, f"^weltiyo load: the server ended with status 3: schema: (shape|limit): {path}: {words}\n$")


if __name__ == "__main__":
    unittest.main()
