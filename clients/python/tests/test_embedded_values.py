"""The calls with values of a database in the process answer what their lines do: random calls are made on two databases, on one of them by lines
alone, and each must answer or raise the same."""
import json
import os
import random
import threading
import unittest

import kit
from kit import ANN
from test_embedded import InTheMiddle, Watched, library, needs_library

from mi_client import Embedded, Ended, NeedsSchema, Refused, Schema, embedded_values

# (a column that stands before `id` in a reply and one behind it, a key of every type and of all together, and a table that is soon full)
SCHEMA = """
format = 2

[[table]]
name = "main"
max_rows = 6
column = [
    { name = "zeta", type = "text" }, { name = "a", type = "int" }, { name = "on", type = "flag" },
    { name = "name", type = "text" }, { name = "n", type = "int" },
]
index = [
    { name = "by_name", kind = "hashed", unique = true, key = ["name"] },
    { name = "by_all", kind = "ranked", key = ["-on", "a", "zeta"] },
    { name = "by_n", kind = "ordered", unique = true, key = ["n"] },
    { name = "by_on", kind = "hashed", key = ["on", "n"] },
    { name = "line", kind = "sequenced" },
]

[[table]]
name = "one"
column = [{ name = "only", type = "text" }]
index = [{ name = "by_only", kind = "ordered", key = ["-only"] }]
"""
WIDE = 'table = "wide"\ncolumn = [' + ", ".join(f'{{ name = "c{n}", type = "text" }}' for n in range(16)) + "]\n"
TEXTS = ["", "a", "b", "é", "\u20ac uro", "\U0001f600", "\0", "x\0y", "\"\\\n\x1f", "\ud800", "x" * 1024, "é" * 513, "\x01" * 1024]
INTS = [0, 1, 2, -1, 7, 2**63 - 1, -(2**63), 2**63, -(2**63) - 1, 2**64, 10**30]
ODD = [None, 1.0, 1.5, True, False, [], {}, float("inf"), b"x"]


class Whole(int):
    """A number that isn't just an int."""


class By:
    """One of the two ways, and what it made of a call."""

    def __init__(self, db):
        self.db = db

    def made(self, name, words, named):
        try:
            return "answer", getattr(self.db, name)(*words, **named)
        except Refused as refusal:
            return "refused", refusal.reply, list(refusal.reply), refusal.word, refusal.id, refusal.index, refusal.lost, refusal.why, str(refusal)
        except Exception as error:
            return "raised", type(error), str(error)


class Calls:
    """Random calls of the four commands that have values, and of what changes the ground below them."""

    def __init__(self, seed):
        self.random = random.Random(seed)

    def of(self, *choices):
        return self.random.choice(choices)

    def value(self, type):
        if self.random.random() < 0.08:
            return self.of(*ODD, *INTS, *TEXTS, Whole(5))
        if type == "flag":
            return self.of(True, False)
        if type == "int":
            return self.of(*INTS[:7], self.random.randrange(30), *([self.of(*INTS[7:])] if self.random.random() < 0.3 else []))
        return self.of(*TEXTS[:9], str(self.random.randrange(30)), *(TEXTS[9:] if self.random.random() < 0.2 else []))

    def table(self):
        return self.of(None, None, "main", "one", *(["other", 3, [], {}] if self.random.random() < 0.2 else []))

    COLUMNS = {"main": {"zeta": "text", "a": "int", "on": "flag", "name": "text", "n": "int"}, "one": {"only": "text"}}

    def columns(self, table):
        return self.COLUMNS.get(table if isinstance(table, str) else "main", self.COLUMNS["main"])

    def row(self, table):
        row = {name: self.value(type) for name, type in self.columns(table).items()}
        for _ in range(self.of(*[0] * 12, 1, 2)):
            self.of(lambda: row.pop(self.of(*row), None) if row else None, lambda: row.update(other=1), lambda: row.update(id=3))()
        return row if self.random.random() > 0.02 else self.of(None, [], "row", 5)

    def id(self):
        return self.of(*range(14), *([-1, 2**63 - 1, 2**63, 2**64, True, None, "0", 1.0, Whole(1)] if self.random.random() < 0.2 else []))

    KEYS = {
        "id": ["id"], "by_name": ["name"], "by_all": ["on", "a", "zeta"], "by_n": ["n"], "by_on": ["on", "n"], "line": [], "by_only": ["only"],
        "none": [],
    }

    def find(self, table):
        index = self.of("by_only", "id") if table == "one" and self.random.random() < 0.9 else self.of(*self.KEYS, "by_name", "by_n", "by_all")
        types = {**self.COLUMNS["main"], **self.COLUMNS["one"], "id": "int"}
        names = self.KEYS[index]
        values = [self.value(types[it]) if it != "id" else self.id() for it in names]
        if len(values) > 1 or self.random.random() < 0.05:
            values = values[: self.random.randrange(len(values) + 1)]
        key = self.of(values, values, tuple(values), dict(zip(names, values)))
        if self.random.random() < 0.05:
            key = self.of([], {}, [*values, 1], {"other": 1}, "text", 5, None, values[0] if values else None)
        return index, key

    def next(self):
        """A call: its name, its words and those by name."""
        name, table = self.of("insert", "insert", "get", "get", "find", "find", "find", "modify", "modify", "modify", "rest"), self.table()
        named = {} if table is None else {"table": table}
        if name == "insert":
            if self.random.random() < 0.05:
                named["before"] = ("line", self.random.randrange(12))
            return name, (self.row(table),), named
        if name == "get":
            return name, (self.id(),), named
        if name == "find":
            return name, self.find(table), named
        if name == "modify":
            for member in self.of(["set"], ["add"], ["set", "add"], []):
                row = self.row(table)
                some = {it: row[it] for it in row if self.random.random() < 0.4} if isinstance(row, dict) else row
                named[member] = some if member == "set" or not isinstance(some, dict) else {it: self.of(some[it], 1, -1, *INTS[5:7]) for it in some}
            if self.random.random() < 0.1:
                named["rollback"] = self.of(False, None, True)
            return name, (self.id(),), named
        return self.of(
            ("erase", (self.random.randrange(12),), {}), ("list", ("line",), {"table": "main"}),
            *((it, (), {}) for it in ("begin", "undo", "squash", "size", "revision")),
        )


class Read(unittest.TestCase):
    def test_a_row_that_was_laid_is_read(self):
        """With the columns in the order of a reply, whatever they are called."""
        for table in Schema.of_text(SCHEMA).tables + Schema.of_text(WIDE).tables + Schema.built_in().tables:
            values, texts = bytearray(embedded_values.VALUE_SIZE * embedded_values.ROW_VALUES), bytearray(embedded_values.ROW_TEXTS)
            rows = embedded_values.Rows(0, table, values, texts)
            for n, text in enumerate(["", "\u20ac uro", "x" * 300, "\0", "'\"\\\n"]):
                plain = {"int": (-1) ** n * (2**63 - 1) + n % 2, "text": text, "flag": n % 2 == 0}
                row = {it.name: plain[it.type] for it in table.columns}
                laid = rows.layout.lay(rows.pick(row), values)
                texts[:len(laid)] = laid
                found = rows.read(n)
                self.assertEqual(list(found.items()), sorted({"id": n, **row}.items()))


@needs_library
class SameAsLines(unittest.TestCase):
    def opened(self, schema):
        """A database, and one that is asked by lines alone."""
        file = kit.written(self, schema)
        made = []
        for is_by_lines in (False, True):
            db = Embedded.open(file)
            self.addCleanup(db.close)
            if is_by_lines:
                db._values = None
            made.append(By(db))
        return made

    def test_random_calls(self):
        seen = set()
        for seed in range(20):
            values, lines = self.opened(SCHEMA)
            calls = Calls(seed)
            for number in range(400):
                name, words, named = calls.next()
                came, wanted = values.made(name, words, named), lines.made(name, words, named)
                self.assertEqual(came, wanted, f"seed {seed}, call {number}: {name}{words} {named}")
                self.assertEqual(repr(came), repr(wanted), f"seed {seed}, call {number}: {name}{words} {named}")
                seen.add((name, came[0], came[1]["error"] if came[0] == "refused" else ""))
            self.assertEqual(*(it.made("list", ("line", None, 1000), {"table": "main"}) for it in (values, lines)))
        wanted = {
            ("insert", "answer", ""), ("get", "answer", ""), ("find", "answer", ""), ("modify", "answer", ""), ("insert", "raised", ""),
            ("insert", "refused", "form"),
            *(("insert", "refused", it) for it in ("row", "unique", "full", "table", "json")), ("get", "refused", "id"), ("get", "refused", "form"),
            *(("find", "refused", it) for it in ("id", "key", "kind", "index")),
            *(("modify", "refused", it) for it in ("id", "row", "unique", "range")),
        }
        self.assertEqual(wanted - seen, set())

    def test_they_are_made_by_values(self):
        """Of what fits no line is asked."""
        values, _ = self.opened(SCHEMA)
        with kept_from_lines(values.db) as asked:
            row = {"zeta": "é\0", "a": -(2**63), "on": True, "name": "", "n": 2**63 - 1}
            self.assertEqual(values.db.insert(row), 0)
            self.assertEqual(json.dumps(values.db.get(0)), json.dumps(dict(sorted({**row, "id": 0}.items()))))
            self.assertEqual(values.db.modify(0, set={"zeta": "x"}, add={"a": 1}), None)
            self.assertEqual(values.db.find("by_all", {"on": True, "a": 1 - 2**63})["zeta"], "x")
            self.assertEqual(values.db.find("by_name", ("",))["a"], 1 - 2**63)
            self.assertRaises(Refused, values.db.get, 1)
            self.assertRaises(Refused, values.db.find, "by_name", ["ann"])
            self.assertEqual(asked, [])
            self.assertRaises(Refused, values.db.insert, row)
            self.assertEqual(len(asked), 1)

    def test_texts_that_a_line_has_no_room_for(self):
        values, lines = self.opened(WIDE)
        for text in ("x", "\x01", "\u20ac" * 341, "\x01" * 1024):
            row = {f"c{n}": text for n in range(16)}
            self.assertEqual(values.made("insert", (row,), {}), lines.made("insert", (row,), {}))
            self.assertEqual(values.made("modify", (0, row), {}), lines.made("modify", (0, row), {}))
            self.assertEqual(values.made("get", (0,), {}), lines.made("get", (0,), {}))

    def test_lines_sent_ahead_are_answered_before(self):
        values, _ = self.opened(SCHEMA)
        with values.db.pipeline() as ahead:
            ahead.insert({"only": "x"}, table="one")
            self.assertEqual(values.db.get(0, "one"), {"id": 0, "only": "x"})

    def test_others_are_kept_out(self):
        values, _ = self.opened(SCHEMA)
        with values.db.another() as other:
            values.db.begin()
            with self.assertRaises(Refused) as caught:
                other.insert({"only": "x"}, table="one")
            self.assertEqual(caught.exception.word, "busy")
            values.db.insert({"only": "x"}, table="one")
            self.assertEqual(other.get(0, table="one")["only"], "x")

    def test_a_schema_that_can_be_read_once(self):
        """The columns are those of the text that the library was given."""
        path = f"{kit.folder(self)}/schema.toml"
        os.mkfifo(path)

        def write():
            with open(path, "w", encoding="utf-8") as file:
                file.write(SCHEMA)

        writer = threading.Thread(target=write)
        writer.start()
        with Embedded.open(path) as db, kept_from_lines(db) as asked:
            writer.join()
            self.assertEqual((db.insert({"only": "x"}, table="one"), db.get(0, "one"), asked), (0, {"id": 0, "only": "x"}, []))

    def test_without_a_schema(self):
        with Embedded.open() as db:
            db._values = db._dialect.schema = None
            db.insert(ANN)
            self.assertRaises(NeedsSchema, db.find, "by_owner", {"owner": "ann"})

    def test_closed(self):
        values, _ = self.opened(SCHEMA)
        values.db.close()
        for name, words in (("get", (0,)), ("find", ("id", [0])), ("insert", ({"only": "x"}, "one")), ("modify", (0, {"a": 1}))):
            self.assertEqual(values.made(name, words, {})[1:], (Ended, "the connection is closed"))


class kept_from_lines:
    """A block in which the lines that a database asks are kept."""

    def __init__(self, db):
        self._lines, self._asked, self._kept = db._lines, db._lines.exchange, []

    def __enter__(self):
        self._lines.exchange = lambda line: self._kept.append(line) or self._asked(line)
        return self._kept

    def __exit__(self, *_):
        del self._lines.exchange


class InTheMiddleOfACall(unittest.TestCase):
    """A connection that is closed within a call with values, as by a signal handler: the call is answered or ends, and no closed handle is used."""

    def setUp(self):
        self.library = library() or f"{kit.stand_in()}/libweltiyo.so"

    def closed_at(self, number, call):
        db = Embedded.open(library_file=self.library)
        engine = db._lines.engine
        engine._calls = watched = Watched(engine._calls)
        db.insert(ANN)
        try:
            with InTheMiddle(number, db.close) as middle:
                call(db)
        except Ended as error:
            self.assertEqual(str(error), "the connection is closed")
        if middle.is_over():
            db.close()
        self.assertTrue(db._closed_for and not engine.is_busy)
        self.assertEqual(len(watched.closed), 1)
        return middle.is_over()

    def test_each_line(self):
        for call in (lambda db: db.get(0), lambda db: db.insert({**ANN, "owner": "bob"})):
            number = 1
            while not self.closed_at(number, call):
                number += 1
            self.assertGreater(number, 10)

    def test_a_call_within_a_call(self):
        """Another one is turned away, and takes nothing of the first."""
        said = []

        class Interrupted:
            def __getattr__(self, name):
                return getattr(calls, name)

            def weltiyo_get(self, *words):
                engine._calls = calls
                for call in (lambda: db.get(0), lambda: db.insert(ANN)):
                    try:
                        call()
                    except RuntimeError as error:
                        said.append(str(error).partition(":")[0])
                return calls.weltiyo_get(*words)

        with Embedded.open(library_file=self.library) as db:
            db.insert(ANN)
            engine, calls = db._lines.engine, db._lines.engine._calls
            engine._calls = Interrupted()
            self.assertEqual(db.get(0)["owner"], "ann")
            self.assertEqual(said, ["the connection is in the middle of a call"] * 2)

    def test_one_that_breaks_off_ends_the_connection(self):
        class Broken:
            def __getattr__(self, name):
                return getattr(calls, name)

            def weltiyo_get(self, *_):
                raise KeyboardInterrupt

        db = Embedded.open(library_file=self.library)
        engine, calls = db._lines.engine, db._lines.engine._calls
        engine._calls = Broken()
        self.assertRaises(KeyboardInterrupt, db.get, 0)
        self.assertTrue(db._closed_for and not engine.is_busy)


if __name__ == "__main__":
    unittest.main()
