"""A journal's tables under another schema: `mi_service --rebase-to`. The program is the one that MI_SERVICE names, else the built one; the files
are read by `scripts/bases.py`. Rows and lists are worked out by hand."""
import os
import subprocess
import sys
import unittest

import kit
from kit import TOP

from mi_client import Server

sys.path.insert(0, f"{TOP}/scripts")

import bases  # noqa: E402

BUILT = f"{TOP}/crates/mi_service/out/mi_service"
SERVICE = os.environ.get("MI_SERVICE") or BUILT

PEOPLE = """format = 2
first_revision = 5

[[table]]
name = "people"

[[table.column]]
name = "name"
type = "text"

[[table.column]]
name = "age"
type = "int"

[[table.index]]
name = "by_age"
kind = "ordered"
key = ["age"]

[[table.index]]
name = "line"
kind = "sequenced"

[[table]]
name = "notes"

[[table.column]]
name = "text"
type = "text"
"""

CITIZENS = """format = 2

[[table]]
name = "cities"
first_id = 10

[[table.column]]
name = "name"
type = "text"

[[table]]
name = "people"

[[table.column]]
name = "city"
type = "text"

[[table.column]]
name = "name"
type = "text"

[[table.column]]
name = "score"
type = "int"

[[table.column]]
name = "vip"
type = "flag"

[[table.index]]
name = "line"
kind = "sequenced"

[[table.index]]
name = "by_name"
kind = "hashed"
key = ["name"]
"""

DROPPED = "dropped: people.age\ndropped: notes\n"


@unittest.skipUnless(os.path.exists(SERVICE), "the service isn't there")
class Moving(unittest.TestCase):
    """Bo has come again as 3, and stands in front of Al in the line. Record 2 is gone."""

    def setUp(self):
        self.folder = kit.folder(self)
        self.old, self.new = self.written("old.toml", PEOPLE), self.written("new.toml", CITIZENS)
        self.journal, self.target = f"{self.folder}/old.journal", f"{self.folder}/new.journal"
        with self.served(self.journal, self.old) as server, server.connect(10) as db:
            for name, age in (("Al", 30), ("Bo", 41), ("Cy", 41)):
                db.insert({"name": name, "age": age}, table="people")
            db.erase(2, table="people")
            db.insert({"name": "Bo", "age": 7}, table="people", before=("line", 0))
            db.insert({"text": "hi"}, table="notes")

    def written(self, name, text):
        with open(f"{self.folder}/{name}", "w", encoding="utf-8") as file:
            file.write(text)
        return file.name

    def served(self, journal, schema):
        server = Server(service=SERVICE, journal=journal, schema=schema)
        self.addCleanup(server.close)
        return server

    def moved(self, schema, target=None):
        words = ["--journal", self.journal, "--schema", self.old, "--rebase-to", target or self.target, "--new-schema", schema]
        ran = subprocess.run([SERVICE, *words], capture_output=True, text=True, timeout=60)
        return ran.returncode, ran.stdout, ran.stderr

    def refused(self, schema, said, output=""):
        """The move is refused, and leaves no file."""
        self.assertEqual(self.moved(schema), (3, output, f"{said}\n"))
        self.assertFalse([it for it in os.listdir(self.folder) if it.startswith("new.journal")])

    def test_ids_and_orders_stay(self):
        self.assertEqual(self.moved(self.new), (0, DROPPED, ""))
        with open(f"{self.target}.base", "rb") as file:
            base = bases.read_base(file.read())
        with open(self.target, "rb") as file:
            segment = file.read().rstrip(b"\0")
        self.assertEqual((base.segment, base.line, base.revision), (1, 0, 5))
        self.assertEqual(base.sum, bases.sum_of(segment[:-1]))
        cities, people = base.tables
        self.assertEqual((cities.name, cities.next, cities.arrivals, cities.rows), ("cities", 10, 0, {}))
        rows = {0: ["", "Al", 0, False], 1: ["", "Bo", 0, False], 3: ["", "Bo", 0, False]}
        self.assertEqual((people.name, people.next, people.rows), ("people", 4, rows))
        self.assertEqual(people.lists[0], [3, 0, 1])
        self.assertEqual([it for it in people.lists[1] if it != 0], [1, 3])

    def test_both_journals_go_on(self):
        with open(self.journal, "rb") as file:
            before = file.read()
        self.moved(self.new)
        with open(self.journal, "rb") as file:
            self.assertEqual(file.read(), before)
        with self.served(self.target, self.new) as server, server.connect(10) as db:
            self.assertEqual(db.insert({"name": "Di", "city": "Ur", "score": 2, "vip": True}, table="people"), 4)
            self.assertEqual(db.insert({"name": "Ur"}, table="cities"), 10)
        with self.served(self.target, self.new) as server, server.connect(10) as db:
            self.assertEqual(db.get(4, table="people")["city"], "Ur")
        with self.served(self.journal, self.old) as server, server.connect(10) as db:
            self.assertEqual(db.get(3, table="people")["age"], 7)

    def test_a_journal_that_is_there_stays(self):
        self.moved(self.new)
        self.assertEqual(self.moved(self.new), (3, DROPPED, f"journal: file: {self.target}: a journal is there\n"))
        self.assertEqual(self.moved(self.new, self.journal), (3, DROPPED, f"journal: file: {self.journal}: a journal is there\n"))

    def test_a_base_without_a_segment_is_made_again(self):
        """So a killed move is repeated."""
        with open(f"{self.target}.base", "w", encoding="utf-8") as file:
            file.write("torn")
        self.assertEqual(self.moved(self.new), (0, DROPPED, ""))

    def test_what_a_new_schema_refuses(self):
        of_age = CITIZENS.replace('"score"\ntype = "int"', '"age"\ntype = "text"')
        self.refused(self.written("type.toml", of_age), "moved: another type: people.age")
        by_name = CITIZENS.replace('"hashed"\nkey', '"hashed"\nunique = true\nkey')
        self.refused(self.written("unique.toml", by_name), "moved: rows 1 and 3 have one key: people.by_name")
        of_two = CITIZENS.replace('name = "people"', 'name = "people"\nmax_rows = 2')
        self.refused(self.written("full.toml", of_two), "moved: too many rows: people")
        bad = self.written("bad.toml", "x = 1\n")
        self.refused(bad, f"schema: shape: {bad}")

    def test_open_sessions(self):
        with self.served(self.journal, self.old) as server, server.connect(10) as db:
            db.begin()
            db.insert({"text": "more"}, table="notes")
            db.push()
        self.refused(self.new, f"journal: sessions: {self.journal}")

    def test_a_journal_that_is_served(self):
        with self.served(self.journal, self.old):
            self.refused(self.new, f"journal: locked: {self.journal}")

    def test_words_that_go_together(self):
        usage = ("usage: --listen or --unix; or --rebase, or --rebase-to with --new-schema; rebases, --sync and --segment-bytes need --journal; "
                 "--sync is always, turn or never\n")
        to = ["--rebase-to", self.target, "--new-schema", self.new]
        journal = ["--journal", self.journal]
        for words in (to, [*journal, *to[:2]], [*journal, *to[2:]], [*journal, *to, "--rebase"], [*journal, *to, "--listen", "0"]):
            ran = subprocess.run([SERVICE, *words], capture_output=True, text=True, timeout=60)
            self.assertEqual((ran.returncode, ran.stdout, ran.stderr), (2, "", usage))


if __name__ == "__main__":
    unittest.main()
