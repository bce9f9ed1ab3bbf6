"""Cursors over a database of this process: what each call finds beside what the lines answer, where the library is built; and over the library
that stands in for it, what is asked of which call."""
import random
import unittest

import kit
from kit import ANN, BOB
from test_embedded import needs_library

from mi_client import Embedded, Ended, Refused

EVE = {"owner": "eve, whose name is long", "balance": 7, "vip": False}

SORTED = ("id", "by_balance", "by_class")


def ids(walk):
    return [it.id for it in walk]


class OverOneThatStandsIn(unittest.TestCase):
    def setUp(self):
        self.db = Embedded.open(library_file=f"{kit.stand_in()}/libweltiyo.so")
        self.addCleanup(self.db.close)
        for row in (ANN, BOB, EVE):
            self.db.insert(row)

    def test_rows_one_at_a_time(self):
        at = self.db.seek("id", 1)
        self.assertEqual((at.id, at["owner"], at["balance"], at["vip"], at.rank()), (1, "bob", 7, True, 1))
        self.assertEqual((at.next().id, at.next().next(), at.back().id, at.back().back()), (2, None, 0, None))
        self.assertEqual((self.db.seek("id", 1, beyond=True).id, self.db.seek("id", 3)), (2, None))
        self.assertEqual((self.db.find_at("by_owner", "bob").id, self.db.find_at("by_owner", "nobody")), (1, None))
        self.assertEqual((self.db.first("id").id, self.db.last("id").id, self.db.of_id(2).id, self.db.of_id(3)), (0, 2, 2, None))
        self.assertEqual((ids(self.db.scan("id")), ids(self.db.scan("id", reverse=True))), ([0, 1, 2], [2, 1, 0]))
        self.assertRaises(KeyError, lambda: at["colour"])

    def test_on_its_thread_and_while_it_is_open(self):
        at = self.db.first("id")
        self.db.close()
        self.assertRaises(Ended, at.next)
        self.assertRaises(Ended, lambda: at["owner"])


@needs_library
class BesideLines(unittest.TestCase):
    def setUp(self):
        self.db = Embedded.open()
        self.addCleanup(self.db.close)
        for row in (ANN, BOB, EVE):
            self.db.insert(row)

    def test_each_call(self):
        db = self.db
        at = db.seek("by_balance", 7)
        self.assertEqual((at.id, at["owner"], at["balance"], at["vip"], at.rank(), at.is_there()), (1, "bob", 7, True, 0, True))
        self.assertEqual((at.next()["owner"], at.next().next()["balance"], at.next().next().next()), (EVE["owner"], 50, None))
        self.assertEqual((db.seek("by_balance", 7, beyond=True).id, db.seek("by_balance", {"balance": 8}).id, db.seek("by_balance", 51)), (0, 0, None))
        self.assertEqual((db.find_at("by_owner", EVE["owner"]).row(), db.find_at("by_owner", "nobody")), ({"id": 2, **EVE}, None))
        self.assertEqual((db.find_at("by_class", [True, 7]).id, db.find_at("by_class", {"vip": False}).id), (1, 2))
        self.assertEqual((db.at_rank("by_balance", 2).id, db.at_rank("by_balance", 3)), (0, None))
        self.assertEqual((ids(db.scan("line")), ids(db.scan("line", reverse=True)), db.first("line").id), ([0, 1, 2], [2, 1, 0], 0))
        self.assertEqual((db.first("by_class").id, db.last("by_class").id), (1, 0))

    def test_refusals_are_those_of_lines(self):
        db, at = self.db, self.db.last("id")
        for word, call in (
            ("index", lambda: db.seek("by_colour", 1)), ("kind", lambda: db.seek("by_owner", "ann")), ("key", lambda: db.seek("by_balance", "ann")),
            ("table", lambda: db.first("id", "sales")), ("kind", lambda: db.last("by_vip")), ("kind", lambda: db.at_rank("by_class", 0)),
            ("kind", lambda: db.find_at("line", 1)), ("kind", lambda: db.find_at("by_vip", True).next()), ("kind", lambda: db.first("line").rank()),
            ("key", lambda: db.scan("by_balance", {"ge": 1}, {"lt": "ann"})),
        ):
            with self.assertRaises(Refused) as refused:
                call()
            self.assertEqual(refused.exception.word, word)
        db.erase(at.id)
        self.assertFalse(at.is_there())
        for call in (at.next, at.back, at.row, at.rank, lambda: at["owner"]):
            with self.assertRaises(Refused) as refused:
                call()
            self.assertEqual(refused.exception.word, "id")

    def test_ranges(self):
        drawn, db = random.Random(7), self.db
        for n in range(60):
            db.insert({"owner": f"o{n}", "balance": drawn.randrange(12), "vip": drawn.random() < 0.5})
        for _ in range(400):
            index = drawn.choice(SORTED)

            def key():
                number = drawn.randrange(-1, 66 if index == "id" else 13)
                return [drawn.random() < 0.5, number][:drawn.randint(1, 2)] if index == "by_class" else [number]

            lower = drawn.choice([None, {drawn.choice(["ge", "gt"]): key()}])
            upper = drawn.choice([None, {drawn.choice(["le", "lt"]): key()}])
            is_reversed = drawn.random() < 0.5
            wanted = db.range(index, lower, upper, is_reversed).rows
            came = [{"id": it.id, **{name: it[name] for name in ANN}} for it in db.scan(index, lower, upper, is_reversed)]
            self.assertEqual(came, wanted, (index, lower, upper, is_reversed))

    def test_what_changes_meanwhile(self):
        walk = self.db.scan("by_balance")
        first = next(walk)
        self.db.modify(first.id, add={"balance": 100})  # (it is the last one now)
        self.assertEqual(ids(walk), [])
        walk = self.db.scan("by_balance")
        self.db.erase(next(walk).id)
        with self.assertRaises(Refused) as refused:
            next(walk)
        self.assertEqual(refused.exception.word, "id")

    def test_in_a_table_of_a_catalog(self):
        db = Embedded.open(f"{kit.TOP}/examples/shop.toml")
        self.addCleanup(db.close)
        self.assertIsNone(db.first("id", "sale"))
        self.assertEqual(ids(db.scan("id", table="sale")), [])

    def test_the_text_of_the_schema_opens_the_same_tables(self):
        with open(f"{kit.TOP}/examples/shop.toml", encoding="utf-8") as file:
            text = file.read()
        with Embedded.open(f"{kit.TOP}/examples/shop.toml") as db:
            self.assertEqual(db.schema_text(), text)
        with Embedded.open(kit.written(self, self.db.schema_text())) as db:
            self.assertEqual(db.schema.tables, self.db.schema.tables)
            self.assertEqual((db.schema_text(), db.insert(ANN)), (self.db.schema_text(), 0))


if __name__ == "__main__":
    unittest.main()
