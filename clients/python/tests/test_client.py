"""The client against a real server, over pipes and over loopback: `python3 -m unittest discover clients/python/tests`.

The program is the one that `kit.py` finds."""
import threading
import unittest

import kit
from kit import ANN, BOB, program

from mi_client import Database, Ended, Refused, Server, TooManyEqual

MANY = """table = "many"
column = [{ name = "group", type = "int" }, { name = "name", type = "text" }]
index = [
    { name = "by_group", kind = "ordered", key = ["-group"] },
    { name = "line", kind = "sequenced" },
]
"""


class Commands:
    """Every call on one connection; the classes below open it in both ways."""

    def refused(self, word, call, *args, **members):
        with self.assertRaises(Refused) as caught:
            call(*args, **members)
        self.assertEqual(caught.exception.word, word)
        return caught.exception

    def test_changes_and_look_ups(self):
        db = self.db
        self.assertEqual(db.insert(ANN), 0)
        self.assertEqual(db.insert(BOB, before=("line", 0)), 1)
        self.assertEqual(db.get(0), {"id": 0, **ANN})
        self.assertEqual(db.find("by_owner", ["bob"])["id"], 1)
        self.assertEqual(db.nth("by_balance", 1)["id"], 0)
        self.assertEqual(db.count("by_vip", [True]), 1)
        self.assertEqual([it["id"] for it in db.list("line").rows], [1, 0])
        self.assertEqual([it["id"] for it in db.range("by_balance", upper={"lt": [50]}).rows], [1])
        self.assertEqual([it["id"] for it in db.range("by_balance", reverse=True, limit=1).rows], [0])
        self.assertTrue(db.range("by_balance", limit=1).more)
        self.assertEqual((db.rank("by_balance", 0), db.lower_rank("by_balance", [7]), db.upper_rank("by_balance", [7])), (1, 0, 1))
        self.assertEqual(db.count_range("by_balance", [8], [50]), 1)
        db.relocate("line", 1)
        self.assertEqual([it["id"] for it in db.list("line", after=0, limit=5).rows], [1])
        db.modify(0, set={"vip": True}, add={"balance": -1})
        db.replace(0, db.get(0))
        self.assertEqual(db.get(0), {"id": 0, "owner": "ann", "balance": 49, "vip": True})
        self.assertEqual(db.erase_key("by_vip", [True]), 2)
        self.assertEqual(db.size(table="accounts"), 0)
        db.erase(db.insert(ANN))

    def test_refusals_have_their_word(self):
        db = self.db
        db.insert(ANN)
        self.refused("id", db.get, 1)
        self.refused("row", db.insert, {"owner": "x"})
        self.refused("key", db.find, "by_owner", [1])
        self.refused("kind", db.rank, "by_class", 0)
        self.refused("index", db.count, "none", [])
        self.refused("table", db.size, table="none")
        self.refused("session", db.undo)
        self.refused("form", db.ask, "fly")
        self.assertEqual((self.refused("unique", db.insert, ANN).id), 0)
        db.insert(BOB)
        kept = self.refused("unique", db.modify, 1, set={"owner": "ann"})
        self.assertEqual((kept.index, kept.id, kept.lost), ("by_owner", 0, False))
        self.assertEqual(str(kept), "unique: record 0 has this key in by_owner")
        self.assertEqual(db.get(1)["owner"], "bob")
        self.assertTrue(self.refused("unique", db.modify, 1, set={"owner": "ann"}, rollback=False).lost)
        self.refused("id", db.get, 1)

    def test_sessions(self):
        db = self.db
        with db.session() as number:
            self.assertEqual(number, 1)
            db.insert(ANN)
            with self.assertRaises(KeyError):
                with db.session():
                    db.insert(BOB)
                    db.begin()
                    raise KeyError
            self.assertEqual(db.size(), 1)
        self.assertEqual(db.revision(), (0, 0, 0))
        self.assertEqual(db.get(0)["owner"], "ann")
        with db.session():
            db.begin()
            db.erase(0)
        self.assertEqual((db.size(), db.revision().depth), (0, 0))
        with db.session():
            db.commit(1)
        self.assertEqual((db.begin(), db.begin()), (2, 3))
        self.assertEqual((db.squash(), db.push(), db.undo_all()), (2, 1, 1))
        self.assertIsNone(db.reserve(3, 1))
        self.refused("form", db.reserve, 1_000_001, 1)

    def test_refused_session_blocks_are_undone(self):
        db = self.db
        with self.assertRaises(Refused):
            with db.session():
                db.insert(ANN)
                db.insert(ANN)
        self.assertEqual(db.size(), 0)

    def test_text_is_any_text(self):
        for owner in ["", "\u00e4\u6f22\U0001f600", "\x01\"\\\n\t", "\u2028", "x" * 1024]:
            id = self.db.insert({"owner": owner, "balance": -(2**63), "vip": False})
            self.assertEqual(self.db.get(id)["owner"], owner)
        self.refused("row", self.db.insert, {"owner": "x" * 1025, "balance": 0, "vip": False})
        self.refused("json", self.db.insert, {"owner": "\ud800", "balance": 0, "vip": False})
        self.refused("line", self.db.insert, {"owner": "x" * 70_000, "balance": 0, "vip": False})

    def test_lines(self):
        self.assertEqual(self.db.ask_line('{"cmd":"size"}'), '{"ok":true,"size":0}')
        for line in ["", "\r", '{"cmd":"size"}\n']:
            with self.assertRaises(ValueError):
                self.db.ask_line(line)
        self.db.pass_turn()
        self.assertEqual(self.db.size(), 0)
        self.db.close()
        self.db.close()
        self.assertRaises(Ended, self.db.size)


class OverPipes(Commands, unittest.TestCase):
    def setUp(self):
        self.db = Database.start(program())
        self.addCleanup(self.db.close)

    def test_a_server_that_ends_says_why(self):
        self.db._program.kill()
        with self.assertRaisesRegex(Ended, "^the server ended with status -9$"):
            self.db.size()
        with self.assertRaisesRegex(Ended, "status -9"):
            self.db.size()
        self.assertFalse(self.db.is_open)

    def test_whether_it_is_open(self):
        self.assertTrue(self.db.is_open)
        self.assertEqual((self.db.is_open, repr(self.db.is_open)), (True, "True"))
        self.db.close()
        self.assertFalse(self.db.is_open)
        with self.assertWarnsRegex(DeprecationWarning, "^is_open isn't called any more") as warned:
            self.assertIs(self.db.is_open(), False)
        self.assertEqual(warned.filename, __file__)

    def test_a_schema_that_is_not_there_fails_at_once(self):
        with self.assertRaisesRegex(Ended, "^the server ended with status 3: schema: file$"):
            Database.start(program(), schema="/no/such/file")
        with self.assertRaises(OSError):
            Database.start("/no/such/program")


class OverLoopback(Commands, unittest.TestCase):
    def setUp(self):
        self.server = Server(program())
        self.addCleanup(self.server.__exit__)
        self.db = self.server.connect(timeout=20)
        self.addCleanup(self.db.close)


class Walks(unittest.TestCase):
    """Walks over more rows than a page has, with pages of 10."""

    def setUp(self):
        self.db = kit.start(self, MANY)
        self.ids = [self.db.insert({"group": n // 4, "name": str(n)}) for n in range(40)]

    def test_a_list(self):
        self.assertEqual([it["id"] for it in self.db.walk_list("line", page=7)], self.ids)

    def test_a_range(self):
        want = [it["id"] for it in self.db.range("by_group").rows]
        for page in [5, 7, 10, 40, 41]:
            self.assertEqual([it["id"] for it in self.db.walk_range("by_group", ["-group"], page=page)], want)
            back = self.db.walk_range("by_group", ["-group"], reverse=True, page=page)
            self.assertEqual([it["id"] for it in back], want[::-1])
        bounds = {"lower": {"gt": [8]}, "upper": {"le": [2]}}
        want = [it["id"] for it in self.db.range("by_group", **bounds).rows]
        self.assertEqual([it["id"] for it in self.db.walk_range("by_group", ["group"], page=5, **bounds)], want)
        self.assertEqual([it["id"] for it in self.db.walk_range("id", ["id"], page=1)], self.ids)

    def test_as_many_equals_as_a_page_has(self):
        want = [it["id"] for it in self.db.range("by_group").rows]
        self.assertEqual([it["id"] for it in self.db.walk_range("by_group", ["group"], page=4)], want)
        with self.assertRaisesRegex(TooManyEqual, r"more than 3 records of by_group have the key \[9\]; an index of the kind `ranked` by group"):
            list(self.db.walk_range("by_group", ["group"], page=3))

    def test_an_empty_range(self):
        self.assertEqual(list(self.db.walk_range("by_group", ["group"], lower={"gt": [0]})), [])


class Several(unittest.TestCase):
    """Two connections, which the server reads by turns."""

    def test_holding(self):
        with Server(program(), clients=2) as server:
            first, second = server.connect(20), server.connect(20)
            self.assertEqual(first.begin(), 1)
            with self.assertRaises(Refused) as caught:
                second.insert(BOB)
            self.assertEqual(caught.exception.word, "busy")
            self.assertEqual(first.insert(ANN), 0)
            self.assertEqual(second.get(0)["owner"], "ann")
            first.pass_turn()
            self.assertEqual(second.revision(), (1, 1, 0))
            first.close()  # what it held is undone
            self.assertEqual(second.size(), 0)
            self.assertEqual(second.insert(BOB), 0)
            second.close()
            self.assertEqual(server.ended(), 0)

    def test_threads(self):
        done = []

        def add(db, name):
            with db:
                for n in range(50):
                    db.insert({"owner": f"{name}{n}", "balance": n, "vip": False})
            done.append(name)

        with Server(program(), clients=3) as server:
            dbs = [server.connect(20) for _ in range(3)]
            threads = [threading.Thread(target=add, args=it) for it in zip(dbs[:2], "ab")]
            for it in threads:
                it.start()
            with dbs[2] as db:
                while db.size() < 100:
                    pass
                self.assertEqual(db.count_range("by_balance", [10], [19]), 20)
            for it in threads:
                it.join(20)
            self.assertEqual((sorted(done), server.ended()), (["a", "b"], 0))

    def test_the_order_of_what_a_server_takes(self):
        path = kit.written(self, MANY)
        with Server(program(), path, 2) as server, server.connect(20) as first, server.connect(20) as second:
            self.assertEqual((first.schema.tables[0].name, first.size(), second.size()), ("many", 0, 0))
        old = [lambda: Server(program(), 1, path), lambda: Server(program(), 1, path, 5.0), lambda: Server(program(), 1, schema=path)]
        for server_of in old:
            with self.assertWarnsRegex(DeprecationWarning, "^the schema stands ahead of the number of clients") as warned:
                server = server_of()
            with server, server.connect(20) as db:
                self.assertEqual((db.schema.tables[0].name, db.size()), ("many", 0))
            self.assertEqual(warned.filename, __file__)
        self.assertRaises(TypeError, Server, program(), path, 1, clients=2)

    def test_no_server(self):
        with Server(program(), schema="/no/such/file") as server:
            with self.assertRaisesRegex(Ended, "schema: file"):
                server.connect()


if __name__ == "__main__":
    unittest.main()
