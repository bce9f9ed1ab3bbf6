"""Walks over many equal keys, counts between keys, windows by place, and the equals of a key."""
import unittest

import kit

from mi_client import NeedsSchema, Refused, Server, TooManyEqual

PLAYERS = """table = "player"
column = [{ name = "name", type = "text" }, { name = "score", type = "int" }, { name = "team", type = "text" }]
index = [
    { name = "by_score", kind = "ranked", key = ["-score"] },
    { name = "scores", kind = "ordered", key = ["-score"] },
    { name = "by_team", kind = "hashed", key = ["team"] },
    { name = "by_name", kind = "hashed", unique = true, key = ["name"] },
    { name = "teams", kind = "ordered", key = ["team", "-score"] },
    { name = "pair", kind = "hashed", key = ["score", "team"] },
    { name = "name_team", kind = "hashed", key = ["name", "team"] },
]
"""


class Walks(unittest.TestCase):
    def setUp(self) -> None:
        self.db = kit.start(self, PLAYERS)
        with self.db.pipeline() as ahead:
            for n in range(60):
                ahead.insert({"name": f"n{n}", "score": 500 if n % 2 else n, "team": "abc"[n % 3]})
        self.ids = [it["id"] for it in self.db.range("by_score").rows]

    def ids_of(self, rows: "object") -> "list[int]":
        return [it["id"] for it in rows]

    def test_half_of_all_are_equal(self) -> None:
        for page in [1, 2, 7, 29, 30, 31, 60]:
            self.assertEqual(self.ids_of(self.db.walk_range("by_score", page=page)), self.ids)
            self.assertEqual(self.ids_of(self.db.walk_range("by_score", reverse=True, page=page)), self.ids[::-1])
        bounds = {"lower": {"ge": [500]}, "upper": {"le": [40]}}
        want = self.ids_of(self.db.range("by_score", **bounds).rows)
        self.assertEqual(self.ids_of(self.db.walk_range("by_score", ["score"], page=4, **bounds)), want)

    def test_equals_beyond_a_page(self) -> None:
        self.assertEqual(self.ids_of(self.db.equal("by_score", [500], page=7)), self.ids[:30])
        self.assertEqual(sorted(self.ids_of(self.db.equal("by_team", ["a"], page=25))), [n for n in range(60) if n % 3 == 0])

    def test_what_others_change_behind_the_walk_shifts_nothing(self) -> None:
        walk = self.db.walk_range("by_score", page=3)
        given = [next(walk)["id"] for _ in range(10)]
        self.db.erase(given[0])
        self.db.modify(given[1], add={"score": 1})
        rest = [it["id"] for it in walk]
        self.assertEqual(given + rest, self.ids)

    def test_the_row_that_was_given_last_leaves_its_key(self) -> None:
        walk = self.db.walk_range("by_score", page=3)
        given = [next(walk)["id"] for _ in range(9)]
        self.db.erase(given[-1])
        self.assertEqual(given + [it["id"] for it in walk], self.ids)

    def test_the_row_that_was_given_last_is_put_ahead(self) -> None:
        walk = self.db.walk_range("by_score", lower={"ge": [10]}, page=1)
        given = next(walk)["id"]
        self.db.modify(given, add={"score": -1})
        self.assertEqual([given] + [it["id"] for it in walk], [10, 10, 8, 6, 4, 2, 0])

    def test_an_ordered_index_says_which_would_do(self) -> None:
        with self.assertRaisesRegex(TooManyEqual, "by_score is ranked by the same columns"):
            list(self.db.walk_range("scores", page=10))

    def test_count_range(self) -> None:
        db = self.db
        self.assertEqual(db.count_range("by_score", [58], [0]), 30)
        self.assertEqual(db.count_range("by_score", {"score": 500}, {"score": 58}), 31)
        self.assertEqual(db.count_range("by_score", [7], [7]), 0)
        for first, last in [([0], [58]), ([58], [500]), ([0], [500]), ([56], [58])]:
            with self.assertRaisesRegex(ValueError, "exchange the bounds"):
                db.count_range("by_score", first, last)
        self.assertEqual(db.count_range("by_score", [400], [450]), 0)
        with self.assertRaises(Refused) as caught:
            db.count_range("scores", [1], [0])
        self.assertEqual(caught.exception.word, "kind")

    def test_windows(self) -> None:
        found = self.db.window("by_score", 28, 5)
        self.assertEqual((found.place, self.ids_of(found.rows)), (28, self.ids[28:33]))
        self.assertEqual(self.ids_of(self.db.window("by_score", 58, 5).rows), self.ids[58:])
        self.assertEqual(self.db.window("by_score", 60, 5).rows, [])
        self.assertEqual(self.db.window("by_score", 3, 0).rows, [])
        self.assertRaises(ValueError, self.db.window, "by_score", -1, 5)
        with self.assertRaises(Refused):
            self.db.window("scores", 0, 5)

    def test_around(self) -> None:
        found = self.db.around(self.ids[30], 2)
        self.assertEqual((found.place, self.ids_of(found.rows)), (28, self.ids[28:33]))
        found = self.db.around(self.ids[1], 3, "by_score")
        self.assertEqual((found.place, self.ids_of(found.rows)), (0, self.ids[:5]))
        self.assertEqual(self.ids_of(self.db.around(self.ids[59], 1).rows), self.ids[58:])
        with self.assertRaises(Refused):
            self.db.around(99, 1)

    def test_equals(self) -> None:
        db = self.db
        of_a = [n for n in range(60) if n % 3 == 0]
        self.assertEqual(sorted(self.ids_of(db.equal("by_team", ["a"]))), of_a)
        self.assertEqual(sorted(self.ids_of(db.equal("teams", {"team": "a"}))), of_a)
        self.assertEqual(sorted(self.ids_of(db.equal("pair", [500, "a"]))), [n for n in of_a if n % 2])
        self.assertEqual(self.ids_of(db.equal("by_name", ["n7"])), [7])
        self.assertEqual(self.ids_of(db.equal("by_name", ["none"])), [])
        self.assertEqual(len(list(db.equal("by_score", [500]))), 30)
        with self.assertRaisesRegex(ValueError, "name_team is hashed and can't list its equals; an ordered index whose key begins with name, team can"):
            list(db.equal("name_team", ["n7", "b"]))

    def test_without_a_schema(self) -> None:
        with Server(kit.program()) as server:
            with server.connect(10) as db:
                db._dialect.schema = None
                for call in [lambda: list(db.walk_range("by_balance")), lambda: list(db.equal("by_vip", [True])), lambda: db.around(0, 1),
                             lambda: db.find("by_vip", {"vip": True})]:
                    self.assertRaises(NeedsSchema, call)
                self.assertEqual(list(db.walk_range("by_balance", ["balance"])), [])
                self.assertEqual(db.count_range("by_balance", [1], [2]), 0)


if __name__ == "__main__":
    unittest.main()
