"""The reference against worked rows that were written down by hand, so that it isn't only as right as the server is."""
import json
import os
import sys
import unittest

TOP = os.path.dirname(os.path.dirname(os.path.dirname(os.path.realpath(__file__))))
sys.path.insert(0, f"{TOP}/scripts")

from stress.fuzz import ACCOUNTS  # noqa: E402
from reference import LAST, Index, Reference, Schema  # noqa: E402


class Rows(unittest.TestCase):
    def setUp(self):
        self.server = Reference([ACCOUNTS])

    def ask(self, cmd, connection=1, **members):
        line = json.dumps({"cmd": cmd, **members}).encode() + b"\n"
        return json.loads(self.server.feed(connection, line))

    def ins(self, owner, balance, vip, **members):
        return self.ask("insert", row={"owner": owner, "balance": balance, "vip": vip}, **members)

    def ids(self, cmd, index, **members):
        reply = self.ask(cmd, index=index, **members)
        return [it["id"] for it in reply["rows"]] if reply["ok"] else reply["error"]

    def word(self, reply):
        return reply.get("error", "ok")

    def three(self):
        for n, owner in enumerate("abc"):
            self.assertEqual(self.ins(owner, n + 1, False)["id"], n)

    def test_the_stored_run(self):
        with open(f"{TOP}/crates/mi_server/stdin", "rb") as file, open(f"{TOP}/crates/mi_server/stdout", "rb") as out:
            self.assertEqual(self.server.feed(1, file.read()) + self.server.close(1), out.read())

    def test_ranks_and_places(self):
        for n, (owner, vip) in enumerate([("a", False), ("b", False), ("c", True)]):
            self.assertEqual(self.ins(owner, 5, vip)["id"], n)
        self.assertEqual([self.ask("rank", index="by_balance", id=n)["rank"] for n in range(3)], [0, 1, 2])
        self.assertEqual(self.word(self.ask("nth", index="by_balance", n=3)), "id")
        self.assertEqual(self.ask("upper_rank", index="by_balance", key=[5])["rank"], 3)
        self.assertEqual(self.ids("range", "by_class"), [2, 0, 1])
        self.assertEqual(self.word(self.ask("lower_rank", index="by_class", key=[False])), "kind")
        self.ask("replace", id=0, row={"owner": "a", "balance": 5, "vip": True})
        self.assertEqual(self.ids("range", "by_balance"), [0, 1, 2])
        self.assertEqual(self.ask("find", index="by_vip", key=[True])["row"]["id"], 2)
        for balance in (6, 5):
            self.ask("replace", id=0, row={"owner": "a", "balance": balance, "vip": True})
        self.assertEqual((self.ids("range", "by_balance"), self.ids("range", "by_class")), ([1, 2, 0], [2, 0, 1]))

    def test_losing_modifies(self):
        self.three()
        kept = self.ask("modify", id=1, set={"owner": "a"}, rollback=True)
        self.assertEqual(kept, {"error": "unique", "id": 0, "index": "by_owner", "lost": False, "ok": False})
        self.ask("start")
        self.assertTrue(self.ask("modify", id=1, set={"owner": "a"})["lost"])
        self.assertEqual(self.ids("list", "line"), [0, 2])
        self.assertEqual(self.ask("undo")["revision"], 0)
        self.assertEqual((self.ids("list", "line"), self.ids("range", "by_class")), ([0, 1, 2], [0, 1, 2]))

    def test_relocations(self):
        self.three()
        for id, before, want in [(0, 0, [0, 1, 2]), (0, None, [1, 2, 0]), (2, 1, [2, 1, 0])]:
            self.ask("relocate", index="line", id=id, before=before)
            self.assertEqual(self.ids("list", "line"), want)
        self.assertEqual(self.word(self.ask("relocate", index="line", id=7, before=0)), "id")
        self.assertEqual(self.word(self.ask("relocate", index="by_vip", id=2, before=1)), "kind")

    def test_bounds_that_descend(self):
        for owner, balance, vip in [("a", 1, True), ("b", 2, False), ("c", 3, True)]:
            self.ins(owner, balance, vip)
        for members, want in [
            ({"lower": {"ge": [False]}}, [1]),
            ({"upper": {"le": [True]}}, [0, 2]),
            ({"upper": {"le": [True]}, "reverse": True}, [2, 0]),
            ({"lower": {"gt": [True, 1]}, "upper": {"lt": [False]}}, [2]),
            ({"lower": {"gt": [False]}, "upper": {"lt": [True]}}, []),
            ({"lower": {"ge": [1]}}, "key"),
        ]:
            self.assertEqual(self.ids("range", "by_class", **members), want)
        self.assertTrue(self.ask("range", index="by_class", lower={"ge": [True, 3]}, limit=1)["more"])

    def test_sessions(self):
        self.ins("a", 1, False)
        self.assertEqual(self.ask("start")["revision"], 1)
        self.ins("b", 1, False)
        self.assertEqual(self.ask("start")["revision"], 2)
        self.ask("modify", id=0, add={"balance": 4})
        self.assertEqual(self.ask("squash")["revision"], 1)
        self.assertEqual(self.ask("get", id=0)["row"]["balance"], 5)
        self.assertEqual(self.ask("undo")["revision"], 0)
        self.assertEqual((self.ask("get", id=0)["row"]["balance"], self.ask("size")["size"]), (1, 1))
        self.assertEqual(self.word(self.ask("undo")), "session")
        self.assertEqual(self.ins("b", 1, False)["id"], 1)

    def test_commits(self):
        self.ask("start")
        self.ins("a", 1, False)
        self.ask("start")
        self.ins("b", 2, False)
        self.assertEqual(self.ask("commit", revision=1), {"committed": 1, "ok": True})
        self.assertEqual(self.ask("revision"), {"depth": 1, "held": 1, "ok": True, "revision": 2})
        self.assertEqual((self.ask("undo")["revision"], self.ask("size")["size"]), (1, 1))
        self.assertEqual(self.ask("commit", revision=0)["committed"], 0)
        self.assertEqual(self.word(self.ask("undo")), "session")

    def test_holders(self):
        self.ins("a", 1, False)
        self.ask("start")
        self.ins("b", 2, False)
        self.assertEqual(self.word(self.ins("c", 3, False, connection=2)), "busy")
        self.assertEqual(self.word(self.ask("insert", connection=2)), "form")
        self.assertEqual(self.word(self.ask("erase_key", connection=2, index="none", key=[])), "busy")
        self.server.close(1)
        self.assertEqual(self.ins("c", 3, False, connection=2)["id"], 1)

    def test_lines(self):
        size = b'{"cmd":"size"}'
        self.assertEqual(self.server.feed(1, size + b" " * 65_522 + b"\n"), b'{"ok":true,"size":0}\n')
        self.assertEqual(self.server.feed(1, size + b" " * 65_523 + b"\n"), b'{"error":"line","ok":false}\n')
        self.assertEqual(self.server.feed(1, b"\n\r\n"), b"")
        for line, word in [(b'{"cmd":"undo"', "json"), (b"\xff", "json"), (b"[]", "form"), (b'{"cmd":"size","x":1}', "form"),
                           (b'{ "cmd" : "undo" }', "session")]:
            self.assertEqual(json.loads(self.server.feed(1, line + b"\n"))["error"], word)
        self.assertEqual(self.server.feed(1, b"[" * 1000 + b"]" * 1000 + b"\n"), b'{"error":"json","ok":false}\n')

    def test_counters_at_their_end(self):
        columns, indexes = ACCOUNTS.columns, ACCOUNTS.indexes[1:]
        self.server = Reference([Schema("accounts", columns, indexes, first_id=LAST - 1)])
        self.assertEqual((self.ins("a", 1, False)["id"], self.word(self.ins("b", 1, False))), (LAST - 1, "spent"))
        self.server = Reference([Schema("accounts", columns, indexes, first_arrival=LAST - 1)])
        self.assertEqual([self.word(self.ins("a", 1, False)) for _ in range(2)], ["ok", "spent"])
        self.assertEqual(self.word(self.ask("erase", id=0)), "ok")
        self.server = Reference([Schema("accounts", columns, indexes, max_rows=2)])
        self.assertEqual([self.word(self.ins(it, 1, False)) for it in "aba"], ["ok", "ok", "full"])
        self.server = Reference([ACCOUNTS], first_revision=LAST)
        self.assertEqual(self.word(self.ask("start")), "spent")

    def test_several_tables(self):
        ordered = Index("u", "ordered", [(0, False)], unique=True)
        self.server = Reference([Schema("a", [("k", "int")], [ordered]), Schema("b", [("t", "text")], [], max_rows=1, first_id=10)])
        self.assertEqual(self.ask("insert", row={"k": 5})["id"], 0)
        self.ask("start")
        self.assertEqual(self.ask("insert", table="b", row={"t": "x"})["id"], 10)
        self.assertEqual(self.word(self.ask("insert", table="b", row={"t": "y"})), "full")
        self.ask("replace", id=0, row={"k": 6})
        self.assertEqual(self.word(self.ask("insert", table="a", row={"k": 6})), "unique")
        for reply, word in [(self.ask("size", table="c"), "table"), (self.ask("range", table="b", index="u"), "index"), (self.ask("start", table="a"), "form")]:
            self.assertEqual(self.word(reply), word)
        self.assertEqual((self.ask("undo")["revision"], self.ask("get", id=0)["row"]), (0, {"id": 0, "k": 5}))
        self.assertEqual(self.ask("size", table="b")["size"], 0)


if __name__ == "__main__":
    unittest.main()
