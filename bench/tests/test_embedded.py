"""That each system of `embedded.py` sees in the loops what the definitions say: the sums are drawn and added up here a second time, over the
table of the reference."""
import os
import subprocess
import sys
import unittest

FOLDER = os.path.dirname(os.path.dirname(os.path.realpath(__file__)))
sys.path[:0] = [FOLDER, f"{os.path.dirname(FOLDER)}/scripts"]

import build  # noqa: E402
import embedded  # noqa: E402
import library  # noqa: E402
from stress.fuzz import ACCOUNTS  # noqa: E402
from reference import Reference  # noqa: E402

ROWS, CALLS = 30, 100
HIGHEST, SPREAD = 1000003, 10**9
BY_BALANCE, LINE = 2, 5
WHOLE = 2**64


class Random:
    def __init__(self, state):
        self.state = state

    def below(self, n):
        self.state = (self.state * 6364136223846793005 + 1442695040888963407) % WHOLE
        return (self.state >> 33) % n


class Model:
    """The table that `embedded.cpp` fills, and what its loops do to it and see of it."""

    def __init__(self, is_spread):
        self.server = Reference([ACCOUNTS])
        self.added, self.apart = 0, SPREAD // ROWS
        random = Random(1)
        if is_spread:
            places = list(range(ROWS))
            for n in range(ROWS, 1, -1):
                at = random.below(n)
                places[n - 1], places[at] = places[at], places[n - 1]
            for place in places:
                self.insert(place * self.apart, random)
        else:
            self.fill(ROWS, random)

    @property
    def table(self):
        return self.server.tables[0]

    def do(self, cmd, **members):
        return self.server.do(1, cmd, members)

    def insert(self, balance, random):
        row = {"owner": f"owner {self.added}", "balance": balance, "vip": random.below(10) < 3}
        self.do("insert", row=row)
        self.added += 1

    def fill(self, count, random):
        for _ in range(count):
            self.insert(random.below(HIGHEST), random)

    def page(self, found):
        sum = 0
        for it in found["rows"]:
            sum = (31 * sum + 7 * it["id"] + it["balance"] + it["vip"] + len(it["owner"])) % WHOLE
        return sum

    def ten_from(self, balance):
        return self.page(self.do("range", index="by_balance", lower={"ge": [balance]}, limit=10))

    def ten_behind(self, id):
        return self.page(self.do("list", index="line", after=id, limit=10))

    def between(self, draw):
        lower = draw.below(HIGHEST)
        upper = lower + 10 * HIGHEST // ROWS
        return self.page(self.do("range", index="by_balance", lower={"ge": [lower]}, upper={"lt": [upper]}, limit=64))

    def find_sorted(self, draw):
        place = draw.below(ROWS) * self.apart
        ids = self.table.of_key(BY_BALANCE, [place + draw.below(2) * (self.apart // 2)])
        return ids[0] if ids else -1

    def look_up(self, loop, draw):
        rows, view = self.table.rows, self.table.view
        return {
            "get": lambda: rows[draw.below(ROWS)][1],
            "find": lambda: self.do("find", index="by_owner", key=[f"owner {draw.below(ROWS)}"])["row"]["balance"],
            "find_sorted": lambda: self.find_sorted(draw),
            "count": lambda: self.do("count", index="by_balance", key=[draw.below(HIGHEST)])["count"],
            "rank": lambda: view(BY_BALANCE).index(draw.below(ROWS)),
            "nth": lambda: view(BY_BALANCE)[draw.below(ROWS)],
            "range": lambda: self.ten_from(draw.below(HIGHEST)),
            "between": lambda: self.between(draw),
            "below": lambda: self.page(self.do("range", index="by_balance", upper={"lt": [draw.below(HIGHEST)]}, reverse=True, limit=10)),
            "list": lambda: self.ten_behind(draw.below(ROWS)),
        }[loop]()

    def change(self, loop, draw):
        if loop in ("modify", "keep", "squashed"):
            for _ in range(CALLS):
                id = draw.below(ROWS)
                self.do("modify", id=id, add={"balance": draw.below(101) - 50})
        elif loop == "insert":
            self.fill(CALLS, draw)
        # (the others take back what they did)

    def checked(self):
        sum = 0
        for id in range(0, ROWS, ROWS // 100 + 1):
            balance = self.table.rows[id][1]
            sum = (31 * sum + balance) * 31 + self.ten_from(balance) + self.ten_behind(id)
        return sum


def wanted(loops):
    """The sum of each loop, over tables that the loops before it have left."""
    usual, spread = Model(False), Model(True)
    for loop in loops:
        model, draw, sum = spread if loop in ("find_sorted", "keep") else usual, Random(7), 0
        if loop in ("modify", "keep", "undone", "squashed", "sessions", "insert", "erase"):
            model.change(loop, draw)
        else:
            made = CALLS // 100 if loop in ("rank", "nth") else CALLS
            for _ in range(made):
                sum += model.look_up(loop, draw)
        yield (31 * sum + model.checked()) % WHOLE


class Loops(unittest.TestCase):
    @classmethod
    def setUpClass(cls):
        # (the second time over a table that was changed)
        cls.loops = [*embedded.LOOPS, "range", "below", "between", "list", "rank", "nth", "count"]
        cls.sums = list(wanted(cls.loops))

    def compare(self, system):
        made = library.path() if system in ("ours", "lines") else None
        if system in ("ours", "lines") and not made:
            self.skipTest("no library is built")
        try:
            program = build.peer(embedded.PROGRAMS[system], made)
        except build.Missing as why:
            self.skipTest(str(why))
        words = [program, system, ",".join(self.loops), str(ROWS), str(CALLS), embedded.SCHEMA]
        found = embedded.answers(subprocess.run(words, capture_output=True, text=True, check=True))
        for loop, (_, _, seen), sum in zip(self.loops, found, self.sums):
            self.assertEqual(seen, sum, (system, loop))
        self.assertEqual(len(found), len(self.loops))

    def test_ours(self):
        self.compare("ours")

    def test_lines(self):
        self.compare("lines")

    def test_boost(self):
        self.compare("boost")

    def test_sqlite(self):
        self.compare("sqlite")

    def test_lmdb(self):
        self.compare("lmdb")


class Tells(unittest.TestCase):
    def test_what_is_left_out_is_named(self):
        told = list(embedded.notes({"boost": "", "lmdb": ""}, {"sqlite": "not installed"}, embedded.LOOPS))
        self.assertEqual(told[0], "left out: sqlite: not installed")
        self.assertIn("boost leaves out start, undo", told[1])
        self.assertIn("lmdb has no index that knows ranks, and walks over rows for rank of a row and nth row", told[2])
        self.assertEqual(len(told), 3)

    def test_sums_that_differ_end_it(self):
        options = embedded.options_of(["--rounds", "1"])
        ours, other = embedded.timed, lambda program, system, loops, rows, calls: [(1.0, len(system)) for _ in loops]
        self.addCleanup(setattr, embedded, "timed", ours)
        embedded.timed = other
        with self.assertRaisesRegex(SystemExit, "get at 10 rows: not all saw the same"):
            embedded.measured({"boost": "", "lmdb": ""}, options, 10, ["get"])


if __name__ == "__main__":
    unittest.main()
