"""What the systems are asked. A workload is a list of units; each unit is a list of commands, as tuples, that go together.

Workloads leave the table as they found it, so that a slow system may do fewer units than the others and still agree with them
afterwards. Those that change it run inside an outer session (`within`), whose start and undo aren't timed, or undo what they
did, or take away what they added. One is over a table of its own (`TABLES`). The numbers are random, but the same in each run."""
import json
import random

TITLES = {
    "insert": "insert, from empty",
    "get": "get by id",
    "range10": "range of 10 rows",
    "range1000": "range of 1,000 rows",
    "between": "range, bounded on both sides",
    "below": "range, reversed",
    "rank": "rank of a record",
    "nth": "nth record",
    "find": "find, hashed text",
    "find_sorted": "find, sorted number",
    "count": "count of a key",
    "list": "list of 10 rows",
    "mix": "mix of changes",
    "undo": "start, 1,000 changes, undo",
    "nested": "1,000 nested sessions",
    "squash": "1,000 sessions squashed",
    "keep": "modify that keeps its place",
}
NAMES = list(TITLES)

EXPLAINED = {
    "insert": "each record of the table, outside of sessions",
    "get": "random ids",
    "range10": "`range` in `by_balance` from a random balance on, `limit` 10",
    "range1000": "the same with `limit` 1,000; a line is a page",
    "between": "`range` in `by_balance` from a random balance to less than 10 above: ten rows in the mean, and the upper bound ends the page",
    "below": "`range` in `by_balance` below a random balance, `reverse`, `limit` 10",
    "rank": "`rank` in `by_balance` of random ids",
    "nth": "`nth` in `by_balance` of random places",
    "find": "`find` in `by_owner` of random owners, all of which are there",
    "find_sorted": "`find` in `by_balance` of random balances, half of which no record has",
    "count": "`count` in `by_balance` of random balances, of which some have no record and some have several",
    "list": "`list` in `line` behind a random id, `limit` 10",
    "mix": "half adds to a balance; flags set, records replaced, inserted, erased and moved in the list, inside one open session",
    "undo": "a block: `start`, 1,000 changes of this mix, `undo`; all 1,002 lines count",
    "nested": "1,000 times `start` and an add to a balance, then 1,000 times `undo`; all 3,000 lines count",
    "squash": "1,000 times `start` and an add to a balance, then 999 times `squash` and one `undo`; all 3,000 lines count",
    "keep": "over a table whose balances are spread evenly over a billion: adds of -50 to 50 to random balances, outside of sessions;"
            " no record passes another one",
}

# How many units a round has at most, of how many commands.
UNITS = {
    "get": (100, 1000), "range10": (40, 500), "range1000": (30, 10), "between": (40, 500), "below": (40, 500), "rank": (100, 1000), "nth": (100, 1000),
    "find": (100, 1000), "find_sorted": (100, 1000), "count": (100, 1000), "list": (40, 500), "mix": (50, 1000), "undo": 20, "nested": 10, "squash": 10,
    "keep": (50, 1000),
}
DEEP = 1000
QUICK_UNITS = {
    "get": (2, 50), "range10": (2, 3), "range1000": (1, 1), "between": (2, 3), "below": (2, 3), "rank": (2, 10), "nth": (2, 10),
    "find": (2, 50), "find_sorted": (2, 50), "count": (2, 50), "list": (2, 3), "mix": (2, 50), "undo": 2, "nested": 1, "squash": 1,
    "keep": (2, 50),
}
QUICK_DEEP = 40
"""How many changes a block has, and how many sessions are nested."""
WIDTH = 10
"""How many balances a range has that is bounded on both sides."""
SPREAD = 10**9
MOST_ADDED = 50


class Workload:
    def __init__(self, name, units, within=False, table="usual"):
        self.name, self.units, self.within, self.table = name, units, within, table


def owner(n):
    return f"owner {n}"


def records(rows):
    """The inserts that fill the usual table; balances are such that some are equal."""
    pick = random.Random(rows)
    return [("insert", owner(n), pick.randrange(rows), pick.random() < 0.3) for n in range(rows)]


def spread_records(rows):
    """Those whose balances are as far apart as a billion has room for, in no order."""
    pick = random.Random(rows)
    places = pick.sample(range(rows), rows)
    return [("insert", owner(n), it * (SPREAD // rows), pick.random() < 0.3) for n, it in enumerate(places)]


TABLES = {"usual": records, "spread": spread_records}
"""What fills a table, by the name that a workload has for it."""


class Changes:
    """Changes of a table that has these rows, which all are accepted; half of the rows stay."""

    def __init__(self, rows, pick):
        self.rows, self.pick, self.erased, self.next_id = rows, pick, set(), rows

    def alive(self):
        while True:
            found = self.pick.randrange(self.rows)
            if found not in self.erased:
                return found

    def one(self):
        pick, id, kind = self.pick, self.alive(), self.pick.random()
        if kind < 0.50:
            return "add", id, pick.randint(-50, 50)
        if kind < 0.60:
            return "flag", id, pick.random() < 0.3
        if kind < 0.70:
            return "replace", id, f"renamed {id}", pick.randrange(self.rows), pick.random() < 0.3
        if kind < 0.85:
            self.next_id += 1
            return "insert", owner(self.next_id - 1), pick.randrange(self.rows), pick.random() < 0.3
        if kind < 0.90 and 2 * len(self.erased) < self.rows:
            self.erased.add(id)
            return "erase", id
        return "relocate", id, self.alive()


def block(rows, pick, deep):
    changes = Changes(rows, pick)
    return [("start",), *(changes.one() for _ in range(deep)), ("undo",)]


def sessions(rows, pick, deep, ends):
    return [it for _ in range(deep) for it in (("start",), ("add", pick.randrange(rows), pick.randint(1, 50)))] + ends


def between(balance):
    return "between", balance, balance + WIDTH


def balances(rows, pick):
    """Balances of the usual table, and such that no record has, by turns."""
    there = [balance for _, _, balance, _ in records(rows)]
    known = set(there)
    absent = [it for it in range(rows) if it not in known] or [rows]
    while True:
        yield pick.choice(there)
        yield pick.choice(absent)


def kept(rows, pick, size):
    """Adds after which each balance is what it was: half of them, and the same taken away in another order."""
    added = [(pick.randrange(rows), pick.randint(1, MOST_ADDED) * pick.choice((1, -1))) for _ in range(size // 2)]
    return [("add", *it) for it in added] + [("add", id, -more) for id, more in pick.sample(added, len(added))]


def all_of(rows, is_quick=False):
    """The workloads behind the inserts, in the order in which they are run."""
    # (the second draws what came later to the bench, so that the others are asked what they were before)
    pick, later = random.Random(rows + 1), random.Random(rows + 2)
    sizes, deep = (QUICK_UNITS, QUICK_DEEP) if is_quick else (UNITS, DEEP)

    def units(name, one):
        count, size = sizes[name]
        return Workload(name, [[one() for _ in range(size)] for _ in range(count)])

    yield units("get", lambda: ("get", pick.randrange(rows)))
    yield units("range10", lambda: ("range", pick.randrange(rows), 10))
    yield units("range1000", lambda: ("range", pick.randrange(rows), 1000))
    yield units("between", lambda: between(later.randrange(rows)))
    yield units("below", lambda: ("below", later.randrange(rows), 10))
    yield units("rank", lambda: ("rank", pick.randrange(rows)))
    yield units("nth", lambda: ("nth", later.randrange(rows)))
    yield units("find", lambda: ("find", owner(later.randrange(rows))))
    some = balances(rows, later)
    yield units("find_sorted", lambda: ("find_sorted", next(some)))
    yield units("count", lambda: ("count", later.randrange(rows)))
    yield units("list", lambda: ("list", later.randrange(rows), 10))
    mix = units("mix", Changes(rows, pick).one)
    mix.within = True
    yield mix
    yield Workload("undo", [block(rows, pick, deep) for _ in range(sizes["undo"])])
    yield Workload("nested", [sessions(rows, pick, deep, [("undo",)] * deep) for _ in range(sizes["nested"])])
    yield Workload("squash", [sessions(rows, pick, deep, [("squash",)] * (deep - 1) + [("undo",)]) for _ in range(sizes["squash"])])
    count, size = sizes["keep"]
    yield Workload("keep", [kept(rows, later, size) for _ in range(count)], table="spread")


def row(owner, balance, vip):
    return f'{{"owner":{json.dumps(owner)},"balance":{balance},"vip":{"true" if vip else "false"}}}'


LINES = {
    "insert": lambda *values: f'{{"cmd":"insert","row":{row(*values)}}}\n',
    "replace": lambda id, *values: f'{{"cmd":"replace","id":{id},"row":{row(*values)}}}\n',
    "add": lambda id, more: f'{{"cmd":"modify","id":{id},"add":{{"balance":{more}}}}}\n',
    "flag": lambda id, vip: f'{{"cmd":"modify","id":{id},"set":{{"vip":{"true" if vip else "false"}}}}}\n',
    "erase": lambda id: f'{{"cmd":"erase","id":{id}}}\n',
    "relocate": lambda id, before: f'{{"cmd":"relocate","index":"line","id":{id},"before":{before}}}\n',
    "get": lambda id: f'{{"cmd":"get","id":{id}}}\n',
    "range": lambda lower, limit: f'{{"cmd":"range","index":"by_balance","lower":{{"ge":[{lower}]}},"limit":{limit}}}\n',
    "between": lambda lower, upper: f'{{"cmd":"range","index":"by_balance","lower":{{"ge":[{lower}]}},"upper":{{"lt":[{upper}]}}}}\n',
    "below": lambda upper, limit: f'{{"cmd":"range","index":"by_balance","upper":{{"lt":[{upper}]}},"reverse":true,"limit":{limit}}}\n',
    "rank": lambda id: f'{{"cmd":"rank","index":"by_balance","id":{id}}}\n',
    "nth": lambda n: f'{{"cmd":"nth","index":"by_balance","n":{n}}}\n',
    "find": lambda owner: f'{{"cmd":"find","index":"by_owner","key":[{json.dumps(owner)}]}}\n',
    "find_sorted": lambda balance: f'{{"cmd":"find","index":"by_balance","key":[{balance}]}}\n',
    "count": lambda balance: f'{{"cmd":"count","index":"by_balance","key":[{balance}]}}\n',
    "list": lambda after, limit: f'{{"cmd":"list","index":"line","after":{after},"limit":{limit}}}\n',
    "start": lambda: '{"cmd":"start"}\n',
    "undo": lambda: '{"cmd":"undo"}\n',
    "squash": lambda: '{"cmd":"squash"}\n',
    "size": lambda: '{"cmd":"size"}\n',
}


def line(op):
    """A command as a line of JSON."""
    return LINES[op[0]](*op[1:])
