"""That the workloads can be compared at all, and the arithmetic of the report."""
import collections
import importlib.util
import json
import os
import random
import subprocess
import sys
import tempfile
import unittest

FOLDER = os.path.dirname(os.path.dirname(os.path.realpath(__file__)))
sys.path[:0] = [FOLDER, f"{os.path.dirname(FOLDER)}/scripts"]

import build  # noqa: E402
import report  # noqa: E402
import run  # noqa: E402
import systems  # noqa: E402
import wire_count  # noqa: E402
import workloads  # noqa: E402
from stress.fuzz import ACCOUNTS  # noqa: E402
from reference import Reference  # noqa: E402

# (by its file: `import bench` may find the folder)
described = importlib.util.spec_from_file_location("lines_a_second", f"{build.TOP}/scripts/bench.py")
bench = importlib.util.module_from_spec(described)
described.loader.exec_module(bench)

ROWS = 60
LIMIT, MEMORY = 60, 1 << 32


class Containers(unittest.TestCase):
    def test_the_peer_answers_what_the_gate_wants_of_the_other(self):
        try:
            peer = build.peer("container_peer")
        except build.Missing as why:
            self.skipTest(str(why))
        with open(f"{build.TOP}/crates/mi_bench/stdin", encoding="ascii") as lines:
            answered = subprocess.run([peer], stdin=lines, capture_output=True, check=True).stdout
        with open(f"{build.TOP}/crates/mi_bench/stdout", "rb") as wanted:
            self.assertEqual(answered, wanted.read())


class Answers:
    """The reference over the table of a workload."""

    def __init__(self, table):
        self.server = Reference([ACCOUNTS])
        self.ask(workloads.TABLES[table](ROWS))

    @staticmethod
    def filling(records):
        return "".join(f'{{"id":{n},"ok":true}}\n' for n in range(len(records))).encode()

    def ask(self, ops):
        return b"".join(self.server.feed(1, workloads.line(it).encode()) for it in ops)

    def shown(self):
        """All that can be seen of the table: each order, and the next id."""
        table = self.server.tables[0]
        return [[(id, table.rows[id]) for id in table.view(x)] for x in range(6)], table.next, self.server.revision


class Workloads(unittest.TestCase):
    def setUp(self):
        self.over = {name: Answers(name) for name in workloads.TABLES}
        self.units = {it.name: it.units for it in workloads.all_of(ROWS, True)}

    def replies(self, name):
        """The lines of a workload over the usual table, with their replies."""
        ops = [it for unit in self.units[name] for it in unit]
        return [(op, json.loads(self.over["usual"].ask([op]))) for op in ops]

    def accepted(self, over, ops):
        for op in ops:
            reply = json.loads(over.ask([op]))
            # (of the sorted numbers half are absent)
            self.assertTrue(reply["ok"] or (op[0], reply["error"]) == ("find_sorted", "id"), (op, reply))

    def test_each_is_accepted_and_leaves_the_table_as_it_was(self):
        seen = ["insert"]
        for work in workloads.all_of(ROWS, True):
            over = self.over[work.table]
            before = over.shown()
            self.accepted(over, [("start",)] if work.within else [])
            for unit in work.units:
                self.accepted(over, unit)
                if not work.within:
                    self.assertEqual(over.shown(), before, work.name)
            self.accepted(over, [("undo",)] if work.within else [])
            self.assertEqual(over.shown(), before, work.name)
            seen.append(work.name)
        self.assertEqual(seen, workloads.NAMES)

    def test_each_has_a_title_an_explanation_and_sizes(self):
        self.assertEqual(list(workloads.EXPLAINED), workloads.NAMES)
        self.assertEqual([*workloads.UNITS], workloads.NAMES[1:])
        self.assertEqual([*workloads.QUICK_UNITS], workloads.NAMES[1:])

    def test_half_of_the_sorted_numbers_are_absent(self):
        found = [reply["ok"] for _, reply in self.replies("find_sorted")]
        self.assertEqual(sum(found), len(found) // 2)

    def test_the_upper_bound_ends_a_bounded_range(self):
        for (_, lower, upper), reply in self.replies("between"):
            wanted = sum(lower <= balance < upper for _, _, balance, _ in workloads.records(ROWS))
            self.assertEqual((len(reply["rows"]), reply["more"]), (wanted, False))

    def test_a_reversed_range_begins_below_its_bound(self):
        for (_, upper, _), reply in self.replies("below"):
            balances = [it["balance"] for it in reply["rows"]]
            wanted = sorted((balance for _, _, balance, _ in workloads.records(ROWS) if balance < upper), reverse=True)
            self.assertEqual(balances, wanted[:10])

    def test_what_keeps_its_place_passes_no_other_record(self):
        over = self.over["spread"]
        orders = [[id for id, _ in order] for order in over.shown()[0]]
        for unit in self.units["keep"]:
            for op in unit:
                self.accepted(over, [op])
                self.assertEqual([[id for id, _ in order] for order in over.shown()[0]], orders)

    def test_full_adds_are_too_small_to_pass_another_record(self):
        rows, size = 1_000_000, workloads.UNITS["keep"][1]
        for seed in range(50):
            unit, added = workloads.kept(rows, random.Random(seed), size), collections.Counter()
            for _, id, more in unit[:size // 2]:
                added[id] += abs(more)
            self.assertEqual(len(unit), size)
            self.assertLess(2 * max(added.values()), workloads.SPREAD // rows)

    def test_the_mix_has_each_kind_of_change(self):
        mix = next(it for it in workloads.all_of(10_000) if it.name == "mix")
        kinds = {op[0] for unit in mix.units for op in unit}
        self.assertEqual(kinds, {"add", "flag", "replace", "insert", "erase", "relocate"})

    def test_full_workloads_are_as_long_as_their_titles_say(self):
        units = {it.name: it.units[0] for it in workloads.all_of(10_000)}
        self.assertEqual([len(units[it]) for it in ("undo", "nested", "squash")], [1002, 3000, 3000])
        self.assertTrue(all(op[0] == "squash" for op in units["squash"][2000:2999]))


class Kinds(unittest.TestCase):
    """The lines of `scripts/wire_count.py` and `scripts/bench.py`, asked of the reference."""

    def filled(self, lines):
        server = Reference([ACCOUNTS])
        self.assertTrue(all(b'"ok":true' in it for it in self.asked(server, lines)))
        return server

    def asked(self, server, lines):
        return [server.feed(1, f"{it}\n".encode()) for it in lines]

    def order(self, server):
        return [server.tables[0].view(x) for x in range(6)]

    def test_wire_count_is_answered_what_it_waits_for(self):
        for kind in wire_count.kinds_over(ROWS):
            server = self.filled([wire_count.line("insert", row=wire_count.row(n, ROWS, kind.apart)) for n in range(ROWS)])
            before = self.order(server)
            replies = self.asked(server, [kind.nth(n) for n in range(ROWS)])
            self.assertTrue(all(kind.holds.encode() in it for it in replies), kind.name)
            if kind.name not in ("insert", "modify"):
                self.assertEqual(self.order(server), before, kind.name)

    def test_bench_is_answered_what_it_waits_for(self):
        for first, *others in (bench.kinds(ROWS), bench.spread_kinds(ROWS)):
            server = self.filled(first.lines)
            for kind in others:
                before = self.order(server)
                # (of pairs and of threes whole ones)
                self.assertTrue(all(kind.holds in it for it in self.asked(server, kind.lines[:60])), kind.name)
                if kind.name != "modify":
                    self.assertEqual(self.order(server), before, kind.name)


class Peers(unittest.TestCase):
    """That each system answers each workload that it knows as the reference does."""

    @classmethod
    def setUpClass(cls):
        over = {name: Answers(name) for name in workloads.TABLES}
        cls.wanted = []
        for work in workloads.all_of(ROWS, True):
            ops = [it for unit in work.units for it in unit]
            ops = [("start",), *ops, ("undo",)] if work.within else ops
            cls.wanted.append((work, ops, over[work.table].ask(ops)))

    def compare(self, system):
        filled = None
        self.addCleanup(system.stop)
        for work, ops, wanted in self.wanted:
            if work.name not in system.knows:
                continue
            if filled != work.table:
                filled = work.table
                system.stop()
                system.start()
                records = workloads.TABLES[filled](ROWS)
                self.assertEqual(system.ask(system.encode(records), LIMIT)[0], Answers.filling(records))
            self.assertEqual(system.ask(system.encode(ops), LIMIT)[0], wanted, (system.name, work.name))

    def peer(self, name):
        try:
            return systems.LineSystem(name, [build.peer(name)], MEMORY, "")
        except build.Missing as why:
            self.skipTest(str(why))

    def test_boost(self):
        self.compare(self.peer("boost_peer"))

    def test_sqlite(self):
        self.compare(self.peer("sqlite_peer"))

    def test_redis(self):
        try:
            path = build.redis_server()
        except build.Missing as why:
            self.skipTest(str(why))
        with tempfile.TemporaryDirectory(prefix="bench-") as folder:
            self.compare(systems.Redis("Redis", path, MEMORY, "", folder))


class Replies(unittest.TestCase):
    class Options:
        quick, rounds, limit = True, 1, 1

    def setUp(self):
        self.one, self.other = (systems.LineSystem(name, [], 0, "") for name in ("one", "other"))
        self.table = run.Table(ROWS, [self.one, self.other], self.Options)

    def test_a_front_of_the_replies_agrees(self):
        self.table.compare(self.one, "get", b"a\nb\n")
        self.table.compare(self.other, "get", b"a\n")
        self.table.compare(self.other, "get", b"a\nb\nc\n")

    def test_another_reply_is_found(self):
        self.table.compare(self.one, "get", b"a\nb\n")
        with self.assertRaisesRegex(run.Disagree, "(?s)line 1:.*one: b'b'.*other: b'c'"):
            self.table.compare(self.other, "get", b"a\nc\n")


class Redis(unittest.TestCase):
    def test_commands(self):
        self.assertEqual(systems.resp("GET", 12), b"*2\r\n$3\r\nGET\r\n$2\r\n12\r\n")

    def test_replies(self):
        read = b"*2\r\n$1\r\na\r\n$-1\r\n:7\r\n+OK\r\n$0\r\n\r\n"
        self.assertEqual(systems.all_resp(read), [[b"a", None], 7, b"OK", b""])
        with self.assertRaisesRegex(systems.Ended, "ERR no"):
            systems.all_resp(b"-ERR no\r\n")


class Report(unittest.TestCase):
    def test_figures(self):
        rows = [(1_234_567, "1.23M"), (45_678, "45.7k"), (999, "999"), (0.5, "0.5")]
        self.assertEqual([report.short(it) for it, _ in rows], [it for _, it in rows])
        self.assertEqual([report.quotient(it) for it in (1.256, 0.1, 0.000251)], ["1.26", "0.10", "0.0003"])
        self.assertEqual(report.with_spread([3.0, 1.0, 2.0]), "2 (1 to 3)")
        self.assertEqual(report.with_spread([]), "-")

    def test_a_ratio_is_of_one_round(self):
        ours = {"rounds": [{"lines": 10, "seconds": 1, "on_processor": 1}, {"lines": 10, "seconds": 4, "on_processor": 1}]}
        other = {"rounds": [{"lines": 10, "seconds": 2, "on_processor": 4}, {"lines": 20, "seconds": 4, "on_processor": 4}]}
        self.assertEqual(report.ratios({"clock": "wall"}, ours, other), [2.0, 0.5])
        self.assertEqual(report.ratios({"clock": "processor"}, ours, other), [4.0, 2.0])

    def test_growth_is_of_the_medians(self):
        def cell(*seconds):
            return {"rounds": [{"lines": 12, "seconds": it, "on_processor": it} for it in seconds], "left_out": None}

        tables = [{"rows": rows, "cells": {name: {"a": some} for name in workloads.NAMES}} for rows, some in ((10, cell(1, 2, 3)), (100, cell(4, 6, 12)))]
        lines = report.growth_table({"clock": "wall"}, tables, ["a"])
        self.assertIn("| get by id | 3.0 |", lines)
        tables[1]["cells"]["get"]["a"] = cell()
        self.assertIn("| get by id | - |", report.growth_table({"clock": "wall"}, tables, ["a"]))
        self.assertEqual(report.growth_table({"clock": "wall"}, tables[:1], ["a"]), [])

    def test_axes_are_logarithmic(self):
        axis = report.Axis([10, 1000], 0, 100)
        self.assertEqual([axis.at(it) for it in (10, 100, 1000)], [0, 50, 100])
        self.assertEqual(axis.ticks(), [10, 100, 1000])
        self.assertEqual(report.Axis([2, 3], 0, 100).ticks(), [1, 10])


if __name__ == "__main__":
    unittest.main()
