#!/usr/bin/env python3
"""Compares the program with a Boost.MultiIndex container, SQLite and Redis: what each answers a second, and its memory.

    run.py [--rows N,N,..] [--rounds N] [--limit S] [--memory GB] [--clock wall|processor] [--program FILE] [--out FOLDER]
    run.py --quick      small, two rounds, below out/bench: that all answers agree, in seconds; its figures say nothing

A round starts a fresh process of each system, fills its table, and asks each workload of one system after the other, in an
order that moves on with the rounds and is turned round in every second one; a ratio is of one round. What takes less than
0.4 s is done again until it took so long together, the filling by a fresh process each time, 20 times at most; in front of
each workload but the filling a part of it is asked unmeasured. All replies are compared, byte for byte. What would take longer than the limit (a unit of a workload, or
filling the table) is left out, and the report says so. The report is results.md with
speed.svg, memory.svg and results.json below docs/bench."""
import argparse
import datetime
import hashlib
import os
import subprocess
import sys

import build
import check_peer
import report
import systems
import workloads

sys.path.insert(0, f"{build.TOP}/scripts")
import program  # noqa: E402

QUICK_ROWS, QUICK_UNPROVED_ROWS = 1000, 100
"""How many rows a quick run has; the program compiled without proofs, which checks each access as it runs, has fewer."""
QUICK_LIMIT = 10
WANTED_SECONDS = 1.0
"""A slow system does as many units of a workload as fit into this, and at least one."""
PROBE_SECONDS = 0.25
SHORTEST_SECONDS = 0.4
"""What takes less is done again, since a few milliseconds are chance."""
MOST_FILLS = 20


class Disagree(Exception):
    """Two systems answered a line differently."""


def found_systems(options, folder):
    """The systems, and why others are left out."""
    memory = int(options.memory * 1e9)
    path = options.program or program.program()
    ours = systems.LineSystem("Weltiyo", [path, "--schema", f"{build.FOLDER}/accounts.toml"], memory, program.title(path))
    found, left = [ours], []

    def add(name, make):
        try:
            found.append(make())
        except build.Missing as why:
            left.append(f"{name}: {why}")

    def peer(name, file):
        path = build.peer(file)
        return systems.LineSystem(name, [path], memory, build.version([path, "--version"]))

    def redis():
        path = build.redis_server()
        version = build.version([path, "--version"]).split(" sha=")[0]
        return systems.Redis("Redis", path, memory, version, folder)

    add("Boost", lambda: peer("Boost", "boost_peer"))
    add("SQLite", lambda: peer("SQLite", "sqlite_peer"))
    add("Redis", redis)
    return found, left


def together(asked):
    """Lines, seconds and seconds on a processor of all that was asked."""
    return tuple(map(sum, zip(*asked)))


class Cell:
    """One system on one workload: how many units it does, its rounds, or why it is left out."""

    def __init__(self):
        self.units, self.rounds, self.left_out = None, [], None


class Table:
    """All systems over one number of rows."""

    def __init__(self, rows, chosen, options):
        self.rows, self.systems, self.options = rows, chosen, options
        self.shortest = 0 if options.quick else SHORTEST_SECONDS
        self.records = {name: records(rows) for name, records in workloads.TABLES.items()}
        self.work = list(workloads.all_of(rows, options.quick))
        self.cells = {(name, it.name): Cell() for name in workloads.NAMES for it in chosen}
        self.known = {}
        self.encoded = {}
        self.bytes = {it.name: [] for it in chosen}
        # by which records each system's table is filled
        self.filled = {}

    def cell(self, system, name):
        return self.cells[name, system.name]

    def order(self, number):
        """Who is asked one after the other in a round."""
        first = number % len(self.systems)
        found = self.systems[first:] + self.systems[:first]
        return found if number % 2 == 0 else found[::-1]

    def run(self):
        for number in range(self.options.rounds):
            order = self.order(number)
            self.filled.clear()
            try:
                for system in order:
                    self.fill(system, "usual", True)
                for work in self.work:
                    for system in order:
                        self.measure(system, work)
            finally:
                for system in self.systems:
                    system.stop()
            print(f"  {self.rows} rows, round {number + 1} of {self.options.rounds}", file=sys.stderr, flush=True)

    def lines(self, system, key, ops):
        """The bytes of these commands, which are the same for all systems that read lines, and kept for the next round."""
        if not isinstance(system, systems.LineSystem):
            return system.encode(ops)
        if key not in self.encoded:
            self.encoded[key] = system.encode(ops)
        return self.encoded[key]

    def fill(self, system, table, is_timed):
        """Starts the system and inserts all records, again and again where that is short and timed; whether it is ready then."""
        cell, asked = self.cell(system, "insert"), []
        if cell.left_out:
            return False
        for _ in range(MOST_FILLS if is_timed else 1):
            filled = self.fill_anew(system, table, cell)
            if not filled:
                return False
            asked.append(filled[0])
            if together(asked)[1] >= self.shortest:
                break
        if is_timed:
            self.bytes[system.name].append(filled[1])
            cell.rounds.append(together(asked))
        self.filled[system.name] = table
        return True

    def fill_anew(self, system, table, cell):
        """What a fresh process took to insert all records, and the bytes that it grew by for each; None where it is left out."""
        system.stop()
        system.start()
        try:
            system.ask(system.encode([("size",)]), self.options.limit)
            before = system.process.resident()
            replies, seconds, busy = system.ask(self.lines(system, table, self.records[table]), self.options.limit)
        except systems.TooSlow as why:
            return self.leave_out(system, cell, f"{why.done:,} of {self.rows:,} inserts were done in {why.seconds:.0f} s")
        except (systems.Ended, OSError) as why:
            return self.leave_out(system, cell, str(why))
        # (the replies to inserts have ids alone, which are the same for every table)
        self.compare(system, "insert", replies)
        return (self.rows, seconds, busy), (system.process.resident() - before) / self.rows

    def leave_out(self, system, cell, why):
        cell.left_out = f"{why}, in round {len(cell.rounds) + 1}" if cell.rounds else why
        system.stop()
        self.filled.pop(system.name, None)

    def measure(self, system, work):
        cell = self.cell(system, work.name)
        if work.name not in system.knows:
            cell.left_out = report.NO_COMMAND
        if cell.left_out or (self.filled.get(system.name) != work.table and not self.fill(system, work.table, False)):
            return
        try:
            if cell.units is None:
                cell.units = self.fitting_units(system, work)
            self.ask(system, work, 0, max(1, cell.units // 4))
            cell.rounds.append(self.asked(system, work, cell.units))
        except systems.TooSlow as why:
            self.leave_out(system, cell, f"not done after {why.seconds:.0f} s")
        except (systems.Ended, OSError) as why:
            self.leave_out(system, cell, str(why))

    def fitting_units(self, system, work):
        """How many units fit into the wanted time."""
        count, size = 0, 1
        while count < len(work.units):
            _, seconds, _ = self.ask(system, work, 0, size)
            count = size
            if seconds > PROBE_SECONDS:
                return max(1, min(len(work.units), int(count * WANTED_SECONDS / seconds)))
            size = min(len(work.units), 4 * size)
        return count

    def asked(self, system, work, units):
        """Asks these units until that took long enough; lines, seconds, seconds on a processor, together."""
        asked = [self.ask(system, work, 0, units)]
        while together(asked)[1] < self.shortest:
            asked.append(self.ask(system, work, 0, units))
        return together(asked)

    def ask(self, system, work, first, last):
        """Asks these units, and compares the replies; lines, seconds, seconds on a processor."""
        ops = [it for unit in work.units[first:last] for it in unit]
        limit = self.options.limit
        if work.within:
            system.ask(system.encode([("start",)]), limit)
        replies, seconds, busy = system.ask(self.lines(system, (work.name, first, last), ops), limit)
        if work.within:
            system.ask(system.encode([("undo",)]), limit)
        self.compare(system, work.name, replies)
        return len(ops), seconds, busy

    def compare(self, system, name, replies):
        """The replies of a slow system are a front of those of a fast one."""
        by, known = self.known.get(name, (system, b""))
        common = min(len(known), len(replies))
        if known[:common] != replies[:common]:
            pairs = zip(known.splitlines(), replies.splitlines())
            number, (one, other) = next((n, pair) for n, pair in enumerate(pairs) if pair[0] != pair[1])
            raise Disagree(f"{name} over {self.rows} rows, line {number}:\n  {by.name}: {one[:300]}\n  {system.name}: {other[:300]}")
        if len(replies) > len(known):
            self.known[name] = (system, replies)


def machine():
    with open("/proc/cpuinfo", encoding="utf-8") as file:
        model = next((it.split(":")[1].strip() for it in file if it.startswith("model name")), "an unknown processor")
    return f"{model}, {len(os.sched_getaffinity(0))} cores, {os.sysconf('SC_PAGE_SIZE') * os.sysconf('SC_PHYS_PAGES') / 1e9:.0f} GB of memory"


def commit():
    said = subprocess.run(["git", "-C", build.TOP, "describe", "--always", "--dirty"], capture_output=True, text=True)
    return said.stdout.strip() or "unknown"


def digest(path):
    with open(path, "rb") as file:
        return hashlib.sha256(file.read()).hexdigest()[:16]


def gathered(table):
    """What the report is made of, as plain data."""
    cells = {}
    for (name, system), cell in table.cells.items():
        rounds = [{"lines": lines, "seconds": seconds, "on_processor": busy} for lines, seconds, busy in cell.rounds]
        cells.setdefault(name, {})[system] = {"rounds": rounds, "left_out": cell.left_out}
    return {"rows": table.rows, "cells": cells, "bytes": table.bytes}


def numbers_of_rows(options, ours):
    if options.rows:
        return [int(it) for it in options.rows.split(",")]
    if options.quick:
        return [QUICK_UNPROVED_ROWS if ours.words[0] == program.UNPROVED else QUICK_ROWS]
    return [10_000, 100_000, 1_000_000]


def words_of(line=None):
    parser = argparse.ArgumentParser()
    parser.add_argument("--rows")
    parser.add_argument("--rounds", type=int)
    parser.add_argument("--limit", type=float)
    parser.add_argument("--memory", type=float, default=6)
    parser.add_argument("--clock", choices=["wall", "processor"], default="wall")
    parser.add_argument("--program")
    parser.add_argument("--out")
    parser.add_argument("--quick", action="store_true")
    options = parser.parse_args(line)
    options.rounds = options.rounds or (2 if options.quick else 5)
    options.limit = options.limit or (QUICK_LIMIT if options.quick else 60)
    options.out = options.out or (f"{build.OUT}/quick" if options.quick else f"{build.TOP}/docs/bench")
    return options


def about_run(options, chosen, left):
    return {
        "date": datetime.date.today().isoformat(), "machine": machine(), "commit": commit(), "clock": options.clock, "rounds": options.rounds,
        "limit": options.limit, "memory": options.memory, "load": [os.getloadavg()[0]], "left_out": left, "quick": options.quick,
        "command": " ".join(["python3 bench/run.py", *sys.argv[1:]]),
        "systems": {it.name: it.about for it in chosen}, "program": digest(chosen[0].words[0]),
    }


def check_peers(chosen):
    """The peers, whose replies count as right, are asked what the reference answers."""
    for it in chosen[1:]:
        if it.name in check_peer.PEERS:
            compared = check_peer.check(it.name, it.words[0], 1, 5)
            print(f"{it.name} answers {sum(compared.values()):,} random lines as scripts/reference.py does", file=sys.stderr, flush=True)


def unmeasured(tables, name):
    """The cells in which this system was left out."""
    cells = [(it["rows"], key, cell[name]["left_out"]) for it in tables for key, cell in it["cells"].items()]
    return [f"{key} over {rows} rows: {why}" for rows, key, why in cells if why]


def main():
    options = words_of()
    os.makedirs(build.OUT, exist_ok=True)
    chosen, left = found_systems(options, build.OUT)
    for it in left:
        print(f"left out: {it}", file=sys.stderr)
    about = about_run(options, chosen, left)
    check_peers(chosen)
    tables = []
    try:
        for rows in numbers_of_rows(options, chosen[0]):
            table = Table(rows, chosen, options)
            table.run()
            tables.append(gathered(table))
            about["load"].append(os.getloadavg()[0])
    except Disagree as why:
        sys.exit(f"bench: {why}")
    report.write(options.out, about, tables)
    missing = unmeasured(tables, chosen[0].name)
    if options.quick and missing:
        sys.exit("bench: the program was left out: " + "; ".join(missing))
    if options.quick and len(chosen) == 1:
        sys.exit("bench: there was nothing to compare with")
    print(f"the answers of {', '.join(it.name for it in chosen)} agree; the report is {os.path.relpath(options.out)}/results.md")


if __name__ == "__main__":
    main()
