#!/usr/bin/env python3
"""How many commands a second the program answers over a table of so many rows.

    bench.py [--rows N] [--program FILE]

The commands of a kind are written to standard input one behind another, and the time is taken until all their replies have
come. Those of a kind are written again and again, as many times as take half a second and more: they leave the table as it is. The
inserts fill it anew by a program of its own, until half a second has passed. How many lines that were and how long they took stands behind
the figure. It measures the program with its reading and writing, on this machine, now. The program that was compiled without proofs
checks each access as it runs, so its figures say little."""
import argparse
import json
import subprocess
import threading
import time
import typing

import program

LEAST = 0.5
"""Seconds that a figure stands on, at least."""
SPREAD = 10**9


def line(cmd, **members):
    return json.dumps({"cmd": cmd, **members}, separators=(",", ":"))


class Kind(typing.NamedTuple):
    """Its name, its lines, and what the reply to each holds."""

    name: str
    lines: typing.List[str]
    holds: bytes = b'"ok":true'


def row(n):
    return {"owner": f"owner {n}", "balance": n * 7919 % 1000, "vip": n % 3 == 0}


def counts(rows):
    """How many lines a kind has, and one that has pages."""
    count = max(12, min(1000, 100_000 // rows))
    return count, max(3, count // 30)


def balances_from(lower, **more):
    return line("range", index="by_balance", lower={"ge": [lower]}, **more)


def kinds(rows):
    """Each kind; but for the first, which fills the table, they leave it as it was."""
    count, pages = counts(rows)
    ids = [n * 31 % rows for n in range(count)]
    few, balances = ids[:pages], [row(it)["balance"] for it in ids]
    return [
        Kind("insert, from empty", [line("insert", row=row(n)) for n in range(rows)]),
        Kind("get", [line("get", id=it) for it in ids]),
        Kind("find, hashed", [line("find", index="by_owner", key=[f"owner {it}"]) for it in ids]),
        Kind("find, ranked", [line("find", index="by_balance", key=[it]) for it in balances]),
        Kind("count, ranked", [line("count", index="by_balance", key=[it]) for it in balances]),
        Kind("rank", [line("rank", index="by_balance", id=it) for it in ids]),
        Kind("nth", [line("nth", index="by_balance", n=it) for it in few]),
        Kind("range of 10", [balances_from(it, limit=10) for it in balances[:pages]]),
        Kind("range, bounded", [balances_from(it, upper={"lt": [it + 10]}) for it in balances[:pages]]),
        Kind("range, reversed", [line("range", index="by_balance", upper={"lt": [it]}, reverse=True, limit=10) for it in balances[:pages]]),
        Kind("list of 10", [line("list", index="line", after=it, limit=10) for it in ids]),
        Kind("modify", [line("modify", id=it, add={"balance": step}) for it in ids for step in (1, -1)]),
        Kind("start, undo", [line("start"), line("undo")] * (count // 2)),
        Kind("start, modify, undo", [line("start"), line("modify", id=0, add={"balance": 1}), line("undo")] * (count // 3)),
    ]


def spread_kinds(rows):
    """Those of a table whose balances are spread over a billion: the first fills it. A small number added moves no row there, and between two
    balances there is none."""
    count, _ = counts(rows)
    apart = SPREAD // rows
    ids = [n * 31 % rows for n in range(count)]
    there = [it * apart for it in ids]
    return [
        Kind("insert", [line("insert", row={**row(n), "balance": n * 7919 % rows * apart}) for n in range(rows)]),
        Kind("find, ranked, absent", [line("find", index="by_balance", key=[it + apart // 2]) for it in there], b'"error":"id"'),
        Kind("modify, keeps place", [line("modify", id=it, add={"balance": step}) for it in ids for step in (1, -1)]),
    ]


def seconds_of(ran, lines, holds):
    """The time until all these lines have their replies, each of which holds this."""
    whole = "".join(it + "\n" for it in lines).encode()
    began = time.monotonic()
    writing = threading.Thread(target=lambda: (ran.stdin.write(whole), ran.stdin.flush()))
    writing.start()
    for it in lines:
        reply = ran.stdout.readline()
        if holds not in reply:
            raise SystemExit(f"bench: {it} was answered {reply.decode()}")
    writing.join()
    return time.monotonic() - began


def started(path):
    return subprocess.Popen([path], stdin=subprocess.PIPE, stdout=subprocess.PIPE)


def filled(path, kind, least):
    """A program whose table these lines have filled. Answers it, and how many lines took how long, filling another until that is long enough."""
    asked, took = 0, 0.0
    while True:
        ran = started(path)
        took += seconds_of(ran, kind.lines, kind.holds)
        asked += len(kind.lines)
        if took >= least:
            return ran, asked, took
        with ran:
            ran.stdin.close()


def repeated(ran, kind):
    """How many lines took how long: these, as many times as take long enough at once."""
    times = 1
    while True:
        took = seconds_of(ran, kind.lines * times, kind.holds)
        if took >= LEAST:
            return len(kind.lines) * times, took
        times = max(times + 1, min(times * 10, int(1.2 * times * LEAST / took)))


def show(name, asked, took):
    print(f"  {name:20} {asked / took:12.0f}   {asked} lines in {took:.2f} s", flush=True)


def main():
    parser = argparse.ArgumentParser()
    parser.add_argument("--rows", type=int, default=1000)
    parser.add_argument("--program")
    options = parser.parse_args()
    path = options.program or program.program()
    print(f"{program.title(path)}, {options.rows} rows, commands a second:", flush=True)
    first, *others = kinds(options.rows)
    ran, asked, took = filled(path, first, LEAST)
    with ran:
        show(first.name, asked, took)
        for kind in others:
            show(kind.name, *repeated(ran, kind))
    first, *others = spread_kinds(options.rows)
    ran, _, _ = filled(path, first, 0)
    with ran:
        for kind in others:
            show(kind.name, *repeated(ran, kind))


if __name__ == "__main__":
    main()
