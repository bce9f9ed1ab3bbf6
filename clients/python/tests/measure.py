#!/usr/bin/env python3
"""Measures inserts a second over a pipe: lines made beforehand, rows as dicts, and one by one.

    measure.py [--program FILE] [--rows N] [--rounds N]

Without --program it is the client alone, against `fake_server.py`, which answers every line at once."""
import argparse
import json
import os
import sys
import time
from typing import Any, Callable, Dict, List

HERE = os.path.dirname(os.path.realpath(__file__))
sys.path.insert(0, os.path.dirname(HERE))

from mi_client import Database  # noqa: E402


def row(n: int) -> Dict[str, Any]:
    return {"owner": f"owner{n}", "balance": n * 7919 % 100_000, "vip": n % 3 == 0}


def by_lines(db: Database, rows: List[Dict[str, Any]], lines: List[bytes]) -> None:
    for _ in db.ask_lines(lines):
        pass


def by_rows(db: Database, rows: List[Dict[str, Any]], lines: List[bytes]) -> None:
    with db.pipeline() as ahead:
        for it in rows:
            ahead.insert(it)


def in_ones(db: Database, rows: List[Dict[str, Any]], lines: List[bytes]) -> None:
    for it in rows:
        with db.pipeline() as ahead:
            ahead.insert(it)


def one_by_one(db: Database, rows: List[Dict[str, Any]], lines: List[bytes]) -> None:
    for it in rows:
        db.insert(it)


WAYS: Dict[str, Callable[..., None]] = {
    "lines made beforehand": by_lines, "rows as dicts": by_rows, "batches of one": in_ones, "one by one": one_by_one,
}


def main() -> None:
    parser = argparse.ArgumentParser()
    parser.add_argument("--program", default=f"{HERE}/fake_server.py")
    parser.add_argument("--rows", type=int, default=100_000)
    parser.add_argument("--rounds", type=int, default=5)
    options = parser.parse_args()
    rows = [row(n) for n in range(options.rows)]
    lines = [json.dumps({"cmd": "insert", "row": it}, separators=(",", ":")).encode() for it in rows]
    print(f"{'':24}{'a second':>12}{'of the client, us a row':>26}   (medians of {options.rounds} rounds, {options.rows:,} rows)")
    for name, way in WAYS.items():
        count = options.rows if way in (by_lines, by_rows) else min(options.rows, 10_000)
        walls, costs = [], []
        for _ in range(options.rounds):
            with Database.start(options.program) as db:
                wall, cost = time.perf_counter(), time.process_time()
                way(db, rows[:count], lines[:count])
                walls.append(time.perf_counter() - wall)
                costs.append(time.process_time() - cost)
        wall, cost = sorted(walls)[options.rounds // 2], sorted(costs)[options.rounds // 2]
        print(f"{name:24}{count / wall:12,.0f}{cost / count * 1e6:26.2f}", flush=True)


if __name__ == "__main__":
    main()
