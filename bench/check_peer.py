#!/usr/bin/env python3
"""The peers that read lines against the definitions as `scripts/reference.py` reads them: random lines, the same replies.

    check_peer.py [--seed N] [--cases N]

Lines that are malformed or that a peer doesn't serve are left out: it is measured on good ones. The Boost peer serves `SERVED_BY_BOOST`,
SQLite's the commands of the workloads. Each form of a look-up that a workload has must be among the compared ones."""
import argparse
import collections
import json
import subprocess
import sys

import build

sys.path.insert(0, f"{build.TOP}/scripts")
from stress.fuzz import ACCOUNTS, Lines  # noqa: E402
from reference import Reference  # noqa: E402

LINES = 300
SERVED_BY_BOOST = frozenset(
    "insert replace modify erase erase_key relocate start undo squash commit undo_all get find nth count range list rank lower_rank upper_rank size".split()
)
SERVED_BY_SQLITE = SERVED_BY_BOOST - {"commit", "erase_key", "lower_rank", "upper_rank"}
COMPARED = {"id", "unique", "range", "session", "depth"}
"""The refusals of good lines."""
FORMS = [
    "range from", "range between", "range below, reversed", "find by_owner", "find by_balance", "count by_owner", "count by_balance", "nth by_balance",
    "rank by_balance", "list", "list behind a row",
]
"""What `form` calls the look-ups that the workloads have."""


def served_by_boost(said):
    return said["cmd"] in SERVED_BY_BOOST


def served_by_sqlite(said):
    """Whether the peer has it: `Table` in `sqlite_peer.cpp` says so too."""
    cmd, index = said["cmd"], said.get("index")
    if cmd == "range":
        return form(said) in ("range from", "range between", "range below, reversed")
    if cmd in ("find", "count"):
        return index in ("by_owner", "by_balance")
    if cmd in ("rank", "nth"):
        return index == "by_balance"
    return cmd in SERVED_BY_SQLITE and not (cmd == "insert" and said.get("before"))


PEERS = {"Boost": ("boost_peer", served_by_boost), "SQLite": ("sqlite_peer", served_by_sqlite)}


def form(said):
    """What a line is called."""
    cmd, index = said["cmd"], said.get("index")
    if cmd == "list":
        return "list behind a row" if "after" in said else "list"
    if cmd != "range":
        return f"{cmd} {index}" if index else cmd
    bounds = [next(iter(said.get(it, {"": 0}))) for it in ("lower", "upper")]
    forms = {("ge", "", False): "range from", ("ge", "lt", False): "range between", ("", "lt", True): "range below, reversed"}
    return forms.get((*bounds, said.get("reverse", False)), "range") if index == "by_balance" else "range"


def case(seed, is_served):
    """Lines, the reference's replies to them, and what they are called."""
    made, reference, lines, replies, forms = Lines(seed), Reference([ACCOUNTS]), [], [], []
    while len(lines) < LINES:
        said = made.command([ACCOUNTS])
        said.pop("table", None)
        if not is_served(said):
            continue
        line = json.dumps(said, ensure_ascii=False).encode() + b"\n"
        reply = reference.feed(1, line)
        # (a refusal changes nothing, so that these may be left out)
        if json.loads(reply).get("error", "id") in COMPARED:
            lines.append(line)
            replies.append(reply)
            forms.append(form(said))
    return lines, replies, forms


def check(name, path, seed, cases):
    """How many lines of each form were compared; ends the program where a reply differs."""
    compared = collections.Counter()
    for number in range(seed, seed + cases):
        lines, replies, forms = case(number, PEERS[name][1])
        got = subprocess.run([path], input=b"".join(lines), stdout=subprocess.PIPE, check=True).stdout.splitlines(keepends=True)
        for at, (line, wanted) in enumerate(zip(lines, replies)):
            if at >= len(got) or got[at] != wanted:
                said = got[at] if at < len(got) else b"nothing"
                sys.exit(f"check_peer: {name}, seed {number}, line {at}: {line[:300]}\n  wanted {wanted[:300]}\n  got    {said[:300]}")
        compared.update(forms)
    return compared


def main():
    parser = argparse.ArgumentParser()
    parser.add_argument("--seed", type=int, default=1)
    parser.add_argument("--cases", type=int, default=30)
    options = parser.parse_args()
    for name, (file, _) in PEERS.items():
        try:
            path = build.peer(file)
        except build.Missing as why:
            print(f"left out: {name}: {why}")
            continue
        compared = check(name, path, options.seed, options.cases)
        print(f"{name} answered {sum(compared.values()):,} lines as the reference; of those that the workloads have: "
              + ", ".join(f"{it} {compared[it]:,}" for it in FORMS))
        missing = [it for it in FORMS if not compared[it]]
        if missing:
            sys.exit(f"check_peer: no line was compared of: {', '.join(missing)}; take more --cases")


if __name__ == "__main__":
    main()
