#!/usr/bin/env python3
"""What a call of the container costs, in nanoseconds of processor time, and how many bytes a record takes: the container of
`mi_multi` against a Boost.MultiIndex container with the same six indexes and a hash of the ids, where ours has pages of them.

    container.py [--rows N,N] [--calls N] [--rounds N] [--program FILE]

Both sides are programs that read workloads and run them in loops: the crate `mi_bench`, as it is proved and built, and
`container_peer.cpp`. They draw the same numbers, and what they answer is compared. A round starts both anew, one after the other,
the other one first in the next round; a figure is the median of the rounds, with the least and the greatest, and a ratio is taken
within a round."""
import argparse
import os
import statistics
import subprocess
import sys

import build

OURS = f"{build.TOP}/crates/mi_bench/out/mi_bench"
MOST_ROWS = 1_000_000
# What is done in a loop, and what the table calls it.
LOOPS = {"insert": "insert", "get": "get by id", "modify": "modify of a balance", "modify_back": "modify, taken back", "erase_back": "erase, taken back"}


class Side:
    """One of the two programs, at work."""

    def __init__(self, path):
        self.process = subprocess.Popen([path], stdin=subprocess.PIPE, stdout=subprocess.PIPE, text=True, bufsize=1)

    def ask(self, word, calls):
        """How many calls did something, and the sum of what they did."""
        self.process.stdin.write(f"{word} {calls}\n")
        answer = self.process.stdout.readline()
        if not answer:
            sys.exit(f"container: {self.process.args[0]} ended at {word} {calls}")
        count, total = answer.split()
        return int(count), int(total)

    def resident(self):
        """Bytes."""
        with open(f"/proc/{self.process.pid}/status", encoding="ascii") as file:
            return next(int(it.split()[1]) * 1024 for it in file if it.startswith("VmRSS"))

    def end(self):
        self.process.communicate()


def measured(path, rows, calls):
    """For each loop the nanoseconds a call, the bytes a record, and what the program answered."""
    side = Side(path)
    answers, found = [side.ask("prepare", rows)], {}
    before = side.resident()
    for word in LOOPS:
        answer = side.ask(word, calls)
        answers.append(answer)
        if answer[0] != (rows if word == "insert" else calls):
            sys.exit(f"container: {path} did {answer[0]} calls of {word}")
        found[word] = side.ask("clock", 0)[1] / answer[0]
        if word == "insert":
            found["bytes"] = (side.resident() - before) / rows
    answers.append(side.ask("digest", 0))
    side.end()
    return found, answers


def rounds(paths, rows, calls, count):
    """What each side took, round by round."""
    found = [[], []]
    for number in range(count):
        answers = [None, None]
        for at in (0, 1) if number % 2 == 0 else (1, 0):
            took, answers[at] = measured(paths[at], rows, calls)
            found[at].append(took)
        if answers[0] != answers[1]:
            sys.exit(f"container: the answers differ, {answers[0]} and {answers[1]}")
    return found


def shown(values, digits):
    return f"{statistics.median(values):,.{digits}f} ({min(values):,.{digits}f} to {max(values):,.{digits}f})"


def print_table(rows, calls, found):
    print(f"\n{rows:,} records, {calls:,} calls of each loop but the inserts, {len(found[0])} rounds\n")
    print("| Call | Weltiyo, ns | Boost, ns | Weltiyo / Boost |\n|---|---|---|---|")
    for word, name in [*LOOPS.items(), ("bytes", "bytes a record")]:
        ours, theirs = ([took[word] for took in side] for side in found)
        ratios = [a / b for a, b in zip(ours, theirs)]
        print(f"| {name} | {shown(ours, 0)} | {shown(theirs, 0)} | {shown(ratios, 2)} |", flush=True)


def main():
    parser = argparse.ArgumentParser()
    parser.add_argument("--rows", default="10000,1000000", help=f"sizes, each at most {MOST_ROWS:,}")
    parser.add_argument("--calls", type=int, default=1_000_000)
    parser.add_argument("--rounds", type=int, default=7)
    parser.add_argument("--program", default=OURS, help="another build of mi_bench")
    options = parser.parse_args()
    sizes = [int(it) for it in options.rows.split(",")]
    if not all(0 < it <= MOST_ROWS for it in sizes):
        parser.error(f"a table takes 1 to {MOST_ROWS:,} records")
    if not os.path.isfile(options.program):
        sys.exit(f"container: no {options.program}; prove and build it by `rt run` in crates/mi_bench")
    try:
        peer = build.peer("container_peer")
    except build.Missing as why:
        sys.exit(f"container: the Boost peer is {why}")
    load = os.getloadavg()[0]
    print(f"mi_bench and {build.version([peer, '--version'])}; load {load:.1f} at the start, {os.cpu_count()} processors")
    for rows in sizes:
        print_table(rows, options.calls, rounds([options.program, peer], rows, options.calls, options.rounds))
    print(f"\nload {os.getloadavg()[0]:.1f} at the end")


if __name__ == "__main__":
    main()
