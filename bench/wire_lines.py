#!/usr/bin/env python3
"""What a line of each kind costs, in nanoseconds: the program against the Boost.MultiIndex peer, or against another build of
itself, in one run.

    wire_lines.py [--rows N] [--lines N] [--rounds N] [--clock wall|processor] [--program FILE] [--against FILE]

Both read the same lines of JSON and write the same replies, which are compared. A round asks one kind of one program after the
other; the figures are medians, with the least and the greatest. The commands do little, so that the reading of the line and the
writing of the reply show."""
import argparse
import json
import statistics
import sys

import build
import systems
import workloads

sys.path.insert(0, f"{build.TOP}/scripts")
import program  # noqa: E402

LIMIT = 120
MEMORY = 6e9


def text(**members):
    return json.dumps(members, separators=(",", ":")) + "\n"


def kinds(rows, count):
    """For each kind its lines; they leave the table as it was."""
    records = workloads.records(rows)
    spread = [n * 7919 % rows for n in range(count)]
    above = max(balance for _, _, balance, _ in records) + 1

    def page(lower):
        return text(cmd="range", index="by_balance", lower={"ge": [lower]}, limit=10)

    return {
        "undo, refused": [text(cmd="undo")] * count,
        "start and undo, nothing between": [text(cmd="start"), text(cmd="undo")] * (count // 2),
        "size": [text(cmd="size")] * count,
        "get, absent": [text(cmd="get", id=rows + n) for n in spread],
        "get": [text(cmd="get", id=n) for n in spread],
        "insert, refused as unique": [text(cmd="insert", row={"owner": records[n][1], "balance": 1, "vip": False}) for n in spread],
        "range, empty": [page(above)] * count,
        "range of 10 rows": [page(records[n][2]) for n in spread],
    }


class Program:
    def __init__(self, path, records):
        self.system = systems.LineSystem(path, [path], int(MEMORY), "")
        self.system.start()
        self.replies = self.ask([workloads.line(it) for it in records])[0]

    def ask(self, lines):
        return self.system.ask(("".join(lines).encode(), len(lines)), LIMIT)

    def fitting(self, lines):
        """As many of the lines as take no more than some seconds."""
        few = lines[:20]
        seconds = self.ask(few)[1] / len(few)
        return max(20, min(len(lines), int(3 / seconds)) // 2 * 2)


def shown(values):
    return f"{statistics.median(values):,.0f} ({min(values):,.0f} to {max(values):,.0f})"


def ratio(values):
    return f"{statistics.median(values):.2g} ({min(values):.2g} to {max(values):.2g})"


def measure(both, lines, rounds, clock):
    """Nanoseconds a line of both programs, of each round."""
    counts = [it.fitting(lines) for it in both]
    found = [[], []]
    for number in range(rounds):
        replies = [None, None]
        for at in (0, 1) if number % 2 == 0 else (1, 0):
            replies[at], seconds, busy = both[at].ask(lines[:counts[at]])
            found[at].append((seconds if clock == "wall" else busy) / counts[at] * 1e9)
        common = min(map(len, replies))
        if replies[0][:common] != replies[1][:common]:
            sys.exit(f"wire_lines: {lines[0]} is answered differently")
    return found


def main():
    parser = argparse.ArgumentParser()
    parser.add_argument("--rows", type=int, default=10_000)
    parser.add_argument("--lines", type=int, default=50_000)
    parser.add_argument("--rounds", type=int, default=7)
    parser.add_argument("--clock", choices=["wall", "processor"], default="processor")
    parser.add_argument("--program")
    parser.add_argument("--against", metavar="FILE", help="another build of the program, in place of the peer")
    options = parser.parse_args()
    path = options.program or program.program()
    try:
        peer = options.against or build.peer("boost_peer")
    except build.Missing as why:
        sys.exit(f"wire_lines: the Boost peer is {why}")
    title, column = (options.against, "the other") if options.against else (build.version([peer, "--version"]), "Boost")
    records = workloads.records(options.rows)
    both = []
    try:
        for it in (path, peer):
            both.append(Program(it, records))
        print(f"{program.title(path)} and {title}, {options.rows:,} records, {options.rounds} rounds\n")
        print(f"| Line | Weltiyo, ns | {column}, ns | {column} / Weltiyo |\n|---|---|---|---|")
        for name, lines in kinds(options.rows, options.lines).items():
            ours, theirs = measure(both, lines, options.rounds, options.clock)
            quotients = [b / a for a, b in zip(ours, theirs)]
            print(f"| {name} | {shown(ours)} | {shown(theirs)} | {ratio(quotients)} |", flush=True)
    finally:
        for it in both:
            it.system.stop()


if __name__ == "__main__":
    main()
