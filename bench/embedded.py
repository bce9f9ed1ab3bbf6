#!/usr/bin/env python3
"""Nanoseconds or instructions a call in one process: the library beside Boost.MultiIndex's own calls, SQLite's prepared statements, and LMDB.

    embedded.py [--rows N[,N..]] [--calls N] [--rounds N] [--loops NAME[,NAME..]] [--instructions] [--library FOLDER | --peers] [--out FILE]

`embedded.cpp` has the loops, and each system a program of its own. Every system draws the same numbers, and the sums of what they saw must
agree. A figure is the least of the rounds, by processor time; with --instructions it is what callgrind counts in the loop, one round. The
library is that of `make lib`; --peers compares the others without it. What isn't installed is left out by its name. It prints a table, and
writes it as JSON where --out names a file."""
import argparse
import json
import os
import re
import subprocess
import sys

import build

sys.path.insert(0, f"{build.TOP}/scripts")

import library  # noqa: E402

SCHEMA = f"{build.FOLDER}/accounts.toml"
PROGRAMS = {"ours": "embedded_ours", "lines": "embedded_ours", "boost": "embedded_boost", "sqlite": "embedded_sqlite", "lmdb": "embedded_lmdb"}
"""For each system the program that has it."""
NAMES = {
    "get": "get", "find": "find an owner", "find_sorted": "find a balance, half absent", "count": "count a balance", "rank": "rank of a row",
    "nth": "nth row", "range": "range of ten", "between": "range, bounded on both sides", "below": "range of ten, reversed",
    "list": "list of ten", "modify": "modify a balance", "keep": "modify that keeps its place", "undone": "start, modify, undo",
    "squashed": "start, modify, squash", "sessions": "start, undo", "insert": "insert", "erase": "erase",
}
# (an insert and an erase come last, since the others are over as many rows as are asked for)
LOOPS = tuple(NAMES)
NOT_MADE = {("boost", "sessions"): "it has no sessions, and does nothing there"}
WALKS = {"sqlite": ("rank", "nth"), "lmdb": ("rank", "nth")}
"""What a system answers by walking over rows, as its class says too (`walks`)."""
LONGEST_RUN = 1800


def built(name, made):
    """The path of a program over the library in this folder; and why it is left out."""
    is_ours = name == "embedded_ours"
    if is_ours and not made:
        return None, "--peers"
    try:
        return build.peer(name, made if is_ours else None), None
    except build.Missing as why:
        return None, str(why)


def found_programs(options):
    """For each system its program; and why others are left out."""
    made = None if options.peers else library.needed(options.library)
    programs = {name: built(name, made) for name in dict.fromkeys(PROGRAMS.values())}
    found = {system: programs[name][0] for system, name in PROGRAMS.items() if programs[name][0]}
    left = {system: programs[name][1] for system, name in PROGRAMS.items() if programs[name][1]}
    return found, left


def answers(ran):
    """Of each loop what the program prints: the nanoseconds a call, the calls, and the sum."""
    return [(float(took), int(calls), int(seen)) for took, calls, seen in map(str.split, ran.stdout.splitlines())]


def timed(program, system, loops, rows, calls):
    """Of each loop the nanoseconds a call, and the sum of what was seen: one process makes all loops over one table."""
    ran = subprocess.run(
        [program, system, ",".join(loops), str(rows), str(calls), SCHEMA], capture_output=True, text=True, timeout=LONGEST_RUN, check=True)
    return [(took, seen) for took, _, seen in answers(ran)]


def counted(program, system, loops, rows, calls):
    """Of each loop the instructions a call, and the sum of what was seen: each loop in a process of its own."""
    words = ["valgrind", "--tool=callgrind", "--callgrind-out-file=/dev/null", "--collect-atstart=no", "--toggle-collect=measured"]
    figures = []
    for loop in loops:
        ran = subprocess.run(
            [*words, program, system, loop, str(rows), str(calls), SCHEMA], capture_output=True, text=True, timeout=LONGEST_RUN, check=True)
        said = re.search(r"Collected : (\d+)", ran.stderr)
        ((_, made, seen),) = answers(ran)
        figures.append((int(said.group(1)) / made, seen))
    return figures


def measured(programs, options, rows, loops):
    """Of each loop the least figure of each system."""
    measure = counted if options.instructions else timed
    least, sums = {it: {} for it in loops}, {it: {} for it in loops}
    systems = list(programs)
    for number in range(1 if options.instructions else options.rounds):
        # (the other way round in each second round)
        for system in systems if number % 2 == 0 else systems[::-1]:
            made = [it for it in loops if (system, it) not in NOT_MADE]
            for loop, (figure, seen) in zip(made, measure(programs[system], system, made, rows, options.calls)):
                least[loop][system] = min(figure, least[loop].get(system, figure))
                sums[loop].setdefault(seen, []).append(system)
    for loop in loops:
        if len(sums[loop]) > 1:
            sys.exit(f"embedded.py: {loop} at {rows} rows: not all saw the same: {sums[loop]}")
    return least


def options_of(words=None):
    parser = argparse.ArgumentParser(description=__doc__, formatter_class=argparse.RawDescriptionHelpFormatter)
    parser.add_argument("--rows", default="10000,100000,1000000")
    parser.add_argument("--calls", type=int, default=20_000, metavar="N")
    parser.add_argument("--rounds", type=int, default=3, metavar="N")
    parser.add_argument("--loops", default=",".join(LOOPS))
    parser.add_argument("--instructions", action="store_true")
    parser.add_argument("--library", metavar="FOLDER")
    parser.add_argument("--peers", action="store_true")
    parser.add_argument("--out", metavar="FILE")
    return parser.parse_args(words)


def notes(programs, left, loops):
    """What the table leaves out, or has otherwise, by name."""
    yield from (f"left out: {system}: {why}" for system, why in left.items())
    for (system, loop), why in NOT_MADE.items():
        if system in programs and loop in loops:
            yield f"{system} leaves out {NAMES[loop]}: {why}"
    for system, walked in WALKS.items():
        names = [NAMES[it] for it in walked if it in loops]
        if system in programs and names:
            yield f"{system} has no index that knows ranks, and walks over rows for {' and '.join(names)}: a hundredth of the calls"


def row(rows, loop, least, systems):
    figures = [f"{least[it]:,.0f}" if it in least else "-" for it in systems]
    ratio = f"{least['ours'] / least['boost']:.2f}" if "ours" in least and "boost" in least else "-"
    return f"| {rows:,} | {NAMES[loop]} | " + " | ".join([*figures, ratio]) + " |"


def main():
    options = options_of()
    programs, left = found_programs(options)
    loops = options.loops.split(",")
    unit = "instructions" if options.instructions else "nanoseconds"
    versions = dict.fromkeys(build.version([it, "--version"]) for it in programs.values())
    print(f"{unit} a call, {options.calls} calls: {', '.join(versions)}")
    for it in notes(programs, left, loops):
        print(f"- {it}")
    print("\n| Rows | Loop | " + " | ".join(programs) + " | ours through Boost's |\n|---|---|" + "---|" * (len(programs) + 1))
    found = []
    for rows in map(int, options.rows.split(",")):
        for loop, least in measured(programs, options, rows, loops).items():
            found.append({"rows": rows, "loop": loop, "unit": unit, **least})
            print(row(rows, loop, least, programs), flush=True)
    print("\nall saw the same in every round")
    if options.out:
        with open(options.out, "w", encoding="utf-8") as file:
            json.dump(found, file, indent=1)
    return 0


if __name__ == "__main__":
    sys.exit(main())
