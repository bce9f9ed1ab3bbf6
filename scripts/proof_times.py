#!/usr/bin/env python3
"""How long each function of a crate takes to be proved, by what a check keeps.

    proof_times.py CRATE [--most N] [--folder DIR]

`rt check --jobs 1` keeps a file for each module that it has checked, in `crates/CRATE/out/incremental`, one behind the other. So the time
between two files is the later one's. Remove that folder first, else old files stand among new ones. What stands so for a function:

    Lts     its steps, as rattle makes them of its code; this grows with its blocks and with values that it holds by value
    Tie     that these steps are its code's
    Proof   its contract, by its answers and by tactics

FILE is a file of lemmas, `specs` what is defined and stated. `--folder` reads another folder that a check kept its work in."""
import argparse
import collections
import os
import re
import sys

TOP = os.path.dirname(os.path.dirname(os.path.realpath(__file__)))
MODULE = re.compile(r"Rattle-\w+?(-specs|-proofs)?\.(.*?)(?:\.decls)?\.oantt$")
PARTS = ("Tie", "Proof", "Answers", "Invariants", "Met", "Statement", "Code")


def part_of(name):
    """The function, file or group that a kept file is of, and the part of it that it is."""
    found = MODULE.match(name)
    if not found:
        return "other", ""
    if found[1] == "-specs":
        return "specs", ""
    inside, _, last = found[2].rpartition(".")
    if last.startswith("Lts"):
        return inside, "Lts"
    return (inside, last) if last in PARTS else (f"FILE {found[2]}", "")


def kept_files(folder):
    """The times and names of what a check has kept, in the order in which it did."""
    found = []
    for at, _, names in os.walk(folder):
        found += [(os.stat(f"{at}/{name}").st_mtime_ns / 1e9, name) for name in names if name.endswith(".oantt")]
    return sorted(found)


def times(files):
    """The seconds of each function, file or group, by its parts."""
    found = collections.defaultdict(collections.Counter)
    for (before, _), (after, name) in zip(files, files[1:]):
        of, part = part_of(name)
        found[of][part] += after - before
    return found


def table(found, most):
    """The dearest ones, a line each."""
    lines = [f"{sum(sum(it.values()) for it in found.values()):7.1f} in all"]
    for of, parts in sorted(found.items(), key=lambda it: -sum(it[1].values()))[:most]:
        each = " ".join(f"{part} {seconds:.1f}" for part, seconds in parts.most_common() if part and seconds >= 0.05)
        lines.append(f"{sum(parts.values()):7.1f} {of}  {each}".rstrip())
    return "\n".join(lines)


def main(given=None):
    parser = argparse.ArgumentParser(description=__doc__, formatter_class=argparse.RawDescriptionHelpFormatter)
    parser.add_argument("crate")
    parser.add_argument("--most", type=int, default=40)
    parser.add_argument("--folder")
    options = parser.parse_args(given)
    files = kept_files(options.folder or f"{TOP}/crates/{options.crate}/out/incremental")
    if len(files) < 2:
        print(f"proof_times.py: no check of {options.crate} has kept anything", file=sys.stderr)
        return 1
    print(table(times(files), options.most))
    return 0


if __name__ == "__main__":
    sys.exit(main())
