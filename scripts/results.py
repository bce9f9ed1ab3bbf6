#!/usr/bin/env python3
"""Keeps what long runs printed, each beside its command: docs/results.json, which no one writes by hand.

    results.py run NAME -- WORD..     runs the command at the top of the repository, and keeps it under this name in place of the run before
    results.py list                   the runs that are kept: name, day, commit, seconds, status, and the last line that each printed

Kept are the command, its status, how long it took, the last lines that it printed, the day, the commit, whether files differed from that, the
digests of the proved programs that were there, the processors, and how busy they were when it began. The status is the command's own."""
import argparse
import collections
import datetime
import hashlib
import json
import os
import shlex
import subprocess
import sys
import time

import program

FILE = f"{program.TOP}/docs/results.json"
MOST_LINES, LONGEST = 12, 300


def git(*words):
    return subprocess.run(("git", *words), cwd=program.TOP, capture_output=True, text=True, check=True).stdout.strip()


def digests():
    """Of each proved program that is there, the first half of its SHA-256."""
    found = {}
    for name in ("mi_server", "mi_service"):
        if os.path.isfile(path := program.proved(name)):
            with open(path, "rb") as file:
                found[name] = hashlib.sha256(file.read()).hexdigest()[:32]
    return found


def kept(path=FILE):
    """The runs by name."""
    if not os.path.exists(path):
        return {}
    with open(path, encoding="utf-8") as file:
        return json.load(file)


def keep(name, run, path=FILE):
    """Puts a run in the place of the one of its name. A file that breaks off leaves the one before."""
    runs = {**kept(path), name: run}
    with open(f"{path}.part", "w", encoding="utf-8") as file:
        json.dump(dict(sorted(runs.items())), file, indent=1, ensure_ascii=False)
        file.write("\n")
    os.replace(f"{path}.part", path)


def done(words):
    """Runs a command and says its lines as they come. The answer is what is kept of it."""
    began, last = time.monotonic(), collections.deque(maxlen=MOST_LINES)
    run = {
        "command": shlex.join(words),
        "day": datetime.date.today().isoformat(),
        "commit": git("rev-parse", "--short=12", "HEAD"),
        "differs": bool(git("status", "--porcelain", "--untracked-files=no")),
        "programs": digests(),
        "processors": len(os.sched_getaffinity(0)),
        "load": round(os.getloadavg()[0], 1),
    }
    with subprocess.Popen(words, cwd=program.TOP, stdout=subprocess.PIPE, stderr=subprocess.STDOUT, text=True, errors="replace") as running:
        for line in running.stdout:
            print(line, end="", flush=True)
            if line.strip():
                last.append(line.rstrip()[:LONGEST])
    return {**run, "seconds": round(time.monotonic() - began), "status": running.returncode, "printed": list(last)}


def main():
    parser = argparse.ArgumentParser(description=__doc__, formatter_class=argparse.RawDescriptionHelpFormatter)
    what = parser.add_subparsers(dest="what", required=True)
    run = what.add_parser("run")
    run.add_argument("name")
    run.add_argument("words", nargs="+", metavar="WORD")
    what.add_parser("list")
    options = parser.parse_args()
    if options.what == "list":
        for name, it in kept().items():
            print(f"{name}: {it['day']}, {it['commit']}{' and more' if it['differs'] else ''}, {it['seconds']} s, status {it['status']}: {it['printed'][-1]}")
        return 0
    result = done(options.words)
    keep(options.name, result)
    return result["status"]


if __name__ == "__main__":
    sys.exit(main())
