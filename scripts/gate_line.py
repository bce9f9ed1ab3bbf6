#!/usr/bin/env python3
"""The line of docs/TESTING.md that says of which tree the gate passed, made from the run itself.

    gate_line.py                    runs `rt ci` here, and puts the line in its place
    gate_line.py --log FILE --minutes N    takes a run that was made of this commit

It puts nothing where the gate fails, or where files of the repository differ from its last commit. The line names the commit of the run:
what is committed behind that run isn't in it."""
import argparse
import os
import re
import subprocess
import sys
import time

TOP = os.path.dirname(os.path.dirname(os.path.realpath(__file__)))
TESTING = f"{TOP}/docs/TESTING.md"
START = "**Last run.** "
PASSED = re.compile(r"^(\d+) passed, 0 failed$", re.M)
WELL = re.compile(r"^rt: ok; ", re.M)
KEPT = re.compile(r"^rt: ok; .*?\bdone in this run: (.*?); the others are kept from earlier runs", re.M)
REFUSED = re.compile(r"^rt: must-fail \S+: refused, as it must be", re.M)


class NoLine(Exception):
    """Why there is no line to be put."""


def asked(*words):
    return subprocess.run(words, cwd=TOP, capture_output=True, text=True, check=True).stdout.strip()


def commit():
    """The commit of what is here. `NoLine` where files differ from it."""
    if asked("git", "status", "--porcelain", "--untracked-files=no"):
        raise NoLine("files differ from the last commit, so the run would be of no commit")
    return asked("git", "rev-parse", "--short=12", "HEAD")


def machine():
    """How many processors, and of what kind."""
    with open("/proc/cpuinfo", encoding="utf-8") as file:
        kinds = re.findall(r"^model name\s*: (.*)$", file.read(), re.M)
    return f"{len(os.sched_getaffinity(0))} processors ({kinds[0] if kinds else 'of no name'})"


def line_of(log, of, on, minutes, day):
    """The line of a run with this output. `NoLine` where it didn't pass, or was no whole run."""
    passed = PASSED.findall(log)
    if not passed or not WELL.search(log):
        raise NoLine("the output is of no whole run that passed")
    kept = KEPT.search(log)
    done = f"Done in this run: {kept[1]}; earlier runs had done the others." if kept else "All was done in this run, from nothing."
    what = f"{passed[-1]} passed, 0 failed; {len(REFUSED.findall(log))} wrong bodies refused. {done}"
    return f"{START}{day}, commit `{of}`, {on}: {minutes:.0f} minutes. {what}"


def put(text, line):
    """A document with this line in the place of the one before. `NoLine` where it has none."""
    found = [n for n, it in enumerate(text.split("\n")) if it.startswith(START)]
    if len(found) != 1:
        raise NoLine(f"docs/TESTING.md has {len(found)} lines that begin with {START!r}, and not one")
    lines = text.split("\n")
    lines[found[0]] = line
    return "\n".join(lines)


def ran(words):
    """The output of a run, which is shown too, and its minutes."""
    began, lines = time.monotonic(), []
    with subprocess.Popen(words, cwd=TOP, stdout=subprocess.PIPE, stderr=subprocess.STDOUT, text=True) as running:
        for line in running.stdout:
            sys.stdout.write(line)
            lines.append(line)
    return "".join(lines), (time.monotonic() - began) / 60


def main(given=None):
    parser = argparse.ArgumentParser(description=__doc__, formatter_class=argparse.RawDescriptionHelpFormatter)
    parser.add_argument("--log", metavar="FILE")
    parser.add_argument("--minutes", type=float)
    options = parser.parse_args(given)
    if (options.log is None) != (options.minutes is None):
        parser.error("--log goes with --minutes")
    try:
        of = commit()
        if options.log:
            with open(options.log, encoding="utf-8", errors="replace") as file:
                log, minutes = file.read(), options.minutes
        else:
            log, minutes = ran(["rt", "ci"])
        line = line_of(log, of, machine(), minutes, time.strftime("%Y-%m-%d"))
        with open(TESTING, encoding="utf-8") as file:
            text = put(file.read(), line)
    except NoLine as why:
        print(f"gate_line.py: {why}", file=sys.stderr)
        return 1
    with open(TESTING, "w", encoding="utf-8") as file:
        file.write(text)
    print(line)
    return 0


if __name__ == "__main__":
    sys.exit(main())
