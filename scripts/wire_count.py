#!/usr/bin/env python3
"""How many instructions and allocations the program takes for a line, by kinds of lines; and where they go.

    wire_count.py [--program FILE] [--lines N] [--rows N] [--kind WORDS] [--stages]

Each kind is run twice under callgrind, with N lines behind what fills the table, and with 2 N. The difference of the two runs,
by N, is what one line takes: no start, no table filled, no end. So it says the same on a machine that is busy. Allocations are
the calls that ask for memory or for more of it.

--stages says in which part of the work the instructions are, by the names of functions (STAGES below): each function's own
instructions count for its stage; those of a helper that many share, as a slice's, count for the stages of its callers, in the shares
of what they spend in it. Copying and clearing of memory, and its allocation, are stages by themselves wherever they are. What is
spent inside the look for a conflict is counted in two runs more, and taken from the other stages. A function that the compiler has
put into its caller counts as its caller, so a stage of few instructions may show as none. --kind takes the kinds whose names have
these words, and names each stage's dearest functions too.

It needs valgrind and strip (valgrind can't read the program's debugging notes, so a copy without them is run), and the proved
program: one that was compiled without proofs can't be run under valgrind."""
import argparse
import functools
import json
import os
import re
import subprocess
import tempfile
import typing
from collections import defaultdict

import program

ROWS = 100
SPREAD = 10**9


def line(cmd, **members):
    return json.dumps({"cmd": cmd, **members}, separators=(",", ":"))


def row(n, rows, apart=1):
    return {"owner": f"owner {n}", "balance": n * 79 % rows * apart, "vip": n % 3 == 0}


class Kind(typing.NamedTuple):
    """Its name, the n-th of its lines, what the last reply holds, and how far apart the balances of the table are."""

    name: str
    nth: typing.Callable[[int], str]
    holds: str
    apart: int = 1


def ranges_over(rows):
    """Pages, each as one line."""
    of = functools.partial(line, "range", index="by_balance")
    return [
        ("range, empty", of(lower={"ge": [rows + 7]}, limit=10), '"rows":[]'),
        ("range of 10", of(lower={"ge": [7]}, limit=10), '"rows":[{'),
        ("range of 1,000", of(lower={"ge": [7]}, limit=1000), '"rows":[{'),
        ("range, bounded", of(lower={"ge": [7]}, upper={"lt": [17]}), '"more":false,"ok":true,"rows":[{'),
        ("range, reversed", of(upper={"lt": [rows - 7]}, reverse=True, limit=10), '"rows":[{'),
        ("list of 10", line("list", index="line", after=7, limit=10), '"rows":[{'),
    ]


def kinds_over(rows):
    """Each kind. But for the inserts they leave the table as it was, or change what stands elsewhere in it."""
    same = [
        ("undo, refused", line("undo"), '"session"'),
        ("size", line("size"), '"size"'),
        ("get, absent", line("get", id=rows + 7), '"id"'),
        ("get, a row", line("get", id=7), '"row"'),
        ("find, hashed", line("find", index="by_owner", key=["owner 7"]), '"row"'),
        ("rank", line("rank", index="by_balance", id=7), '"rank"'),
        ("nth, refused", line("nth", index="by_balance", n=rows + 7), '"id"'),
        ("nth, a row", line("nth", index="by_balance", n=7), '"row"'),
        ("count", line("count", index="by_balance", key=[7]), '"count"'),
        ("insert, unique", line("insert", row=row(7, rows)), '"unique"'),
        *ranges_over(rows),
    ]
    found = [Kind(name, lambda _, it=it: it, holds) for name, it, holds in same]
    changed = ("start", "modify", "undo")
    return found + [
        Kind("insert", lambda n: line("insert", row={"owner": f"new {n}", "balance": n * 61 % rows, "vip": n % 2 == 0}), '"ok":true'),
        Kind("modify", lambda n: line("modify", id=n * 31 % rows, add={"balance": 1 + n % 5}), '"ok":true'),
        Kind("modify and back", lambda n: line(changed[n % 3], **({"id": n * 31 % rows, "add": {"balance": 9}} if n % 3 == 1 else {})), '"ok":true'),
        *spread_over(rows),
    ]


def spread_over(rows):
    """Those over balances that are spread over a billion: a small number added moves no row, and between two balances there is none."""
    apart = SPREAD // rows

    def find(n, beside):
        return line("find", index="by_balance", key=[n * 31 % rows * apart + beside])

    return [
        Kind("find, sorted", lambda n: find(n, 0), '"row"', apart),
        Kind("find, sorted, absent", lambda n: find(n, apart // 2), '"error":"id"', apart),
        Kind("modify, keeps place", lambda n: line("modify", id=n * 31 % rows, add={"balance": 1 + n % 5}), '"ok":true', apart),
    ]


# Stages, each with patterns of names; the first that fits counts. What fits none is a helper, and counts for its callers.
STAGES = [
    ("memory", r"rattle_(alloc|realloc|dealloc)$|(_int_|__libc_)?(malloc|free|realloc|calloc)\b|malloc_consolidate|unlink_chunk|sysmalloc|std_heap::"),
    ("moves", r"(__)?(mem(cpy|move|set|pcpy)|bcopy|bzero)(_|$)"),
    ("reply", r"mi_protocol::reply|mi_rows::|mi_print::|mi_hub::send|mi_program::buffered|itoa::"),
    ("reading", r"mi_request::|mi_tokens::|serde_json::|json::|simdutf8::|fast_float::|bumpalo::|mi_hub::line"),
    ("binding", r"mi_protocol::|mi_catalog::"),
    ("conflicts", r"mi_multi::conflicts"),
    ("trees", r"mi_tree::|mi_index::\w+::\w*tree\w*"),
    ("chains", r"mi_chain::|mi_index::\w+::\w*chains?\w*|core::hash::|mi_order::\w*hash|siphasher|SipHash"),
    ("list", r"mi_list::|mi_index::\w+::\w*list\w*"),
    ("ids", r"mi_ids::|indexmap::"),
    ("journal", r"mi_journal::|mi_database::"),
    ("container", r"mi_multi::|mi_index::|mi_node::|mi_container::|mi_order::|mi_value::"),
    ("commands", r"mi_commands::|mi_query::|mi_hub::|mi_program::|mi_server::"),
]
NAMES = [name for name, _ in STAGES] + ["other"]
CONFLICTS = "mi_multi::conflicts::*"


def stage_of(function):
    """The stage of a function by its path: what stands behind `::<` are its types."""
    path = function.split("::<")[0]
    return next((name for name, pattern in STAGES if re.match(pattern, path)), None)


class Profile:
    """What callgrind has written of a run: the own instructions of each function, and for each caller and callee the calls and the
    instructions spent in them."""

    def __init__(self, text):
        self.own, self.calls, self.spent = defaultdict(int), defaultdict(int), defaultdict(int)
        names, function, callee = {}, None, None
        for it in text.splitlines():
            named = re.match(r"(c?)fn=\((\d+)\)(?: (.*))?", it)
            if named:
                names.setdefault(named[2], named[3])
                if named[1]:
                    callee = names[named[2]]
                else:
                    function, callee = names[named[2]], None
            elif it.startswith("calls="):
                self.calls[function, callee] += int(it[6:].split()[0])
            elif re.match(r"[0-9+*-]", it) and function is not None:
                cost = int((it.split() + ["0"])[1])
                if callee is None:
                    self.own[function] += cost
                else:
                    self.spent[function, callee] += cost
                    callee = None
        self.total = sum(self.own.values())

    def called(self, names):
        """How often functions of these names were called."""
        return sum(count for (_, callee), count in self.calls.items() if callee in names)

    def less(self, other, by):
        """What this run has more than another, by so many."""
        made = Profile("")
        for mine, theirs, into in ((self.own, other.own, made.own), (self.calls, other.calls, made.calls), (self.spent, other.spent, made.spent)):
            into.update({name: (mine[name] - theirs.get(name, 0)) / by for name in mine})
        made.total = sum(made.own.values())
        return made


ROUNDS = 30
"""How often shares are handed on from callers to callees: helpers call helpers at most about so deep."""


def shares(profile):
    """For each function the share of each stage in it."""
    known = {name: {stage_of(name): 1.0} for name in profile.own if stage_of(name)}
    callers = defaultdict(list)
    for (caller, callee), cost in profile.spent.items():
        if callee not in known and cost > 0 and caller != callee:
            callers[callee].append((caller, cost))
    found = dict(known)
    for _ in range(ROUNDS):
        for callee, them in callers.items():
            sums, whole = defaultdict(float), 0.0
            for caller, cost in them:
                for stage, share in found.get(caller, {}).items():
                    sums[stage] += cost * share
                    whole += cost * share
            if whole:
                found[callee] = {stage: it / whole for stage, it in sums.items()}
    return found


def by_stage(profile, inside=None):
    """For each stage its instructions by functions. What was spent inside the look for a conflict counts there."""
    of, found = shares(profile), {name: defaultdict(float) for name in NAMES}
    for name, cost in profile.own.items():
        within = min(cost, inside.own.get(name, 0)) if inside else 0
        if within:
            found["conflicts"][name] += within
        for stage, share in of.get(name, {"other": 1.0}).items():
            found[stage][name] += (cost - within) * share
    return found


# Runs


class Counter:
    def __init__(self, path, folder, rows, lines):
        self.folder, self.rows, self.lines = folder, rows, lines
        self.program = f"{folder}/mi_server"
        subprocess.run(["strip", "--strip-debug", "-o", self.program, path], check=True)

    def filled(self, apart):
        """The lines that fill the table."""
        return [line("insert", row=row(n, self.rows, apart)) for n in range(self.rows)]

    def run(self, lines, words=()):
        """What callgrind counts of a run, and the replies."""
        out = f"{self.folder}/callgrind"
        how = ["--tool=callgrind", "--trace-children=yes", f"--callgrind-out-file={out}", f"--log-file={self.folder}/log", *words]
        text = "".join(it + "\n" for it in lines).encode()
        ran = subprocess.run(["valgrind", *how, self.program], input=text, capture_output=True, check=True)
        with open(out, encoding="utf-8", errors="replace") as file:
            return Profile(file.read()), ran.stdout.decode().splitlines()

    def a_line(self, kind, words=()):
        """What one line of a kind takes."""
        filled, lines = self.filled(kind.apart), [kind.nth(n) for n in range(2 * self.lines)]
        once, _ = self.run(filled + lines[:self.lines], words)
        twice, replies = self.run(filled + lines, words)
        if kind.holds not in replies[-1]:
            raise SystemExit(f"wire_count: {lines[-1]} was answered {replies[-1]}")
        return twice.less(once, self.lines)


def shown(profile):
    return f"{profile.total:12,.0f} {profile.called(('rattle_alloc', 'rattle_realloc')):12.1f}"


def tell_stages(counter, kind, profile, with_functions):
    found = by_stage(profile, counter.a_line(kind, [f"--toggle-collect={CONFLICTS}"]))
    print(f"{kind.name:20} {shown(profile)}  " + " ".join(f"{sum(found[it].values()):9,.0f}" for it in NAMES), flush=True)
    for stage in NAMES if with_functions else ():
        dearest = sorted(found[stage].items(), key=lambda it: -it[1])[:6]
        for name, cost in dearest:
            if cost >= 1:
                print(f"    {stage:10} {cost:9,.0f}  {name}", flush=True)


def main():
    asked = argparse.ArgumentParser(description=__doc__, formatter_class=argparse.RawDescriptionHelpFormatter)
    asked.add_argument("--program", metavar="FILE")
    asked.add_argument("--lines", type=int, default=200, metavar="N")
    asked.add_argument("--rows", type=int, default=ROWS, metavar="N")
    asked.add_argument("--kind", metavar="WORDS")
    asked.add_argument("--stages", action="store_true")
    given = asked.parse_args()
    path = given.program or program.program()
    if os.path.abspath(path) == program.UNPROVED:
        raise SystemExit("wire_count: the program compiled without proofs can't be run under valgrind; make build makes the proved one")
    lines = given.lines - given.lines % 3
    print(f"{program.title(path)}, {given.rows:,} rows, the difference of {lines} lines and {2 * lines}")
    print(f"{'line':20} {'instructions':>12} {'allocations':>12}" + ("  " + " ".join(f"{it:>9}" for it in NAMES) if given.stages else ""))
    with tempfile.TemporaryDirectory() as folder:
        counter = Counter(path, folder, given.rows, lines)
        for kind in kinds_over(given.rows):
            if given.kind and given.kind not in kind.name:
                continue
            profile = counter.a_line(kind)
            if given.stages:
                tell_stages(counter, kind, profile, bool(given.kind))
            else:
                print(f"{kind.name:20} {shown(profile)}", flush=True)


if __name__ == "__main__":
    main()
