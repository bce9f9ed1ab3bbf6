"""Each request for memory of the program refused in turn, on worked rows and blocks; and a server under a hard limit of memory.

    stress faults [--program FILE] [--short] [--row WORDS] [--way WAY] [--rounds N] [--jobs N]

The rows are those of `crates/test_rows/src/tests/rows`, and some that are made here. A row is run with its k-th request for memory
refused, for k = 1, 2, .. until a run meets none, in three ways:

    one     that request alone is refused
    rest    that one and all behind it, and then sessions are undone by lines until none is open
    within  the same, with a session opened before the row

Then nothing is refused any more, and look-ups tell what is in the tables. What must come is what `reference.py` answers when it is
asked the lines that weren't answered `memory`. Those must have met a refusal: in the first way that is one line at most; and the line
{"cmd":"undo"} is never one. A request that is refused before any input is read may end the program, with its status and line.

`fault_blocks.py` has what is promised without memory: a block behind a reserve, by lines and by calls, the undo line, and a cut.

`refuse_memory.c` says which requests are the program's own; the C library's are never refused. The program is the proved one where it
is up to date, else the one compiled without proofs. --short is what `.ci/run` runs: of each row the requests behind its start, those
of the start once, the blocks, and no server under a limit. --row takes the rows whose names have these words, --way one of the three;
--rounds is how often the limited server is filled and undone; --jobs is how many rows are run side by side, as many as there are
processors if left out. The last line is 'N runs, .. D differences'; where no row has such a name the status is 2."""
import argparse
import os
import resource
import subprocess
import sys
import tempfile
import time
from concurrent.futures import ThreadPoolExecutor

from stress import fault_blocks
import program
from stress.fault_runs import MEMORY, UNDO, WAYS, Counts, Plan, Row, Runner, every_request, insert, line, looks_at, made_rows, stop, written_rows
from stress.fuzz import ACCOUNTS
from reference import Reference

LIMIT = 24 << 20
"""The room above what the empty program takes, in bytes."""


def row_in_a_way(path, row, way, first):
    with tempfile.TemporaryDirectory(prefix="faults-") as folder:
        return every_request(Runner(path, folder), Plan(row, way), first)


def all_rows(path, rows, ways, first, jobs, is_quiet):
    """Runs each row in each of these ways, with each of its requests from the piece `first` on refused in turn."""
    total = Counts()
    for row in rows:
        if not row.can_run:
            print(f"{row.name}: left out, since a connection breaks off")
    # (the rows that are made here are long, so they begin)
    todo = [(row, way) for row in reversed(rows) if row.can_run for way in ways]
    with ThreadPoolExecutor(jobs) as pool:
        for (row, way), counts in zip(todo, pool.map(lambda it: row_in_a_way(path, *it, first), todo)):
            total.add(counts)
            if counts.differ or not is_quiet:
                print(f"{row.name}, {way}: {counts}", flush=True)
    if is_quiet:
        print(f"{sum(it.can_run for it in rows)} rows: {total}", flush=True)
    return total


def start_alone(path):
    """Each request that is made before any input is read."""
    counts = row_in_a_way(path, Row("a start", steps=[]), "one", -1)
    print(f"the start of the program: {counts}", flush=True)
    return counts


# A hard limit


class Limited:
    """A server over pipes that may take so many bytes of address space; 0 sets no limit."""

    def __init__(self, path, limit):
        def set_limit():
            if limit:
                resource.setrlimit(resource.RLIMIT_AS, (limit, limit))

        self.process = subprocess.Popen([path], stdin=subprocess.PIPE, stdout=subprocess.PIPE, preexec_fn=set_limit)

    def ask(self, asked):
        self.process.stdin.write(asked)
        self.process.stdin.flush()
        reply = self.process.stdout.readline()
        return reply or stop(f"the limited server ended with {self.process.wait()} at {asked[:80]!r}")

    def status(self, name):
        with open(f"/proc/{self.process.pid}/status", encoding="ascii") as file:
            return next(int(it.split()[1]) for it in file if it.startswith(name + ":"))

    def close(self):
        self.process.stdin.close()
        self.process.stdout.close()
        return self.process.wait(60)


BASE = 60
IN_A_SESSION = 100


def filled(server):
    """Opens sessions full of changes until `memory` is answered. Answers the sizes before each session, the rows at the end, and how many
    lines were answered."""
    sizes, size, number, asked = [], BASE, 0, 0
    while True:
        changes = [insert(f"{number}-{n}-" + "x" * 200, n % 7, n % 2 == 0) for n in range(IN_A_SESSION)]
        id = number % BASE
        changes += [line("replace", id=id, row={"owner": f"base {id}", "balance": -5, "vip": True}), line("relocate", index="line", id=id)]
        changes += [line("modify", id=id, add={"balance": 9}), line("erase", id=id)]
        for n, it in enumerate([line("start"), *changes]):
            reply, asked = server.ask(it), asked + 1
            if reply == MEMORY:
                return sizes, size, asked
            if b'"ok":true' not in reply and n <= IN_A_SESSION:
                stop(f"the limited server, not yet full, answers {reply!r} to {it[:80]!r}")
            if n == 0:
                sizes.append(size)
            elif b'"ok":true' in reply:
                size += (b'"insert"' in it) - (b'"erase"' in it)
        number += 1


def undone(server, sizes):
    """Undoes line by line; each gives back the size that stood before its session. Answers how many differ."""
    differ = 0
    for revision in range(len(sizes) - 1, -1, -1):
        want = b'{"ok":true,"revision":%d}\n' % revision, b'{"ok":true,"size":%d}\n' % sizes[revision]
        got = server.ask(UNDO + b"\n"), server.ask(line("size"))
        if got != want:
            differ += 1
            print(f"an undo under the limit: wanted {want}, got {got}")
    return differ + (server.ask(UNDO + b"\n") != b'{"error":"session","ok":false}\n')


def under_limit(path, rounds):
    """Fills a limited server, undoes all, and looks whether all is there as before, so many times. Answers how many things differ."""
    free = Limited(path, 0)
    free.ask(line("size"))
    limit = free.status("VmSize") * 1024 + LIMIT
    free.close()
    server, reference, differ, seen = Limited(path, limit), Reference([ACCOUNTS]), 0, []
    base = [insert(f"base {n}", n % 5, n % 3 == 0) for n in range(BASE)]
    looks = looks_at(Row("", steps=[(1, it) for it in base]), [ACCOUNTS])
    for it in base:
        differ += server.ask(it) != reference.feed(1, it)
    want = [reference.feed(1, it) for it in looks]
    for n in range(1, rounds + 1):
        sizes, rows, asked = filled(server)
        full = server.status("VmRSS")
        differ += undone(server, sizes)
        lost = sum(server.ask(it) != reply for it, reply in zip(looks, want))
        differ += lost
        seen.append((rows, server.status("VmRSS")))
        print(f"round {n}: {len(sizes)} sessions, {rows} rows, {asked} lines until memory, {full} kB;", end=" ")
        print(f"undone: {seen[-1][1]} kB, {lost} of {len(looks)} looks differ", flush=True)
    differ += server.close() != 0
    (_, early), (_, late) = seen[min(1, rounds - 1)], seen[-1]
    differ += late > 1.05 * early
    print(f"under a limit of {limit // 1024} kB: {rounds} rounds, {differ} differences;", end=" ")
    print(f"resident {early} kB after the second, {late} kB after the last ({late / early - 1:+.1%})")
    return differ


def first_look(path):
    """A run of the program with nothing refused. Ends where the library finds no request of it: one with an allocator of its own makes
    none, where they can't be turned."""
    with tempfile.TemporaryDirectory(prefix="faults-") as folder:
        ran = Runner(path, folder).run(Plan(Row("a size", steps=[(1, line("size"))]), "one"), 0)
    if not ran.requests:
        stop(f"the requests of {os.path.relpath(path)} are not seen: it has an allocator of its own, and isn't as `rt try` makes it for x86-64")
    return ran


def the_blocks(path):
    """Those of the program by lines; where its functions at work can't be seen, by the one compiled without proofs."""
    with tempfile.TemporaryDirectory(prefix="faults-") as folder:
        runner = Runner(path, folder)
        if fault_blocks.sees_functions(runner):
            return fault_blocks.all_blocks(runner, runner, folder)
        program.compile_unproved()
        return fault_blocks.all_blocks(runner, Runner(program.UNPROVED, folder), folder)


def options_of(given):
    parser = argparse.ArgumentParser(description=__doc__, formatter_class=argparse.RawDescriptionHelpFormatter)
    parser.add_argument("--program", metavar="FILE")
    parser.add_argument("--short", action="store_true")
    parser.add_argument("--row", metavar="WORDS")
    parser.add_argument("--way", choices=WAYS)
    parser.add_argument("--rounds", type=int, default=10, metavar="N")
    parser.add_argument("--jobs", type=int, default=len(os.sched_getaffinity(0)), metavar="N")
    return parser.parse_args(given)


def main(given=None):
    options = options_of(given)
    rows = [it for it in written_rows() + made_rows() if not options.row or options.row in it.name]
    if not any(it.can_run for it in rows):
        print(f"faults: no row that can be run has these words in its name: {options.row}", file=sys.stderr)
        return 2
    path, began = os.path.abspath(options.program or program.program()), time.monotonic()
    first, total = first_look(path), Counts()
    if not options.row:
        total.add(the_blocks(path))
    if options.short and not options.row:
        total.add(start_alone(path))
    total.add(all_rows(path, rows, [options.way] if options.way else WAYS, 0 if options.short else -1, options.jobs, options.short))
    if options.rounds and not options.row and not options.short:
        if first.has_own_allocator:
            print("a server under a limit of memory: left out, since an allocator of the program's own takes its room ahead; make build makes another")
        else:
            total.differ += under_limit(path, options.rounds)
    print(f"{program.title(path)}, {time.monotonic() - began:.0f} s")
    print(total)
    return 1 if total.differ else 0
