"""Bounded runs over loopback.

    stress soak [--part lines|readers|moves] [--clients K] [--lines N] [--seconds N] [--seed N] [--program FILE]
    stress soak --part service [--seconds N] [--share PART] [--seed N] [--program FILE] [--plot FILE.svg]

Without --part the first three run, one behind another. `lines` and `readers` stand in `load.py`: in the first K clients ask N lines each in random
pieces, with sessions that are pushed and clients that break off; in the second one client reads slowly, one breaks off in the middle of a page
and one never reads. Every reply of both is compared with `reference.py`. `lines` asks no more behind ten minutes.

`moves` runs for some seconds with the Python client. Each of four clients has some accounts and, in its own thread, moves sums
between them inside of sessions, some of which it undoes, some it lets
fail and some it pushes or leaves to the end of its connection. The sum of all balances must stay what it was, whatever was undone, and the
server's memory is looked at: once the tables have their size it must not grow with the number of commands.

`service` uses `mi_service`, with a journal, for some seconds (`lasting.py`): 61 places are taken by clients that come and go, half of them
silent, and three clients stay, whose waits are measured. Those that come and go are at work for --share of each tenth of a second, all of it if
left out. Every ten seconds a row is printed: connections and lines since the last one, memory, and the waits by their shares; --plot draws the
memory and the waits. The memory must not grow, in a long run by no more than a twentieth from the second ten minutes to the last (medians), and a service that is killed
and started again must have the same tables."""
import argparse
import random
import sys
import tempfile
import threading
import time

from stress import lasting
from stress import load
import program
from stress import service
from stress.journal_walk import Differs

sys.path.insert(0, f"{program.TOP}/clients/python")
from mi_client import Refused, Server  # noqa: E402
from mi_tools.plot import line_as_svg  # noqa: E402
from mi_tools.sampling import Line  # noqa: E402

ACCOUNTS = 20
BALANCE = 1_000


class Failed(Exception):
    """Something was undone in a block on purpose."""


class Mover(threading.Thread):
    """Moves sums between the accounts of one client until it is told to stop, and counts what it did."""

    def __init__(self, db, number, stopped):
        super().__init__(daemon=True)
        self.db, self.number, self.stopped = db, number, stopped
        self.random = random.Random(number)
        self.done, self.busy, self.undone, self.fault = 0, 0, 0, None

    def asked(self, call, *args, **members):
        """Asks until no other connection holds sessions."""
        while True:
            try:
                return call(*args, **members)
            except Refused as refusal:
                if refusal.word != "busy":
                    raise
                self.busy += 1

    def run(self):
        try:
            with self.db:
                self.ids = [self.open_account(n) for n in range(ACCOUNTS)]
                while not self.stopped.is_set():
                    self.move()
                    self.done += 1
                # A session that is left open is undone with the connection.
                self.asked(self.db.begin)
                self.db.erase(self.ids[0])
        except Exception as error:  # the main thread tells of it
            self.fault = error

    def open_account(self, n):
        row = {"owner": f"client {self.number} account {n}", "balance": BALANCE, "vip": n % 2 == 0}
        return self.asked(self.db.insert, row)

    def move(self):
        source, target = self.random.sample(self.ids, 2)
        how, sum_moved = self.random.random(), self.random.randint(1, 50)
        self.asked(self.db.begin)
        number = self.db.revision().revision
        self.db.modify(source, add={"balance": -sum_moved})
        self.db.relocate("line", source, before=target)
        if how < 0.3:
            # An inner session that fails: a second account of one owner.
            try:
                with self.db.session():
                    self.db.modify(source, add={"balance": -sum_moved})
                    self.db.insert({"owner": self.db.get(source)["owner"], "balance": 0, "vip": False})
                raise AssertionError("two accounts of one owner")
            except Refused as refusal:
                assert refusal.word == "unique", refusal.word
        if how < 0.5:
            self.db.erase(target)
            assert self.db.undo() == number - 1
            self.undone += 1
            return
        self.db.modify(target, add={"balance": sum_moved})
        if how < 0.6:
            self.db.commit(number)
        else:
            self.db.squash()


def memory_of(process):
    """The server's memory in kilobytes."""
    with open(f"/proc/{process.pid}/status", encoding="ascii") as file:
        return next(int(line.split()[1]) for line in file if line.startswith("VmRSS"))


def fail(why):
    sys.exit(f"soak: {why}")


def watched(movers, watcher, process, seconds):
    """Looks on until all clients have ended, and stops them after so many seconds. Answers the memory that was seen."""
    began, samples = time.monotonic(), []
    while any(it.is_alive() for it in movers):
        watcher.revision()
        if time.monotonic() - began > len(samples) * seconds / 20:
            samples.append(memory_of(process))
        if time.monotonic() - began > seconds:
            movers[0].stopped.set()
    return samples


def judge(watcher, clients):
    """Fails where the table isn't what it must be after any moves."""
    rows = list(watcher.walk_range("id", ["id"], page=7))
    balances = [it["balance"] for it in watcher.range("by_balance").rows]
    listed = [it["id"] for it in watcher.walk_list("line", page=7)]
    state = watcher.revision()
    if len(rows) != ACCOUNTS * clients or sorted(listed) != sorted(it["id"] for it in rows):
        fail(f"{len(rows)} accounts are left of {ACCOUNTS * clients}, {len(listed)} in the list")
    if sum(it["balance"] for it in rows) != BALANCE * len(rows):
        fail("the sum of the balances has changed")
    if balances != sorted(it["balance"] for it in rows)[: len(balances)]:
        fail("the range is out of order")
    if (state.depth, state.held) != (0, 0):
        fail(f"sessions are open at the end: {state}")


def move(path, seconds, clients=4):
    """Clients that move sums for so many seconds; answers what it saw, in words."""
    stopped = threading.Event()
    with Server(path, clients=clients + 1) as server:
        movers = [Mover(server.connect(60), n + 1, stopped) for n in range(clients)]
        watcher = server.connect(60)
        for it in movers:
            it.start()
        samples = watched(movers, watcher, server.process, seconds)
        faults = [it.fault for it in movers if it.fault]
        if faults:
            fail(f"a client failed: {faults[0]!r}")
        judge(watcher, clients)
        watcher.close()
        if server.ended():
            fail(f"the server ended with status {server.ended()}")
    early, late = max(samples[: len(samples) // 2 + 1]), max(samples[len(samples) // 2:])
    if late > 1.5 * early + 10_000:
        fail(f"the server's memory rose from {early} to {late} kB")
    moves, undone, busy = (sum(getattr(it, name) for it in movers) for name in ("done", "undone", "busy"))
    return (
        f"{clients} clients for {seconds:.0f} s: {moves} moves, {undone} of them undone, {busy} refused as busy and asked again; "
        f"the sum stayed; memory {early} kB in the first half, {late} kB in the second"
    )


def serve(options):
    """A service for so many seconds; answers what it saw, in words."""
    path = service.needed(options.program)
    print(f"with {program.title(path)}:", flush=True)
    with tempfile.TemporaryDirectory(prefix="soak-") as folder:
        said, rows = lasting.last(path, folder, options.seconds, options.seed, min(10.0, options.seconds / 3), options.share)
    if options.plot:
        drawn = [Line(f"{lasting.COLUMNS[n]} by seconds", [(int(it[0]), it[n]) for it in rows]) for n in (3, 4, 6)]
        with open(options.plot, "w", encoding="utf-8") as file:
            file.write(stacked([line_as_svg(it) for it in drawn]))
    return said


def stacked(pictures, height=420):
    """Pictures one under another."""
    parts = [f'<g transform="translate(0 {n * height})">{it}</g>' for n, it in enumerate(pictures)]
    return f'<svg xmlns="http://www.w3.org/2000/svg" viewBox="0 0 800 {height * len(parts)}">\n' + "\n".join(parts) + "\n</svg>\n"


def main():
    parser = argparse.ArgumentParser(description=__doc__, formatter_class=argparse.RawDescriptionHelpFormatter)
    parser.add_argument("--part", choices=["lines", "readers", "moves", "service"])
    parser.add_argument("--clients", type=int, default=64)
    parser.add_argument("--lines", type=int, default=10_000)
    parser.add_argument("--seconds", type=float, default=30)
    parser.add_argument("--share", type=float, default=1.0)
    parser.add_argument("--seed", type=int, default=1)
    parser.add_argument("--program")
    parser.add_argument("--plot", metavar="FILE")
    options = parser.parse_args()
    if options.part == "service":
        try:
            print(f"service: {serve(options)}")
        except (Differs, service.Ended) as why:
            fail(f"service, seed {options.seed}: {why}")
        return
    if not 1 <= options.clients <= 64:
        fail("--clients is 1 to 64")
    path = options.program or program.program()
    print(f"with {program.title(path)}:")
    parts = {
        "lines": lambda: load.ask_lines(path, options.clients, options.lines, 600, options.seed),
        "readers": lambda: load.read_oddly(path),
        "moves": lambda: move(path, options.seconds),
    }
    for name in [options.part] if options.part else parts:
        try:
            print(f"{name}: {parts[name]()}", flush=True)
        except load.Differs as why:
            fail(f"{name}, seed {options.seed}: {why}")
