"""How long others wait while a long command runs, and through a restart.

    stress waits [--part commands|restart] [--rows N] [--rounds N] [--short] [--program FILE]

Without --part both run, one behind another.

    commands    a table `accounts` of N rows (100,000). One connection asks a command that takes back, keeps or erases so many changes, beside
                one that asks a look-up each millisecond. Told are microseconds of processor a change, and the longest wait of the other one.
                An undo, a commit and an erase by key are to take at most 1.0 µs a change. The best of the rounds counts
    restart     16 connections send changes to a service with a journal of so many rows. It gets SIGTERM, and is started again. Told is for how
                long no line was answered, with the replay

With --short there are few rows and one round, and nothing is judged. Else the status is 1 where a command takes longer."""
import argparse
import os
import signal
import tempfile
import threading
import time

import program
from stress import service
from stress.service import Service, asked

ROWS, SHORT_ROWS, ROUNDS = 100_000, 2_000, 3
MOST = 1.0
"""Microseconds of processor a change, at most."""
PAUSE = 0.001
START, UNDO, COMMIT = b'{"cmd":"start"}\n', b'{"cmd":"undo"}\n', b'{"cmd":"commit","revision":1}\n'
ERASE = b'{"cmd":"erase_key","index":"by_balance","key":[7]}\n'
LOOK_UP = b'{"cmd":"revision"}\n'
PIECE = 10_000


def rows_of(count, equal=False):
    """So many inserts; all have one balance, or each has its own."""
    return [f'{{"cmd":"insert","row":{{"owner":"owner {n}","balance":{7 if equal else n * 7919},"vip":true}}}}\n' for n in range(count)]


def modifies(rows):
    return [f'{{"cmd":"modify","id":{n},"add":{{"balance":{n % 19 - 9}}}}}\n' for n in range(rows)]


def inserts(rows):
    return [f'{{"cmd":"insert","row":{{"owner":"new {n}","balance":{n},"vip":true}}}}\n' for n in range(rows)]


def erases(rows):
    return [f'{{"cmd":"erase","id":{n}}}\n' for n in range(rows)]


CASES = [
    ("undo of modifies", modifies, UNDO),
    ("undo of inserts", inserts, UNDO),
    ("undo of erases", erases, UNDO),
    ("commit of modifies", modifies, COMMIT),
    ("commit of erases", erases, COMMIT),
]
"""What is done in a session, and the command that ends it."""


def ask_all(stream, lines):
    """Sends lines ahead in pieces, and reads all their replies, each of which is to say that it is well."""
    for at in range(0, len(lines), PIECE):
        piece = lines[at:at + PIECE]
        threading.Thread(target=stream.sendall, args=("".join(piece).encode(),), daemon=True).start()
        got = asked(stream, b"", len(piece))
        if got.count(b'"ok":true') != len(piece):
            raise ValueError(f"a line was refused: {got[:200]!r}")


def run_time(running):
    """Nanoseconds that the server's process has run."""
    with open(f"/proc/{running.process.pid}/schedstat", encoding="ascii") as file:
        return int(file.read().split()[0])


class Beside:
    """A connection that asks a look-up again and again, and notes its longest wait."""

    def __init__(self, running):
        self.stream, self.most, self.ends = running.connect(), 0.0, False
        self.thread = threading.Thread(target=self.ask, daemon=True)

    def ask(self):
        while not self.ends:
            began = time.monotonic()
            asked(self.stream, LOOK_UP)
            self.most = max(self.most, time.monotonic() - began)
            time.sleep(PAUSE)

    def __enter__(self):
        self.thread.start()
        time.sleep(10 * PAUSE)
        self.most = 0.0
        return self

    def __exit__(self, *_):
        self.ends = True
        self.thread.join()
        self.stream.close()


def timed(running, stream, line):
    """Seconds of the server's processor for a line, and the longest wait of another connection meanwhile."""
    with Beside(running) as beside:
        used = run_time(running)
        reply = asked(stream, line)
        used = run_time(running) - used
    if b'"ok":true' not in reply:
        raise ValueError(f"{line!r} was refused: {reply!r}")
    return used / 1e9, beside.most


def ended(named, rows, changes, line):
    """The same of the command that ends a session with these changes."""
    with Service(named) as running, running.connect() as stream:
        ask_all(stream, rows_of(rows))
        asked(stream, START)
        ask_all(stream, changes(rows))
        return timed(running, stream, line)


def erased(named, rows):
    """The same of an erase by a key that all rows have."""
    with Service(named) as running, running.connect() as stream:
        ask_all(stream, rows_of(rows, equal=True))
        return timed(running, stream, ERASE)


def commands_part(options, folder):
    """Prints a row for each command; answers whether all are quick."""
    rows, well = options.rows or (SHORT_ROWS if options.short else ROWS), True
    cases = [(name, lambda changes=changes, line=line: ended(options.program, rows, changes, line)) for name, changes, line in CASES]
    cases.append(("erase by key", lambda: erased(options.program, rows)))
    for name, case in cases:
        used, wait = map(min, zip(*(case() for _ in range(options.rounds or (1 if options.short else ROUNDS)))))
        each = 1e6 * used / rows
        print(f"waits: {name:20} {rows:9,} changes {each:6.2f} µs each, others waited {1000 * wait:7.1f} ms", flush=True)
        well = well and (options.short or each <= MOST)
    return well


class Client:
    """A connection that modifies a row again and again, and through a restart; it notes when it was answered."""

    def __init__(self, port, id):
        self.port, self.line, self.answers, self.ends = port, f'{{"cmd":"modify","id":{id},"add":{{"balance":1}}}}\n'.encode(), [], False
        self.thread = threading.Thread(target=self.ask, daemon=True)
        self.thread.start()

    def ask(self):
        while not self.ends:
            try:
                with service.socket.create_connection(("127.0.0.1", self.port), 1) as stream:
                    while not self.ends:
                        asked(stream, self.line)
                        self.answers.append(time.monotonic())
            except (OSError, EOFError):
                time.sleep(PAUSE)


def restart_part(options, folder):
    """Prints for how long nobody was answered through a restart."""
    rows, found = options.rows or (SHORT_ROWS if options.short else ROWS), []
    for number in range(options.rounds or (1 if options.short else ROUNDS)):
        journal = f"{folder}/restarted-{number}"
        with Service(options.program, journal=journal) as running:
            with running.connect() as stream:
                ask_all(stream, rows_of(rows))
            clients = [Client(running.port, id) for id in range(16)]
            time.sleep(1)
            running.kill(signal.SIGTERM)
            port = running.port
        with Service(options.program, journal=journal, port=port):
            started = time.monotonic()
            time.sleep(1)
            for it in clients:
                it.ends = True
            for it in clients:
                it.thread.join()
        answers = sorted(at for it in clients for at in it.answers)
        found.append(max(later - earlier for earlier, later in zip(answers, answers[1:])) if answers[-1] > started else None)
    print(f"waits: a restart of {rows:,} rows under load: no answer for {', '.join('ever' if it is None else f'{it:.2f} s' for it in found)}", flush=True)
    return None not in found


PARTS = {"commands": commands_part, "restart": restart_part}


def main(given=None):
    parser = argparse.ArgumentParser(description=__doc__, formatter_class=argparse.RawDescriptionHelpFormatter)
    parser.add_argument("--part", choices=list(PARTS))
    parser.add_argument("--rows", type=int)
    parser.add_argument("--rounds", type=int)
    parser.add_argument("--short", action="store_true")
    parser.add_argument("--program", metavar="FILE")
    options = parser.parse_args(given)
    options.program = service.needed(options.program)
    well = True
    os.makedirs(f"{program.TOP}/out", exist_ok=True)
    with tempfile.TemporaryDirectory(dir=f"{program.TOP}/out") as folder:
        for name in [options.part] if options.part else PARTS:
            well = PARTS[name](options, folder) and well
    return 0 if well else 1
