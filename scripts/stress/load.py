"""Clients over loopback by the thousand lines, and clients that read slowly, break off or never read; `soak.py` runs both parts.

The server has one thread and reads one piece of each open connection in turn, in the order in which they came. So the clients here
are of one thread too: in each round every open client sends one piece, and then takes its replies. By that the server's order is known,
and every reply is compared with that of `reference.py`. Each part ends by itself: lines, rounds and waits are bounded."""
import random
import socket
import struct
import subprocess
import tempfile
import time

import program
from stress.fuzz import ACCOUNTS, Lines, connected, toml
from reference import Index, Reference, Schema

PIECE = 4096
WAIT = 60
SHORT = ["", "a", "b", "ann", "bob", "\u00e4", "\U0001f600", "z\"\\\n"]
ENDS = ["undo", "undo_all", "squash", "push", "commit"]

ROWS = Schema(
    "rows",
    [("k", "int"), ("s", "text"), ("f", "flag")],
    [
        Index("i1", "ranked", [(1, True), (0, False)]),
        Index("i2", "hashed", [(2, False)]),
        Index("i3", "sequenced"),
        Index("i4", "ordered", [(0, True)]),
    ],
    max_rows=24,
)


class Differs(Exception):
    """A reply isn't the reference's, or doesn't come."""


class Clients:
    """A server with a catalog, so many connections to it, and the reference that is asked the same."""

    def __init__(self, path, schemas, count, small=()):
        self.folder = tempfile.TemporaryDirectory()
        with open(f"{self.folder.name}/schema.toml", "w", encoding="utf-8") as file:
            file.write(toml(schemas, 0))
        port = program.free_port()
        words = ["--schema", f"{self.folder.name}/schema.toml", "--listen", str(port), "--clients", str(count)]
        self.ran = subprocess.Popen([path, *words], stdin=subprocess.DEVNULL, stdout=subprocess.PIPE, stderr=subprocess.PIPE)
        self.reference = Reference(schemas)
        self.streams = {}
        for n in range(1, count + 1):
            self.streams[n] = connected(self.ran, port) if n not in small else narrow(port)
            if self.streams[n] is None:
                raise Differs("the program doesn't listen")
            self.streams[n].settimeout(WAIT)
        self.memory = 0

    def __enter__(self):
        return self

    def __exit__(self, *_):
        for it in self.streams.values():
            it.close()
        try:
            self.ran.communicate(timeout=WAIT)
        except subprocess.TimeoutExpired:
            self.ran.kill()
            self.ran.communicate()
        self.folder.cleanup()

    def send(self, n, piece):
        """Sends a piece; answers what is to come."""
        self.streams[n].sendall(piece)
        return self.reference.feed(n, piece)

    def take(self, n, want):
        """Takes replies of a client and compares them."""
        got = b""
        while len(got) < len(want):
            try:
                more = self.streams[n].recv(min(65_536, len(want) - len(got)))
            except (socket.timeout, ConnectionError) as error:
                raise Differs(f"client {n}: {error!r} behind {len(got)} of {len(want)} bytes") from error
            if not more:
                raise Differs(f"client {n}: the stream ended behind {len(got)} of {len(want)} bytes")
            got += more
        if got != want:
            at = next(i for i, pair in enumerate(zip(got, want)) if pair[0] != pair[1])
            raise Differs(f"client {n}: wanted {want[max(0, at - 200):at + 200]!r}, got {got[max(0, at - 200):at + 200]!r}")

    def round(self, pieces):
        """Every open client sends its piece, or ends where that is empty, and takes its replies; answers how many bytes those were."""
        wanted = [(n, self.send(n, pieces[n]) if pieces[n] else self.shut(n)) for n in self.streams]
        for n, want in wanted:
            if pieces[n]:
                self.take(n, want)
            else:
                self.take_end(n, want)
        with open(f"/proc/{self.ran.pid}/status", encoding="ascii") as file:
            found = [int(line.split()[1]) for line in file if line.startswith("VmRSS")]
        self.memory = max(self.memory, *found, 0)
        return sum(len(want) for _, want in wanted)

    def shut(self, n):
        """The client's bytes end; answers what is to come."""
        self.streams[n].shutdown(socket.SHUT_WR)
        return self.reference.close(n)

    def take_end(self, n, want):
        """Takes the last reply of a client that has ended; the server closes behind it."""
        stream, got = self.streams.pop(n), b""
        while True:
            more = stream.recv(65_536)
            if not more:
                break
            got += more
        stream.close()
        if got != want:
            raise Differs(f"client {n} at its end: wanted {want!r}, got {got!r}")

    def end_all(self):
        """All clients end, one behind another."""
        self.round({n: b"" for n in self.streams})

    def reset(self, n):
        """The client breaks off, with a reset: what it has sent of a line is dropped, and what it holds is undone."""
        stream = self.streams.pop(n)
        stream.setsockopt(socket.SOL_SOCKET, socket.SO_LINGER, struct.pack("ii", 1, 0))
        stream.close()
        self.reference.rests[n] = b""
        self.reference.close(n)

    def ended(self):
        """The server's status and what it said, once all clients have ended."""
        said = self.ran.communicate(timeout=WAIT)[1]
        return self.ran.returncode, said.decode(errors="replace").strip()


def narrow(port):
    """A connection that keeps little of what isn't read."""
    stream = socket.socket()
    stream.setsockopt(socket.SOL_SOCKET, socket.SO_RCVBUF, 65_536)
    stream.setsockopt(socket.IPPROTO_TCP, socket.TCP_NODELAY, 1)
    stream.connect(("127.0.0.1", port))
    return stream


class Asker:
    """The bytes of one client: so many random lines, among them runs of changes in a session, which is ended or pushed."""

    def __init__(self, seed, lines):
        self.made = Lines(seed)
        self.made.texts, self.made.numbers = SHORT, [0, 1, 2, 3, 5, 7, -1, 50]
        self.random, self.left, self.run, self.bytes = random.Random(seed), lines, 0, b""

    def command(self):
        """A command that is no session step, but at times one."""
        if self.run:
            self.run -= 1
            if not self.run:
                name = self.random.choice(ENDS)
                return {"cmd": name, **({"revision": 1} if name == "commit" else {})}
        elif self.random.random() < 0.0005:
            self.run = self.random.randint(3, 40)
            return {"cmd": "start"}
        while True:
            said = self.made.command([ROWS])
            if said["cmd"] not in ("start", "reserve") and (said["cmd"] not in ENDS or self.random.random() < 0.02):
                return said

    def line(self):
        self.left -= 1
        said = self.command()
        text = self.made.text(said)
        return self.made.damaged(text, said).replace(b"\n", b" ") if self.random.random() < 0.02 else text

    def piece(self, needs_line):
        """The next bytes, cut anywhere; with a line's end among them where that is needed and there is one."""
        size = self.random.choice([self.random.randint(1, 20), *[self.random.randint(1, 1500)] * 6, PIECE, PIECE])
        while self.left and len(self.bytes) < PIECE:
            self.bytes += self.line() + b"\n"
        if needs_line and b'}\n' not in self.bytes[:size]:
            size = min(PIECE, self.bytes.find(b"}\n") + 2 or size)
        piece, self.bytes = self.bytes[:size], self.bytes[size:]
        return piece


def ask_lines(path, clients, lines, seconds, seed):
    """So many clients ask so many lines each in random pieces; some break off on the way. Answers what it saw, in words."""
    pick, began = random.Random(seed), time.monotonic()
    askers = {n: Asker(f"{seed}/{n}", lines) for n in range(1, clients + 1)}
    resets = {n: pick.randint(lines // 10, lines * 9 // 10) for n in pick.sample(sorted(askers), clients // 8)}
    rounds, replied, cut = 0, 0, 0
    with Clients(path, [ROWS], clients) as server:
        while server.streams and time.monotonic() - began < seconds:
            last = list(server.streams)[-1]
            pieces = {n: askers[n].piece(n == last) for n in server.streams}
            replied += server.round(pieces)
            rounds += 1
            for n in [n for n in server.streams if askers[n].left < resets.get(n, 0)]:
                server.reset(n)
                cut += 1
        is_whole = not server.streams
        server.end_all()
        status = server.ended()
        if status != ((4, "fault: read") if cut else (0, "")):
            raise Differs(f"the server ended with {status}")
        asked = sum(lines - it.left for it in askers.values())
        took = time.monotonic() - began
        return (
            f"{clients} clients, {asked} lines in {rounds} rounds{'' if is_whole else ' (time was up)'}, {cut} broke off: "
            f"{replied} bytes of replies are the reference's; {server.memory} kB at most, {took:.0f} s"
        )


PAGES = b'{"cmd":"range","index":"by_balance"}\n' * 8
SIZE = b'{"cmd":"size"}\n{"cmd":"revision"}\n'
MANY = 1000


def fill(server):
    """Inserts as many records as a page has, each with a text as long as can be."""
    for first in range(0, MANY, 3):
        texts = [f"{n:04}".ljust(1024, "x") for n in range(first, min(MANY, first + 3))]
        lines = [f'{{"cmd":"insert","row":{{"owner":"{it}","balance":{n % 7},"vip":true}}}}\n' for n, it in enumerate(texts)]
        server.round({n: "".join(lines).encode() if n == 1 else SIZE for n in server.streams})


def read_slowly(server, slow):
    """It gets all that it asked for. Answers how many bytes that were, and how long it took."""
    began = time.monotonic()
    want = server.send(slow, PAGES)
    others = {n: server.send(n, SIZE) for n in server.streams if n != slow}
    for at in range(0, len(want), 65_536):
        server.take(slow, want[at:at + 65_536])
        time.sleep(0.005)
    take_all(server, others)
    return len(want), time.monotonic() - began


def break_off(server, breaks):
    """It starts a session, changes a table, and breaks off within its second page."""
    start = b'{"cmd":"start"}\n{"cmd":"erase","id":0}\n'
    server.round({n: start if n == breaks else SIZE for n in server.streams})
    first = {n: server.send(n, SIZE) for n in server.streams if n < breaks}
    want = server.send(breaks, PAGES)
    take_all(server, first)
    server.take(breaks, want[: len(want) // 8 + 1000])
    server.reset(breaks)
    take_all(server, {n: server.send(n, SIZE) for n in server.streams if n > breaks})


def never_read(server, silent):
    """The server waits for it until it goes. Answers whether it did."""
    first = {n: server.send(n, SIZE) for n in server.streams if n < silent}
    server.send(silent, PAGES)
    later = {n: server.send(n, SIZE) for n in server.streams if n > silent}
    take_all(server, first)
    waits = is_silent(server.streams[max(server.streams)])
    server.reset(silent)
    take_all(server, later)
    return waits


def take_all(server, wanted):
    for n, it in wanted.items():
        server.take(n, it)


def read_oddly(path):
    """A client that reads slowly, one that breaks off in the middle of a page while it holds a session, and one that never reads; each
    asks more than the system keeps for it, so that the server waits. The others are answered before and behind, and what the one held
    is undone. Answers what it saw, in words."""
    began = time.monotonic()
    slow, breaks, silent = 2, 3, 4
    with Clients(path, [ACCOUNTS], 6, small=(slow, breaks, silent)) as server:
        fill(server)
        size, slowly = read_slowly(server, slow)
        break_off(server, breaks)
        waits = never_read(server, silent)
        server.round({n: SIZE for n in server.streams})
        server.end_all()
        status = server.ended()
        if status != (4, "fault: write"):
            raise Differs(f"the server ended with {status}")
        if not waits:
            raise Differs("the server didn't wait for the client that never reads, so that part showed nothing")
        return (
            f"6 clients, {MANY} records of 1 kB: one took {size} bytes slowly ({slowly:.1f} s), one broke off in a page with a session "
            f"open, one never read; the others' replies are the reference's; {server.memory} kB at most, {time.monotonic() - began:.0f} s"
        )


def is_silent(stream):
    """Whether a stream gives nothing for a second."""
    stream.settimeout(1)
    try:
        stream.recv(1, socket.MSG_PEEK)
        return False
    except socket.timeout:
        return True
    finally:
        stream.settimeout(WAIT)
