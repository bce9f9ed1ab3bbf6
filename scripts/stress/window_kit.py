"""What the tests of the window share: servers, small and of a million rows, and `weltiyo web` before them. All end with the script.

A small server is the service where it is there, else a second reading of its definitions in Python (`tests/stand_in.py`). A million rows are
kept by the proved service or program where they are there, else by the bench's Boost peer behind a port: it answers the same bytes to the
commands that it knows, and shows nothing of the server's own time."""
import contextlib
import os
import random
import select
import socket
import subprocess
import sys
import tempfile
import threading
import time

import program
from stress import service

sys.path[:0] = [f"{program.TOP}/clients/python", f"{program.TOP}/bench"]

import build  # noqa: E402
from mi_client import Database, Ended  # noqa: E402

SHOP = f"{program.TOP}/examples/shop.toml"
NAMES = ["pen", "pencil", "ink", "paper", "ruler", "eraser", "stapler", "folder", "notebook", "marker", "glue", "tape", "clip", "scissors", "chalk"]
MILLION = 1_000_000
WAIT = 60
"""Seconds that a reply or the address of `weltiyo web` may take."""
FILLING, SURE = 900, 10
"""Seconds that a million rows may take, and after how many it is judged whether they will."""
BATCH = 500
"""Lines that the peer is handed at once: fewer bytes than its pipes take."""
OWN = {b"revision": b'{"depth":0,"held":0,"ok":true,"revision":0}\n', b"service": b'{"error":"form","ok":false}\n'}
"""What the peer doesn't know, and the bridge answers in its place."""


class NotReady(Exception):
    """A server or `weltiyo web` that has ended, or would take too long, and why."""


class Small:
    """A server over the shop, on a port that stays its own when it is started again."""

    def __init__(self, schema=SHOP):
        self.port, self.schema, self.process = program.free_port(), schema, None
        self.start()

    def start(self):
        named = [service.path()] if service.is_there() else [sys.executable, f"{program.TOP}/scripts/tests/stand_in.py"]
        words = [*named, "--listen", str(self.port), *(["--schema", self.schema] if self.schema else [])]
        self.process = subprocess.Popen(words, stdin=subprocess.DEVNULL, stdout=subprocess.DEVNULL, preexec_fn=program.end_with_parent)
        self.connect().close()

    def connect(self):
        return Database.connect(self.port, schema=self.schema, wait=20)

    def fill(self, items=60, sales=40):
        with self.connect() as db:
            for n in range(items):
                db.insert({"name": f"{NAMES[n % 15]} {n // 15 + 1}", "stock": n * 37 % 90}, table="item")
            for n in range(sales):
                db.insert({"item": f"{NAMES[n % 15]} {n // 15 + 1}", "count": n * 7 % 12, "paid": n % 3 == 0}, table="sale")
        return self

    def stop(self):
        if self.process:
            self.process.kill()
            self.process.wait()
            self.process = None


class Telling:
    """A server before another one, that answers a service's status in its place: what a service to come may tell, and not all of it."""

    STATUS = b'{"connections":3,"lines":1200,"ok":true,"uptime":"long"}\n'

    def __init__(self, port):
        self.door, self.behind = socket.create_server(("127.0.0.1", 0)), port
        self.port = self.door.getsockname()[1]
        threading.Thread(target=self.serve, daemon=True).start()

    def serve(self):
        while True:
            try:
                ends = self.door.accept()[0], socket.create_connection(("127.0.0.1", self.behind))
            except OSError:
                return
            threading.Thread(target=self.talk, args=ends, daemon=True).start()

    def talk(self, front, back):
        with front, back, front.makefile("rb") as lines, back.makefile("rb") as replies, contextlib.suppress(OSError):
            # (the server behind may end first)
            for line in lines:
                if b'"service"' in line:
                    front.sendall(self.STATUS)
                elif line.strip():
                    back.sendall(line)
                    front.sendall(replies.readline())

    def stop(self):
        self.door.close()


def accounts(count=MILLION, seed=1):
    """Lines that insert accounts: balances as people have them, many small and few large; one in ten is `vip`."""
    pick = random.Random(seed)
    for n in range(count):
        balance = int(pick.lognormvariate(8, 0.9))
        yield b'{"cmd":"insert","row":{"owner":"owner %06d","balance":%d,"vip":%s}}' % (n, balance, b"true" if pick.random() < 0.1 else b"false")


class Bridge:
    """The bench's peer behind a port of 127.0.0.1: connections come one behind another."""

    title = "the bench's Boost peer behind a port"

    def __init__(self):
        self.peer = subprocess.Popen([build.peer("boost_peer")], stdin=subprocess.PIPE, stdout=subprocess.PIPE, preexec_fn=program.end_with_parent)
        self.door = socket.create_server(("127.0.0.1", 0))
        self.port = self.door.getsockname()[1]

    def come(self):
        """The rows go by the peer's pipes: nobody connects for them."""

    def fill(self, lines, _):
        for batch in batches(lines):
            self.answers(batch)
        threading.Thread(target=self.serve, daemon=True).start()

    def serve(self):
        while True:
            stream = self.door.accept()[0]
            stream.setsockopt(socket.IPPROTO_TCP, socket.TCP_NODELAY, 1)
            rest = b""
            while True:
                piece = stream.recv(1 << 16)
                if not piece:
                    break
                *lines, rest = (rest + piece).split(b"\n")
                for batch in batches(it for it in lines if it):
                    stream.sendall(b"".join(self.answers(batch)))

    def answers(self, lines):
        own = [next((reply for word, reply in OWN.items() if b'"' + word + b'"' in it), None) for it in lines]
        asked = [it.replace(b',"table":"accounts"', b"") + b"\n" for it, reply in zip(lines, own) if reply is None]
        self.peer.stdin.write(b"".join(asked))
        self.peer.stdin.flush()
        return [self.peer.stdout.readline() if it is None else it for it in own]

    def stop(self):
        self.peer.kill()
        self.peer.wait()
        self.door.close()


class Served:
    """The service, or the program for two clients, over the built-in table."""

    def __init__(self, named, words, title):
        self.port, self.title, self.filler = program.free_port(), title, None
        words = [named, "--listen", str(self.port), *words]
        self.process = subprocess.Popen(words, stdin=subprocess.DEVNULL, stdout=subprocess.DEVNULL, preexec_fn=program.end_with_parent)

    def come(self):
        """Connects for the rows."""
        self.filler = Database.connect(self.port, timeout=WAIT, wait=20)

    def fill(self, lines, count):
        n, began = 0, 0.0
        try:
            for n, _ in enumerate(self.filler.ask_lines(lines), 1):
                began = began or time.monotonic()
                if n % 1000 == 0:
                    self.judge(n, count, time.monotonic() - began)
        except Ended as why:
            raise NotReady(f"{self.title} answered {n:,} of {count:,} lines that insert rows, and then no more: {why}") from None
        self.filler.close()

    def judge(self, n, count, took):
        needs = took / n * count
        if took > SURE and needs > FILLING:
            raise NotReady(f"{self.title} takes {n / took:,.0f} rows a second, so {count:,} would take {needs / 60:.0f} minutes; --rows N asks for fewer, "
                           "and a proved program is faster")

    def stop(self):
        self.process.kill()
        self.process.wait()
        if self.filler:
            self.filler.close()


def batches(lines):
    batch = []
    for it in lines:
        batch.append(it)
        if len(batch) == BATCH:
            yield batch
            batch = []
    if batch:
        yield batch


def of_many():
    """A server that is fast enough for a million rows. Raises build.Missing where there is none."""
    if service.is_there():
        return Served(service.path(), [], "the service")
    if os.environ.get("MI_SERVER") or program.is_fresh():
        return Served(program.program(), ["--clients", "2"], "the program")
    return Bridge()


class Large:
    """A server of so many accounts, with `weltiyo web` before it. The program answers once all its clients have come, so the window comes before
    the rows go. Raises build.Missing and NotReady."""

    def __init__(self, count=MILLION):
        self.count, self.server, self.web = count, of_many(), None
        self.title = self.server.title

    def __enter__(self):
        try:
            self.server.come()
            self.web = Web(self.server.port, "--timeout", str(FILLING))
            self.server.fill(accounts(self.count), self.count)
            return self.web.ready()
        except BaseException:
            self.__exit__()
            raise

    def __exit__(self, *_):
        if self.web:
            self.web.__exit__()
        self.server.stop()


class Web:
    """`weltiyo web`. It has an address once it is ready."""

    def __init__(self, port, *words, schema=None):
        env = {**os.environ, "PYTHONPATH": f"{program.TOP}/clients/python"}
        words = [sys.executable, "-m", "mi_client", "web", "--connect", str(port), *(["--schema", schema] if schema else []), *words]
        self.says = self.address = self.token = ""
        self.port, self.errors = 0, tempfile.TemporaryFile()
        self.process = subprocess.Popen(words, stdout=subprocess.PIPE, stderr=self.errors, env=env, bufsize=0, preexec_fn=program.end_with_parent)

    def ready(self):
        """Waits until it has printed its address. Raises NotReady."""
        said, end = b"", time.monotonic() + WAIT
        while said.count(b"\n") < 2:
            if not select.select([self.process.stdout], [], [], max(0, end - time.monotonic()))[0]:
                raise NotReady(f"`weltiyo web` prints no address within {WAIT} s{self.complaint()}")
            more = self.process.stdout.read(4096)
            if not more:
                raise NotReady(f"`weltiyo web` has ended with status {self.process.wait()}{self.complaint()}")
            said += more
        self.says, self.address = said.decode().split("\n")[:2]
        self.port = int(self.address.split(":")[2].split("/")[0])
        self.token = self.address.partition("#")[2]
        return self

    def complaint(self):
        self.errors.seek(0)
        said = self.errors.read().decode(errors="replace").strip()
        return f": {said}" if said else ""

    def __enter__(self):
        try:
            return self.ready()
        except BaseException:
            self.__exit__()
            raise

    def __exit__(self, *_):
        self.process.terminate()
        self.process.wait()
        self.process.stdout.close()
        self.errors.close()


def load():
    """How busy the machine is, beside what was measured on it."""
    return f"load {os.getloadavg()[0]:.1f} on {len(os.sched_getaffinity(0))} processors"


def until(true, seconds=20):
    """Whether something becomes true in time."""
    end = time.monotonic() + seconds
    while time.monotonic() < end:
        if true():
            return True
        time.sleep(0.05)
    return False
