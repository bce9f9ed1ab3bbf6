"""Clients of a service that come and go, ask random lines ahead of the replies, hold sessions, break off or never read; what each sent and
was answered is kept, for `journal_walk.py`."""
import collections
import contextlib
import random
import re
import selectors
import socket
import struct
import time

from journal import end_of
from stress.fuzz import Lines
from stress.journal_walk import Said, mark, may_change
from reference import CHANGES, LONGEST_LINE, STEPS, Index, Schema, is_foreign
from stress.service import WAIT

SHORT = ["", "a", "b", "ann", "bob", "\u00e4", "\U0001f600", "z\"\\\n", "a" * 300]
ENDS = ["undo", "undo", "undo_all", "squash", "squash", "push", "commit"]
ID = re.compile(rb'"id":(\d+)')

TABLES = [
    Schema(
        "kept",
        [("k", "int"), ("s", "text"), ("f", "flag")],
        [
            Index("u", "hashed", [(1, False)], unique=True),
            Index("r", "ranked", [(0, True), (1, False)]),
            Index("h", "hashed", [(2, False)]),
            Index("o", "ordered", [(0, False)]),
            Index("q", "sequenced"),
        ],
        max_rows=24,
    ),
    Schema("side", [("n", "int")], [Index("r", "ranked", [(0, False)]), Index("q", "sequenced")], max_rows=8),
]
"""Small, so that the reference is quick, tables are full at times, and keys are taken."""


class Speech(Lines):
    """Random commands over the tables, with runs of changes inside of sessions. The ids are those that others were answered."""

    def __init__(self, seed, ids, schemas=TABLES):
        super().__init__(seed)
        self.texts, self.numbers = SHORT, [0, 1, 2, 3, 5, 7, -1, 50]
        self.ids, self.schemas, self.run = ids, schemas, 0

    def id(self, schema):
        return self.random.choice(self.ids) if self.ids and self.random.random() < 0.95 else self.random.randint(0, 5)

    def chosen(self):
        """A command that fits the run of changes that it stands in."""
        pick = self.random
        if self.run:
            self.run -= 1
            if not self.run:
                name = pick.choice(ENDS)
                return {"cmd": name, **({"revision": pick.randint(0, 9)} if name == "commit" else {})}
        elif pick.random() < 0.03:
            self.run = pick.randint(2, 20)
            return {"cmd": "start"}
        if pick.random() < 0.12:
            return {"cmd": "erase", "id": self.id(None)}
        while True:
            said = self.command(self.schemas)
            if said["cmd"] not in ("start", *ENDS) or pick.random() < (0.3 if self.run else 0.02):
                return said

    def next(self, number, n):
        """The line of this number of a connection, without its newline; one that may be kept has its mark."""
        said, pick = self.chosen(), self.random
        text = self.text(said)
        if pick.random() < 0.02:
            odd = self.damaged(text, said).replace(b"\n", b"\x0b") if pick.random() < 0.9 else text + b" " * LONGEST_LINE
            if odd.strip(b"\r") and not may_change(odd.strip(b"\r")) and (n or not is_foreign(odd)):
                return odd
        text += mark(number, n) if said["cmd"] in CHANGES | STEPS else b""
        return text + b"\r" if pick.random() < 0.02 else text

    def between(self):
        """Bytes between two lines that have no reply."""
        return self.random.choice([b"\n", b"\r\n"]) if self.random.random() < 0.02 else b""


class Caller:
    """One connection: `lines` to ask, of which at most `window` are awaited, and how it leaves then: by `shut`, `close` or `reset`."""

    def __init__(self, stream, said, speech, lines, window, leaves):
        self.stream, self.said, self.speech = stream, said, speech
        self.left, self.window, self.leaves = lines, window, leaves
        self.out, self.rest, self.is_open, self.is_shut, self.watched = b"", b"", True, False, 0
        stream.setblocking(False)

    def write(self):
        """Asks ahead, as far as its window and the system's buffers go; leaves when all is asked."""
        while self.left and len(self.said.lines) - len(self.said.replies) < self.window and len(self.out) < 1 << 16:
            self.left -= 1
            text = self.speech.next(self.said.number, len(self.said.lines))
            self.said.lines.append(text)
            self.out += self.speech.between() + text + (b"\n" if self.left or self.leaves != "shut" else b"")
        try:
            if self.out:
                self.out = self.out[self.stream.send(self.out):]
        except BlockingIOError:
            return
        except OSError:
            self.out, self.left, self.is_shut = b"", 0, True
        if not self.out and not self.left and not self.is_shut:
            self.leave()

    def leave(self):
        self.said.has_left = self.is_shut = True
        if self.leaves == "shut":
            with contextlib.suppress(OSError):
                self.stream.shutdown(socket.SHUT_WR)
            return
        if self.leaves == "reset":
            self.stream.setsockopt(socket.SOL_SOCKET, socket.SO_LINGER, struct.pack("ii", 1, 0))
        self.close()

    def read(self, most=1 << 16):
        """Takes what has come."""
        try:
            more = self.stream.recv(most)
        except BlockingIOError:
            return
        except OSError:
            more = b""
        *lines, self.rest = (self.rest + more).split(b"\n")
        self.said.replies += [it + b"\n" for it in lines]
        for it in lines:
            self.speech.ids.extend(map(int, ID.findall(it[:40])))
        if not more:
            self.close()

    def drain(self):
        """Takes all that still comes, once the service has ended."""
        self.stream.setblocking(True)
        while self.is_open:
            self.read()

    def close(self):
        self.is_open, self.left, self.out = False, 0, b""
        self.stream.close()


    def events(self):
        """What its connection is looked at for."""
        has_room = self.left and len(self.said.lines) - len(self.said.replies) < self.window
        return selectors.EVENT_READ | (selectors.EVENT_WRITE if self.out or has_room else 0)

    def at(self, now):
        """The time goes on."""


class Slow(Caller):
    """It asks all ahead, and reads little at a time."""

    def __init__(self, stream, said, speech, lines):
        super().__init__(stream, said, speech, lines, lines, "shut")
        self.next = 0

    def events(self):
        return super().events() & (selectors.EVENT_WRITE if time.monotonic() < self.next else ~0)

    def read(self, most=100):
        self.next = time.monotonic() + 0.005
        super().read(most)


class Silent(Caller):
    """It sends nothing but the front of a line, and leaves at some time."""

    def __init__(self, stream, said, speech, leaves, until):
        super().__init__(stream, said, speech, 0, 1, leaves)
        self.until = until
        if speech.random.random() < 0.3:
            self.stream.send(b'{"cmd":"si')
            self.said.lines.append(b'{"cmd":"si')

    def events(self):
        return selectors.EVENT_READ

    def at(self, now):
        if now > self.until and not self.is_shut:
            self.leave()


class Deaf(Silent):
    """It asks pages without end, never reads, and leaves at some time."""

    def __init__(self, stream, said, speech, until):
        super().__init__(stream, said, speech, "close", until)
        self.said.lines.clear()
        first = b'{"cmd":"insert","table":"side","row":{"n":3}}' + mark(said.number, 0)
        self.said.lines += [first, *[b'{"cmd":"range","index":"r"}'] * 4_000]
        self.out = b"\n".join(self.said.lines) + b"\n"

    def events(self):
        return selectors.EVENT_WRITE if self.out else 0

    def write(self):
        try:
            self.out = self.out[self.stream.send(self.out):]
        except BlockingIOError:
            pass
        except OSError:
            self.out = b""


class Load:
    """So many callers at once on a service; those that leave are followed by others."""

    def __init__(self, running, journal, seed, first_number, callers=8):
        self.running, self.journal, self.pick = running, journal, random.Random(seed)
        self.seed, self.next, self.count = seed, first_number, callers
        self.ids, self.callers, self.all = collections.deque(maxlen=24), [], []
        self.selector = selectors.DefaultSelector()
        self.replied, self.replies = time.monotonic(), 0

    def length(self):
        """How long the journal is, without its room."""
        with open(self.journal, "rb") as file:
            return end_of(file.fileno())

    def made(self, stream, said, speech):
        """The caller of a connection."""
        pick = self.pick
        return Caller(stream, said, speech, pick.randint(1, 150), pick.choice([1, 4, 64]), pick.choice(["shut", "close", "reset"]))

    def come(self):
        said = Said(self.next, self.length())
        caller = self.made(self.running.connect(), said, Speech(f"{self.seed}/{self.next}", self.ids))
        self.next += 1
        self.callers.append(caller)
        self.all.append(said)

    def step(self):
        """One look at who can write or read."""
        now = time.monotonic()
        for it in list(self.callers):
            it.at(now)
            if not it.is_open:
                self.go(it)
                continue
            self.watch(it, it.events())
        for key, events in self.selector.select(0.02):
            self.serve(key.data, events)

    def watch(self, caller, events):
        """Its connection is looked at for these events from now on."""
        if caller.watched and events and caller.watched != events:
            self.selector.modify(caller.stream, events, caller)
        elif events and not caller.watched:
            self.selector.register(caller.stream, events, caller)
        elif caller.watched and not events:
            self.selector.unregister(caller.stream)
        caller.watched = events

    def serve(self, caller, events):
        if events & selectors.EVENT_READ:
            before = len(caller.said.replies)
            caller.read()
            if len(caller.said.replies) > before:
                self.replied = time.monotonic()
                self.replies += len(caller.said.replies) - before
        if events & selectors.EVENT_WRITE and caller.is_open:
            caller.write()
        if not caller.is_open:
            self.go(caller)

    def go(self, caller):
        """A caller whose connection is closed."""
        self.watch(caller, 0)
        self.callers.remove(caller)

    def go_on(self, seconds, replies=0, most=0):
        """Asks for so long, and on until so many replies have come, but for at most so many seconds; or until the service ends. Its status
        then."""
        began = time.monotonic()
        end, last = began + seconds, began + max(seconds, most)
        try:
            while (time.monotonic() < end or self.replies < replies and time.monotonic() < last) and self.running.process.poll() is None:
                while len(self.callers) < self.count:
                    self.come()
                self.step()
        except ConnectionError:
            # (nobody listens any more)
            return self.running.process.wait(WAIT)
        return self.running.process.poll()

    def __enter__(self):
        return self

    def __exit__(self, *_):
        for it in self.callers:
            it.close()
        self.selector.close()

    def drain(self):
        """The replies that still come once it has ended. All connections have left then."""
        for it in self.callers:
            if it.is_open:
                it.drain()
        for it in self.all:
            it.has_left = True


def counted(said):
    """How many lines were sent, and how many of them were answered."""
    return sum(len(it.lines) for it in said), sum(len(it.replies) for it in said)
