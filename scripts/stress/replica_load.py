"""Clients of a ledger's members whose every line has a tag of its own, and the check of what they were told against the log and against
`reference.py`. The tag stands in a member `cmd` before the real one: a repeated member counts once, with its last value."""
import json
import random
import re
import select
import socket
import threading
import time

from stress import fuzz
from reference import Reference
from stress.replica_kit import Stuck, asked

from mi_client import Ended, connect_leader
from mi_client.commands import belongs_in_journal

TAG = re.compile(rb'^\{"cmd":"(T\d+-\d+)"')
MOST_ROWS = 25
REGISTER = {"owner": "register", "balance": 0, "vip": False}


class Differs(Exception):
    """What the members told isn't what the log and the reference have."""


class Sent:
    """A line with its reply, or None where the connection broke off before that came."""

    def __init__(self, tag, line):
        self.tag, self.line, self.reply = tag, line, None
        self.at = 0.0


class Talker(threading.Thread):
    """A client that changes the tables, in blocks at times, some of which it leaves by breaking off."""

    def __init__(self, number, ports, seed, pause, patience=2.0):
        """Where a reply doesn't come for `patience` seconds it breaks off and looks for the leader."""
        super().__init__(daemon=True)
        self._patience = patience
        self._number, self._ports, self._pause = number, ports, pause
        self._random = random.Random(seed * 100 + number)
        self._ends = threading.Event()
        self.sent, self.ids, self.last_done, self.error = [], [], 0.0, None

    def run(self):
        while not self._ends.is_set():
            try:
                with connect_leader(self._ports, self._patience, wait=1, answers=0.3) as self._db:
                    while not self._ends.is_set():
                        self.block() if self._random.random() < 0.06 else self.change()
                        time.sleep(self._random.random() * self._pause)
            except (Ended, OSError):
                time.sleep(0.05)
            except Exception as error:  # (it is told by the main thread)
                self.error = error
                return

    def end(self):
        self._ends.set()

    def ask(self, **members):
        """Asks a line; its reply as JSON."""
        it = Sent(f"T{self._number}-{len(self.sent)}", "")
        it.line = f'{{"cmd":"{it.tag}",{json.dumps(members, separators=(",", ":"))[1:]}'.encode()
        self.sent.append(it)
        it.reply = self._db.ask_line(it.line.decode()).encode()
        it.at = time.monotonic()
        if belongs_in_journal(it.reply):
            self.last_done = it.at
        return json.loads(it.reply)

    def change(self):
        kind = self._random.random()
        if kind < 0.5 and len(self.ids) < MOST_ROWS or not self.ids:
            said = self.ask(cmd="insert", row={"owner": f"o{self._random.randrange(400)}", "balance": self._random.randrange(9), "vip": kind < 0.2})
            if said["ok"]:
                self.ids.append(said["id"])
        elif kind < 0.75:
            self.ask(cmd="modify", id=self._random.choice(self.ids), add={"balance": 1})
        elif kind < 0.8:
            # (it may lose the record, where that owner is there)
            self.ask(cmd="modify", id=self._random.choice(self.ids), set={"owner": f"o{self._random.randrange(400)}"})
        else:
            self.ask(cmd="erase", id=self.ids.pop(self._random.randrange(len(self.ids))))

    def block(self):
        if not self.ask(cmd="start")["ok"]:
            return
        started = 1
        for _ in range(self._random.randrange(1, 6)):
            if self._random.random() < 0.2:
                started += self.ask(cmd="start")["ok"]
            else:
                self.change()
        end = self._random.random()
        if end < 0.3:
            # (its own alone: a session that was pushed has changes of others, which were acknowledged)
            for _ in range(started):
                self.ask(cmd="undo")
        elif end < 0.6:
            while self.ask(cmd="squash")["ok"] and self._random.random() < 0.9:
                pass
        elif end < 0.8:
            self.ask(cmd="push")
            self.ask(cmd="commit", revision=10**6)
        raise Ended("at a moment of its own choice, perhaps while it holds sessions")


class Register(Talker):
    """A client that writes larger and larger numbers into one record, and says which was acknowledged last."""

    def __init__(self, ports, id):
        super().__init__(0, ports, 0, 0.02, 0.4)
        self.id, self.value, self.acknowledged = id, 0, 0

    def block(self):
        self.change()

    def change(self):
        self.value += 1
        value = self.value
        if self.ask(cmd="modify", id=self.id, set={"balance": value})["ok"]:
            self.acknowledged = value


class Reader(threading.Thread):
    """Looks a member's record up all the while: where the member says before and behind that it leads, the
    number is none that is older than the one that was acknowledged when the look-up was sent."""

    def __init__(self, port, register):
        super().__init__(daemon=True)
        self._port, self._register, self._ends = port, register, threading.Event()
        self.told, self.current = 0, 0
        self.stale, self.error = [], None

    def run(self):
        while not self._ends.is_set():
            try:
                with socket.create_connection(("127.0.0.1", self._port), 1) as stream:
                    self._read(stream)
            except OSError:
                time.sleep(0.05)
            except Exception as error:  # (it is told by the main thread)
                self.error = error
                return

    def _read(self, stream):
        """Where the member doesn't answer it connects anew, so that what it answers when it wakes was asked shortly before."""
        rest, asked_at, lines = b"", [], []
        text = b'{"cmd":"member"}\n{"cmd":"get","id":%d}\n{"cmd":"member"}\n' % self._register.id
        while not self._ends.is_set():
            if asked_at and time.monotonic() - asked_at[0][0] > 0.3:
                return
            if len(asked_at) < 3:
                asked_at.append((time.monotonic(), self._register.acknowledged))
                stream.sendall(text)
            while select.select([stream], [], [], 0.02)[0]:
                data = stream.recv(1 << 16)
                if not data:
                    return
                *whole, rest = (rest + data).split(b"\n")
                lines += whole
            while len(lines) >= 3:
                self._judge(asked_at.pop(0)[1], *map(json.loads, lines[:3]))
                del lines[:3]

    def _judge(self, low, before, found, behind):
        self.told += 1
        if before["role"] == behind["role"] == "leader" and before["term"] == behind["term"] and found["ok"]:
            self.current += 1
            if found["row"]["balance"] < low:
                self.stale.append(f"{found['row']['balance']} where {low} was acknowledged, in term {before['term']}")

    def end(self):
        self._ends.set()


# The check


def replayed(entries):
    """A reference that one connection has asked all lines of the log, with the replies by place, and the places by tag."""
    reference, replies, places = Reference([fuzz.ACCOUNTS]), [], {}
    for number, value in enumerate(entries, 1):
        for line in value.split(b"\n")[:-1]:
            reply = reference.feed(1, line + b"\n")[:-1]
            if not belongs_in_journal(reply):
                raise Differs(f"entry {number}: the reference answers {reply} to {line}")
            tag = TAG.match(line)
            if tag:
                if tag[1] in places:
                    raise Differs(f"{line} is twice in the log")
                places[tag[1]] = len(replies)
            replies.append(reply)
    return reference, replies, places


def check_talker(talker, replies, places):
    """What one client was told: in the log, once, in its order, and with this reply. How many lines were acknowledged, and how many not."""
    last, acknowledged, unknown = -1, 0, 0
    for it in talker.sent:
        place = places.get(it.tag.encode())
        if place is not None:
            if place < last:
                raise Differs(f"{it.line} stands before a line that was sent earlier")
            last = place
        if it.reply is None:
            unknown += 1
        elif belongs_in_journal(it.reply):
            acknowledged += 1
            if place is None:
                raise Differs(f"{it.line} was acknowledged with {it.reply} and is lost")
            if replies[place] != it.reply:
                raise Differs(f"{it.line} was answered {it.reply}, and by the reference {replies[place]}")
        elif place is not None:
            raise Differs(f"{it.line} was refused with {it.reply} and is in the log")
    return acknowledged, unknown


LOOKS = [b'{"cmd":"size"}', b'{"cmd":"revision"}'] + [
    b'{"cmd":"range","index":"%s","limit":1000}' % it for it in (b"id", b"by_balance", b"by_class")
] + [b'{"cmd":"list","index":"line","limit":1000}']


def check_tables(ports, reference):
    """Each member's tables are the reference's, in every order that it shows."""
    for port in ports:
        for look in LOOKS:
            told, wanted = asked(port, look, 30), reference.feed(2, look + b"\n")
            if told != wanted:
                raise Differs(f"member {port} answers {told} to {look}, and the reference {wanted}")


def check_readers(readers):
    """Each member was read; some look-ups were of one that led, and none of them was stale. How many those were."""
    for it in readers:
        if it.stale:
            raise Differs(f"a look-up of the leader was stale: {it.stale[0]}")
        if not it.told:
            raise Stuck("a member never told what it is, so none of its look-ups was compared")
    current = sum(it.current for it in readers)
    if not current:
        raise Stuck("no member led while it was read, so no look-up was compared")
    return current


def look_for_errors(clients):
    """No client has ended by itself."""
    for it in clients:
        if it.error:
            raise Stuck(f"a client: {it.error!r}")


def first_done(talkers, since):
    """When a change was acknowledged first behind this moment, or None; those that were acknowledged before aren't looked at again."""
    found = [it.at for talker in talkers for it in talker.sent[-50:] if it.reply and it.at > since and belongs_in_journal(it.reply)]
    look_for_errors(talkers)
    return min(found) if found else None
