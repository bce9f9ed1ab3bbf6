#!/usr/bin/env python3
"""A service that stands in for `mi_service` in the tests of the scripts: the reference behind sockets, with a journal. By PLANT it has a
fault, which the scripts are to find:

    early    replies go out before their lines are appended       unsynced  replies go out before their lines stay
    held     a holder that goes away leaves no undo lines         torn      a torn last line is replayed and stays
    beyond   a 65th connection is served                          deaf      a reader that doesn't read holds up all
    hoards   what isn't read is kept without a bound              crossed   at times a reply goes to another connection
    foreign  the journal of another schema is taken               quiet     a full disk is no fault
    added    a line that nobody sent is in the journal at times   lacks     memory is lacking at times, though there is some
    dies     it ends by itself, a while after its connections     ends      a full disk ends it
    taken    a line that is refused for room is done and kept     stuck     look-ups are refused for room too
    bound    undoing waits for room too                           unkept    lines that wait for room are done and aren't kept
    loose    a base takes its place before it stays               hasty     a rebase removes segments before its base is in place
    uncounted  a base lacks which id comes next                   unordered a base has equals by their ids
    trusting a torn base is taken, and one that breaks rules        ripe     a base has what open sessions changed"""
import argparse
import fcntl
import json
import os
import re
import selectors
import socket
import sys
import time

TOP = os.path.dirname(os.path.dirname(os.path.dirname(os.path.realpath(__file__))))
sys.path[:0] = [f"{TOP}/scripts", f"{TOP}/clients/python", f"{TOP}/scripts/tests"]

import mi_client.schema  # noqa: E402
from mi_tools.meaning import hash_of  # noqa: E402
import bases  # noqa: E402
import stand_in_base  # noqa: E402
from reference import CHANGES, LONGEST_LINE, STEPS, Index, Reference, Refusal, Schema, form, is_foreign, read  # noqa: E402

PLANT = os.environ.get("PLANT", "")
BOUND = 65_536
MOST = 64
UNDO = b'{"cmd":"undo"}\n'
ROOM, PIECE, ASKED_ROOM = 1 << 20, 16_384, LONGEST_LINE + 1 + 65_536
NO_ROOM = b'{"error":"journal","ok":false}\n'
NO_PLACE = b'{"error":"places","ok":false}\n'
END = re.compile(rb'\{"service":"end","connection":(\d+)\}')
MEMORY = b'{"error":"memory","ok":false}\n'
DONE = b'{"ok":true}\n'
CHANGED = (b'{"id":', b'{"ok":true}', b'{"erased":', b'{"ok":true,"revision":', b'{"committed":', b'{"ok":true,"undone":', b'{"ok":true,"pushed":')


def stop(status, why):
    try:
        print(why, file=sys.stderr, flush=True)
    except OSError:
        pass
    os._exit(status)


def schemas_of(found):
    """The same tables as schemas of the reference."""
    made = []
    for table in found.tables:
        names = [it.name for it in table.columns]
        indexes = [Index(it.name, it.kind, [(names.index(p.column), p.descends) for p in it.parts], it.unique) for it in table.indexes[1:]]
        made.append(Schema(table.name, [(it.name, it.type) for it in table.columns], indexes, table.max_rows, table.first_id))
    return made


def changed(reply):
    return reply.startswith(CHANGED) or reply.endswith(b'"lost":true,"ok":false}\n')


def is_kept(text, reply):
    """Whether the journal has a line that was answered so. A reserve is answered as a change is, and changes nothing."""
    return changed(reply) and (reply != DONE or form(read(text))[0] != "reserve")


class Journal:
    """The file: lines are written over the room behind those that are there, and made to stay."""

    def __init__(self, path, reference, wanted, sync, is_rebased=False):
        self.path, self.sync, self.handle, self.waits = path, sync, None, False
        if not path:
            return
        try:
            is_rebased and stand_in_base.check_there(path)
        except stand_in_base.Refused as why:
            stop(3, f"journal: {why}")
        try:
            self.handle = os.open(bases.segment_path(path, stand_in_base.newest_of(path)), os.O_RDWR | os.O_CREAT, 0o600)
            fcntl.flock(self.handle, fcntl.LOCK_EX | fcntl.LOCK_NB)
            self.standing = stand_in_base.Standing(path, reference, wanted, lambda text: changed(reference.answer_ended(1, text)), PLANT)
            wanted = self.standing.header
        except stand_in_base.Refused as why:
            stop(3, f"journal: {why}: {path}")
        except BlockingIOError:
            stop(3, f"journal: locked: {path}")
        except OSError as error:
            stop(3, f"journal: file: {path}: {error.strerror} ({error.errno})")
        whole = os.pread(self.handle, os.fstat(self.handle).st_size, 0)
        whole, self.room = whole.rstrip(b"\0") if PLANT == "torn" else whole.partition(b"\0")[0], len(whole)
        end = len(whole) if PLANT == "torn" else whole.rfind(b"\n") + 1
        lines = whole[:end].split(b"\n")[:-1] if PLANT != "torn" else [it for it in whole.split(b"\n") if it]
        if lines and lines[0] != wanted and not (PLANT == "foreign" and lines[0].startswith(b'{"journal"')):
            is_later = self.standing.number > 1
            why = f"segment {self.standing.number}" if is_later else "schema" if lines[0].startswith(b'{"journal"') else "line 1"
            stop(3, f"journal: {why}: {path}")
        try:
            self.standing.check_skip(lines or [wanted])
        except stand_in_base.Refused as why:
            stop(3, f"journal: {why}: {path}")
        for number, text in enumerate(lines[1 + self.standing.skip:], 2 + self.standing.skip):
            reply = reference.answer_ended(1, text)
            self.standing.starts.note((self.standing.number, number - 2), reference)
            if not changed(reply) and PLANT != "torn":
                stop(3, f"journal: {stand_in_base.place_of(self.standing.number, number)}: {path}")
        self.end = end
        if not lines:
            if len(whole) < self.room:
                stop(3, f"journal: file: {path}")
            self.append(wanted + b"\n")
        elif PLANT != "torn":
            self.room = end
            os.ftruncate(self.handle, end)
        if is_rebased:
            self.rebase(reference)
        self.gone(reference, 1)
        self.stay()

    def rebase(self, reference):
        """The base is made anew, and this ends."""
        os.fdatasync(self.handle)
        try:
            stand_in_base.rebase(self.path, self.standing, reference, os.pread(self.handle, self.end, 0), PLANT)
        except stand_in_base.Refused as why:
            stop(3, f"journal: {why}: {self.path}")
        except OSError as error:
            stand_in_base.discard_new(self.path)
            stop(4, f"fault: journal: {self.path}: {error.strerror} ({error.errno})")
        os._exit(0)

    def append(self, text):
        if self.handle is None:
            return
        self.waits = True
        try:
            while text:
                count = os.pwrite(self.handle, text, self.end)
                text, self.end = text[count:], self.end + count
            self.room = max(self.room, self.end)
        except OSError as error:
            PLANT == "quiet" or stop(4, f"fault: journal: {self.path}: {error.strerror} ({error.errno})")

    def has_room(self, count):
        """Whether so many bytes can be appended for certain: room for them is made where there is none."""
        if self.handle is None:
            return True
        most = self.end + count + (ROOM if self.room < self.end + count else 0)
        try:
            while self.room < most:
                self.room += os.pwrite(self.handle, bytes(PIECE), self.room)
        except OSError as error:
            PLANT != "ends" or stop(4, f"fault: journal: {self.path}: {error.strerror} ({error.errno})")
        return self.room >= self.end + count

    def gone(self, reference, connection):
        """A connection has gone away; what it held is undone."""
        held = reference.held if reference.holder == connection else 0
        reference.rests.pop(connection, None)
        reference.close(connection)
        if PLANT != "held":
            self.append(UNDO * held)

    def stay(self):
        if self.handle is None or not self.waits or self.sync == "never":
            return
        try:
            os.fdatasync(self.handle)
        except OSError as error:
            PLANT == "quiet" or stop(4, f"fault: journal: {self.path}: {error.strerror} ({error.errno})")
        self.waits = False


def waits_for_room(text, depth):
    """Whether a line may have to wait for room: it is a change, but for a short undo of an open session."""
    try:
        name = form(read(text))[0] if len(text) <= LONGEST_LINE else ""
    except Refusal:
        name = ""
    is_undo = name in ("undo", "undo_all") and depth and len(text) < 64 and PLANT != "bound"
    return name in CHANGES | STEPS and not is_undo or PLANT == "stuck"


def compact(reply):
    return json.dumps(reply, separators=(",", ":"), sort_keys=True, ensure_ascii=False).encode() + b"\n"


class Client:
    def __init__(self, number, stream):
        self.number, self.stream = number, stream
        self.lines, self.rest, self.held, self.out, self.has_ended, self.is_first = [], b"", b"", b"", False, True
        self.asked, self.since = 0, 0

    def take(self, more):
        """Bytes that have come, b"" at the end. Behind a foreign first line no more is heard."""
        *lines, self.rest = (self.rest + more).split(b"\n")
        if lines and self.is_first and is_foreign(lines[0]):
            lines, self.rest, self.has_ended = lines[:1], b"", True
        self.lines += lines
        self.is_first = self.is_first and not lines
        if not more:
            self.has_ended = True
            if self.rest:
                self.lines.append(self.rest)
                self.rest = b""


def listener_at(path):
    listener = socket.socket(socket.AF_UNIX)
    listener.bind(path)
    listener.listen(128)
    return listener


class Service:
    def __init__(self, options):
        self.began = time.monotonic()
        schema = mi_client.schema.Schema.read(options.schema) if options.schema else mi_client.schema.Schema.built_in()
        self.reference, self.tables = Reference(schemas_of(schema), schema.first_revision), [it.name for it in schema.tables]
        self.text = mi_client.schema.BUILT_IN
        if options.schema:
            with open(options.schema, encoding="utf-8") as file:
                self.text = file.read()
        wanted = f'{{"journal":1,"revision":{schema.first_revision},"schema":"{hash_of(schema)}"}}'.encode()
        self.journal = Journal(options.journal, self.reference, wanted, options.sync, options.rebase)
        self.listener = listener_at(options.unix) if options.unix else socket.create_server(("127.0.0.1", options.listen), backlog=128)
        self.listener.setblocking(False)
        self.selector, self.clients, self.next, self.asked = selectors.DefaultSelector(), {}, 2, 0
        self.comer, self.waited, self.beside, self.heard, self.ends = None, 0, None, 0, []
        self.selector.register(self.listener, selectors.EVENT_READ, None)
        print(f"listening {options.unix or f'127.0.0.1:{self.listener.getsockname()[1]}'}", flush=True)

    def has_place(self):
        return len(self.clients) < MOST or PLANT == "beyond"

    def accepted(self):
        """One that has come, or None."""
        try:
            stream, _ = self.listener.accept()
        except BlockingIOError:
            return None
        if stream.family != socket.AF_UNIX:
            stream.setsockopt(socket.IPPROTO_TCP, socket.TCP_NODELAY, 1)
        stream.setblocking(False)
        self.next += 1
        return Client(self.next - 1, stream)

    def accept(self):
        """Those that have come, while there are places. One that comes to no place waits for some turns, and stands beside the others then."""
        while self.has_place():
            client, self.comer = self.comer or self.accepted(), None
            if client is None:
                return
            self.clients[client.number] = client
            self.selector.register(client.stream, selectors.EVENT_READ | selectors.EVENT_WRITE, client)
        if self.beside is None and self.comer is None:
            self.comer, self.waited = self.accepted(), 0
        elif self.beside is None and self.waited == 4:
            self.beside, self.comer, self.heard = self.comer, None, time.monotonic()
        self.waited += 1

    def attend(self):
        """The one beside the others is answered lines of the service alone."""
        client = self.beside
        self.read(client)
        if client.lines:
            self.heard = time.monotonic()
        is_silent = time.monotonic() > self.heard + 1.5
        if is_silent and not client.asked and not client.has_ended:
            client.has_ended, client.held = True, NO_PLACE
        while client.lines:
            text = client.lines.pop(0)
            own = text.startswith(b'{"service":"')
            client.held += self.told(text) if own else NO_PLACE
            client.asked, client.has_ended = client.asked + 1, client.has_ended or not own
        more, client.held = client.held, b""
        self.send(client, more)
        if client.has_ended and not client.out or is_silent:
            client.stream.close()
            self.beside = None

    def watch(self):
        """Those that come are told while there is a place, so that it doesn't wake for one that waits."""
        has_place = self.has_place() or self.beside is None and self.comer is None
        is_told = self.listener in self.selector.get_map()
        if has_place and not is_told:
            self.selector.register(self.listener, selectors.EVENT_READ, None)
        elif is_told and not has_place:
            self.selector.unregister(self.listener)

    def gone(self, client):
        """A connection ends or is cut."""
        self.selector.unregister(client.stream)
        client.stream.close()
        del self.clients[client.number]
        self.journal.gone(self.reference, client.number)

    def told(self, text):
        """What is told to a line of the service's own."""
        asked = text[:-1] if text.endswith(b"\r") else text
        if asked == b'{"service":"schema"}':
            return compact({"ok": True, "schema": self.text})
        ended = END.fullmatch(asked)
        if ended:
            self.ends.append(int(ended[1]))
            return DONE
        if asked != b'{"service":"status"}':
            return compact({"error": "form", "ok": False})
        holder = self.reference.holder
        connections = [{"holds": it.number == holder, "lines": it.asked, "number": it.number, "since": it.since if it.number == holder else None,
                        "unsent": len(it.out) + len(it.held)} for it in self.clients.values()]
        tables = [{"memory": None, "name": it, "size": json.loads(self.reference.answer(0, json.dumps({"cmd": "size", "table": it}).encode()))["size"]} for it in self.tables]
        depth = json.loads(self.reference.answer(0, b'{"cmd":"revision"}'))["depth"]
        return compact({"connections": connections, "depth": depth, "holder": holder, "journal": None, "ok": True, "tables": tables,
                        "uptime": int(time.monotonic() - self.began), "version": "0.1.0"})

    def ask(self, client):
        """Lines of a connection, as long as its replies have room."""
        while client.lines and (len(client.out) + len(client.held) <= BOUND or PLANT == "hoards"):
            text = client.lines.pop(0)
            holder = self.reference.holder
            self.asked += 1
            if PLANT == "dies" and self.asked == 30:
                os.closerange(3, 256)
                time.sleep(0.2)
                stop(1, "it died")
            lacks = PLANT == "lacks" and self.asked % 20 == 0
            own = text.startswith(b'{"service":"')
            lacks_room = not own and not self.journal.has_room(ASKED_ROOM) and waits_for_room(text, len(self.reference.old))
            is_done = not lacks_room or PLANT in ("taken", "unkept")
            reply = MEMORY if lacks else self.told(text) if own else self.reference.answer_ended(client.number, text) if is_done else NO_ROOM
            keep = not own and is_kept(text, reply) and holder in (None, client.number) and not (lacks_room and PLANT == "unkept")
            reply = NO_ROOM if lacks_room and PLANT == "taken" else reply
            client.held += reply
            client.asked += 1
            if self.reference.holder == client.number != holder:
                client.since = client.asked
            if PLANT == "crossed" and self.asked % 97 == 0:
                for it in self.clients.values():
                    it.held += reply if it is not client else b""
            if PLANT == "early":
                self.send(client, client.held)
                client.held = b""
            if keep:
                self.journal.append(text + b"\n")
            if PLANT == "added" and self.asked % 50 == 0 and not self.reference.held:
                self.reference.answer(0, b'{"cmd":"start"}')
                self.reference.answer(0, b'{"cmd":"squash"}')
                self.journal.append(b'{"cmd":"start"}\n{"cmd":"squash"}\n')

    def read(self, client):
        """What has come, while what it is answered has room."""
        if client.has_ended or len(client.lines) > 100 and PLANT != "hoards":
            return
        try:
            client.take(client.stream.recv(BOUND))
        except BlockingIOError:
            pass
        except OSError:
            client.lines, client.has_ended, client.out, client.held = [], True, b"", b""

    def send(self, client, more=b""):
        client.out += more
        try:
            if PLANT == "deaf" and client.out:
                client.stream.setblocking(True)
                client.stream.sendall(client.out)
                client.stream.setblocking(False)
                client.out = b""
            elif client.out:
                client.out = client.out[client.stream.send(client.out):]
        except BlockingIOError:
            pass
        except OSError:
            client.lines, client.has_ended, client.out, client.held = [], True, b"", b""

    def turn(self):
        """One poll, and all that it shows."""
        self.watch()
        busy = any(it.lines and len(it.out) <= BOUND for it in self.clients.values())
        for it in self.clients.values():
            wants = selectors.EVENT_READ * (not it.has_ended and len(it.lines) <= 100 or PLANT == "hoards") | selectors.EVENT_WRITE * bool(it.out)
            self.selector.modify(it.stream, wants or selectors.EVENT_WRITE, it)
        for key, events in self.selector.select(0 if busy or self.comer else 0.01 if self.beside else 0.1):
            if key.data is not None and events & selectors.EVENT_READ:
                self.read(key.data)
        for client in list(self.clients.values()):
            self.ask(client)
        if PLANT == "unsynced":
            self.flush()
        self.journal.stay()
        self.flush()
        for client in [it for it in self.clients.values() if it.number in self.ends or it.has_ended and not it.lines and not it.out]:
            self.gone(client)
        self.ends.clear()
        self.accept()
        if self.beside:
            self.attend()
        self.journal.stay()

    def flush(self):
        for client in self.clients.values():
            more, client.held = client.held, b""
            self.send(client, more)


def main():
    parser = argparse.ArgumentParser()
    parser.add_argument("--schema")
    parser.add_argument("--listen", type=int, default=0)
    parser.add_argument("--unix")
    parser.add_argument("--rebase", action="store_true")
    parser.add_argument("--journal")
    parser.add_argument("--sync", choices=["always", "turn", "never"], default="turn")
    service = Service(parser.parse_args())
    while True:
        service.turn()


if __name__ == "__main__":
    main()
