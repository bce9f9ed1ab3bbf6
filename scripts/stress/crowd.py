"""A service with all its places taken by clients that come and go, most of which say nothing or don't read.

    stress crowd [--part comers|full|deaf|slow|sated|place|beside] [--connections N] [--short] [--seed N] [--program FILE]

Without --part all run, one behind another.

    comers   N connections (10,000), 64 at once: half of them silent, a tenth asks pages and never reads, some read slowly, the others ask
             random lines ahead, hold sessions and break off. By the journal that is kept meanwhile each reply must be the reference's, byte for byte
             (`journal_walk.py`), and the server's memory must end where it began
    full     the same of N connections (1,000) over a journal whose disk is full, has room for a little, and is full again. Nothing but changes is
             refused, as `journal`; no line that is refused so is kept, and each that is acknowledged is
    deaf     one client asks pages of a megabyte without reading: the median wait of the others is at most 1.5 of what it is without that
             client, and the server's memory rises by no more than the bound of what is unsent, one page, and some
    slow     one client asks ahead over a slow line (root makes it: a network of its own, whose sockets keep little) and reads bit by bit, so
             that something is always unsent: each reply comes whole, and the server's memory rises by no more than that, however much was sent
    sated    64 clients read a page of a megabyte each, and then say nothing: behind the last the server's memory is back
    place    64 silent clients are attached; those that come then and ask of the tables are told that there is no place, and who comes behind one
             that has left is served
    beside   64 clients ask all the time; one more is told status and schema, and ends one of them. One that asks of the tables, or says nothing
             for some 2 seconds, is told that there is no place and let go, and the next one is told the status again

Where nobody asks, the server takes no processor time, in `deaf` and `place`."""
import contextlib
import ctypes
import fcntl
import json
import random
import socket
import statistics
import struct
import threading
import time
from concurrent.futures import ProcessPoolExecutor

from stress import parts
from stress import service
from stress.callers import Caller, Deaf, Load, Silent, Slow
from stress.full_disks import Filling, on_each, takes_looking
from stress.kept import Kept
from stress.journal_walk import NO_ROOM, Differs, FullWalk
from stress.service import MOST, Ended, Service

CONNECTIONS, SHORT_CONNECTIONS = 10_000, 300
FULL_CONNECTIONS, SHORT_FULL_CONNECTIONS = 1_000, 100
STILL = 300
"""Seconds in which somebody must be answered."""
RISE = 16_000
"""What a server's memory may rise by from the first connections to the last, in kB: a little of each place."""


class Crowd(Load):
    """All places are taken until so many connections have come."""

    def __init__(self, running, journal, seed, first_number, connections):
        super().__init__(running, journal, seed, first_number, MOST)
        self.to_come, self.kinds, self.memory = connections, {"silent": 0, "deaf": 0, "slow": 0, "asking": 0}, []

    def made(self, stream, said, speech):
        pick, now = self.pick, time.monotonic()
        chance = pick.random()
        if chance < 0.5:
            self.kinds["silent"] += 1
            return Silent(stream, said, speech, pick.choice(["shut", "close", "reset"]), now + pick.uniform(0, 0.3))
        if chance < 0.6:
            self.kinds["deaf"] += 1
            return Deaf(stream, said, speech, now + pick.uniform(0.05, 0.3))
        if chance < 0.63:
            self.kinds["slow"] += 1
            return Slow(stream, said, speech, pick.randint(1, 60))
        self.kinds["asking"] += 1
        return Caller(stream, said, speech, pick.randint(1, 30), pick.choice([1, 4, 30]), pick.choice(["shut", "close", "reset"]))

    def look_on(self):
        """Its memory, now and then; and that somebody is answered."""
        if len(self.all) >= 100 * (len(self.memory) + 1):
            self.memory.append(self.running.memory())
        if time.monotonic() - self.replied > STILL:
            raise Differs(f"nobody was answered for {STILL} s, when {len(self.all)} connections had come")
        if self.running.process.poll() is not None:
            raise Ended(*self.running.ended())

    def all_come(self):
        while self.callers or self.to_come:
            while self.to_come and len(self.callers) < self.count:
                self.come()
                self.to_come -= 1
            self.step()
            self.look_on()


def comers(path, options, folder):
    began, count = time.monotonic(), options.connections or (SHORT_CONNECTIONS if options.short else CONNECTIONS)
    kept = Kept(path, folder, options.seed)
    with kept.started() as running:
        looked = kept.look(running)
        with Crowd(running, kept.journal, options.seed, kept.next, count) as crowd:
            crowd.all_come()
            crowd.drain()
        running.settle()
        came, kept.next = time.monotonic() - began, crowd.next
        last = running.memory()
        kept.follow([looked, *crowd.all])
        kept.follow([kept.look(running)])
    looks = crowd.memory or [last]  # (of fewer than a hundred there is none before the end)
    early, most = looks[0], max(looks)
    if max(last, most) > early + RISE:
        raise Differs(f"the server's memory rose from {early} kB to {most} kB, and was {last} kB at the end")
    kinds = ", ".join(f"{n} {it}" for it, n in crowd.kinds.items())
    return (
        f"{count} connections, {MOST} at once ({kinds}), in {came:.0f} s: {kept.answered} replies are the reference's; "
        f"memory {early} kB after the first hundred, {most} kB at most, {last} kB behind them"
    )


# A disk that is full at times


class FullCrowd(Filling, Crowd):
    """The same of a service whose journal's disk is full most of the time, and half of whose clients ask many lines."""

    PAUSE = 0.5, 2

    def made(self, stream, said, speech):
        if self.pick.random() < 0.5:
            self.kinds["asking"] += 1
            return Load.made(self, stream, said, speech)
        return super().made(stream, said, speech)


def come_and_go(path, options, home, disk):
    """A crowd on a disk that is full and has room by turns. How many lines were refused, and how many weren't."""
    count = options.connections or (SHORT_FULL_CONNECTIONS if options.short else FULL_CONNECTIONS)
    kept = Kept(path, home, f"{options.seed}/full", walk=FullWalk)
    with kept.started() as running:
        running.kill()
    disk.full()
    takes_looking(disk, kept.journal)
    with kept.started(largest_file=disk.size) as running:
        looked = kept.look(running)
        with FullCrowd(disk, running, kept.journal, f"{options.seed}/full", kept.next, count) as crowd:
            crowd.all_come()
            crowd.drain()
        running.settle()
        kept.next = crowd.next
        kept.follow([looked, *crowd.all])
        takes_looking(disk, kept.journal)
        disk.set(running)
        kept.follow([kept.look(running)])
        running.kill()
    with kept.started() as running:
        kept.look(running, changes=False)
    replies = [it for one in crowd.all for it in one.replies]
    return replies.count(NO_ROOM), len(replies) - replies.count(NO_ROOM)


def full(path, options, folder):
    began = time.monotonic()
    return f"{on_each(folder, lambda home, disk: come_and_go(path, options, home, disk))}; {time.monotonic() - began:.0f} s"


# One that never reads


PAGE = b'{"cmd":"range","index":"by_balance"}\n'
GET = b'{"cmd":"get","id":7}\n'
ROWS = 1000


def fill(stream):
    """As many records as a page has, each with a text as long as can be."""
    for first in range(0, ROWS, 50):
        owners = [f"{n:04}".ljust(1024, "x") for n in range(first, first + 50)]
        rows = [f'{{"cmd":"insert","row":{{"owner":"{it}","balance":1,"vip":true}}}}\n' for it in owners]
        service.asked(stream, "".join(rows).encode())


def waits(streams, count):
    """How long so many lines wait for their replies, by turns on these connections."""
    found = []
    for n in range(count):
        stream = streams[n % len(streams)]
        began = time.perf_counter()
        service.asked(stream, GET)
        found.append(time.perf_counter() - began)
    return found


def idles(running, what):
    """Where nobody asks, it takes no processor time."""
    used = running.seconds()
    time.sleep(1)
    used = running.seconds() - used
    if used > 0.2:
        raise Differs(f"{what} it takes {used:.2f} s of processor in a second, and nobody asks")


def median_waits(running, streams, rounds, count):
    """The median wait without a client that never reads and with one, in rounds by turns, and how far the memory rose meanwhile."""
    without, beside, before = [], [], running.memory()
    for _ in range(rounds):
        without += waits(streams, count)
        with running.connect(receive=65_536) as deaf:
            deaf.setblocking(False)
            asked = deaf.send(PAGE * 500)
            time.sleep(0.2)
            beside += waits(streams, count)
            rise = running.memory() - before
            idles(running, "beside a client that never reads")
        if asked < len(PAGE) * 20:
            raise Differs("the client that never reads could not ask")
    return statistics.median(without), statistics.median(beside), rise


def most_rise(page):
    """What one client's replies may take in all, in kB: what is unsent, one reply that is being made, which may have room for twice as much, and
    what is read at once."""
    return (65_536 + 3 * page) // 1024 + 4_000


def deaf(path, options, folder):
    rounds, count = (2, 200) if options.short else (10, 1000)
    with Service(path) as running, contextlib.ExitStack() as opened:
        streams = [opened.enter_context(running.connect()) for _ in range(8)]
        for it in streams:
            it.settimeout(STILL)
        try:
            fill(streams[0])
            page = len(service.asked(streams[0], PAGE))
            for _ in range(3):
                # (a machine that is busy makes some tries slow, and a client that holds up the others makes all slow)
                without, beside, rise = median_waits(running, streams, rounds, count)
                if beside <= 1.5 * without:
                    break
        except socket.timeout:
            raise Differs(f"the others weren't answered within {STILL} s, beside a client that never reads") from None
    said = f"the others wait {1e6 * without:.0f} µs without and {1e6 * beside:.0f} µs beside a client that never reads (medians)"
    most = most_rise(page)
    if beside > 1.5 * without:
        raise Differs(said)
    if rise > most:
        raise Differs(f"beside a client that never reads the server's memory rises by {rise} kB, and {most} kB are the most")
    return f"{said}; memory rises by {rise} kB, with pages of {page // 1024} kB"


# One that never has all


FEW = b'{"cmd":"range","index":"by_balance","limit":40}\n'
NEW_NETWORK = 0x40000000
SET_FLAGS, IS_UP = 0x8914, 1


def narrow():
    """This process gets a network of its own, of which a socket keeps 16 KiB that aren't sent, as on a slow line; one that keeps megabytes takes
    all that waits as soon as there is room."""
    if ctypes.CDLL(None, use_errno=True).unshare(NEW_NETWORK):
        raise OSError(ctypes.get_errno(), "no network of its own can be made")
    with socket.socket(socket.AF_INET, socket.SOCK_DGRAM) as any_socket:
        fcntl.ioctl(any_socket, SET_FLAGS, struct.pack("16sH14x", b"lo", IS_UP))
    with open("/proc/sys/net/ipv4/tcp_wmem", "w", encoding="ascii") as file:
        file.write("4096 16384 16384")


def trickle(running, stream, reply, replies):
    """So many replies are asked ahead on this connection and read in bits. Answers how far the server's memory rose."""
    before, rise, got, whole, twice = running.memory(), 0, 0, len(reply) * replies, reply + reply
    asking = threading.Thread(target=stream.sendall, args=(FEW * replies,))
    asking.start()
    while got < whole:
        bit = stream.recv(2048)
        at = got % len(reply)
        if not bit or bit != twice[at : at + len(bit)]:
            raise Differs(f"a client that reads slowly is sent something else behind {got} bytes")
        got += len(bit)
        if got % 131_072 < len(bit):
            rise = max(rise, running.memory() - before)
    asking.join()
    return rise


def slow_one(path, replies):
    """How far the memory rises beside a client that reads slowly, and the size of one of its replies."""
    narrow()
    with Service(path) as running, running.connect() as other, running.connect(receive=4096) as stream:
        stream.settimeout(STILL)
        fill(other)
        reply = [service.asked(other, FEW) for _ in range(3)][-1]
        return trickle(running, stream, reply, replies), len(reply)


def slow(path, options, folder):
    replies = 350 if options.short else 3500
    try:
        with ProcessPoolExecutor(1) as own:
            rise, size = own.submit(slow_one, path, replies).result()
    except PermissionError:
        return "left out: a network of its own needs root"
    most, sent = most_rise(size), replies * size // 1_000_000
    if rise > most:
        raise Differs(f"beside a client that reads slowly the server's memory rises by {rise} kB while it is sent {sent} MB, and {most} kB are the most")
    return f"{replies} replies of {size // 1024} kB are asked ahead and read in bits: each comes whole; memory rises by {rise} kB while {sent} MB are sent"


# Those that have all


def sated(path, options, folder):
    with Service(path) as running, contextlib.ExitStack() as opened:
        streams = [opened.enter_context(running.connect()) for _ in range(MOST)]
        fill(streams[0])
        page = len(service.asked(streams[0], PAGE))
        before = running.memory()
        for it in streams[1:]:
            service.asked(it, PAGE)
        rise = running.memory() - before
    most = most_rise(page)
    said = f"{MOST} clients that have read a page of {page // 1024} kB each stay: memory rises by {rise} kB"
    if rise > most:
        raise Differs(f"{said}, and {most} kB are the most")
    return said


# Places


SIZE = b'{"cmd":"size"}\n'
STATUS, SCHEMA = service.STATUS, b'{"service":"schema"}\n'
NO_PLACE = b'{"error":"places","ok":false}\n'


def check_away(stream):
    """A connection is told that there is no place for it, perhaps by a line for each of its own, and nothing else, and is let go."""
    got = b""
    with contextlib.suppress(ConnectionResetError):
        while more := stream.recv(1 << 16):
            got += more
            if got.endswith(b"\n") and got.replace(NO_PLACE, b""):
                break
    if not got or got.replace(NO_PLACE, b""):
        raise Differs(f"connection {MOST + 1} is served while {MOST} are: it is told {got!r}")


def turned_away(running, text=b""):
    """How long it takes until one that sends this is told that there is no place for it, and is let go."""
    began = time.perf_counter()
    with running.connect() as stream:
        stream.sendall(text)
        check_away(stream)
    return time.perf_counter() - began


def place(path, options, folder):
    with Service(path) as running, contextlib.ExitStack() as opened:
        attached = [opened.enter_context(running.connect()) for _ in range(MOST)]
        for it in attached:
            service.asked(it, SIZE)
        crowd = [opened.enter_context(running.connect()) for _ in range(8)]
        for it in crowd:
            it.sendall(SIZE)
        for it in crowd:
            check_away(it)
        idles(running, f"with {MOST} silent clients")
        pick = random.Random(options.seed)
        for n in range(40 if options.short else 400):
            gone = attached.pop(pick.randrange(len(attached)))
            gone.shutdown(socket.SHUT_WR) if n % 2 else gone.close()
            comer = opened.enter_context(running.connect())
            if service.asked(comer, SIZE) != b'{"ok":true,"size":0}\n':
                raise Differs(f"one has left, and who comes behind it isn't served ({n} were before it)")
            attached.append(comer)
        for it in attached:
            service.asked(it, SIZE)
        turned_away(running, SIZE)
        opened.close()
        with running.connect() as late:
            service.asked(late, SIZE)
    return f"{MOST} silent clients are attached, {len(crowd)} more are turned away, and {n + 1} that come behind one that has left are served"


class Busy(threading.Thread):
    """Clients that ask all the time until it is stopped. Those that are let go are left out."""

    AHEAD = 20

    def __init__(self, streams):
        super().__init__(daemon=True)
        self.streams, self.stops, self.ended, self.lines = list(streams), threading.Event(), [], 0

    def each(self, act):
        for it in list(self.streams):
            try:
                act(it)
            except (EOFError, OSError):
                self.ended.append(it)
                self.streams.remove(it)

    def take(self, stream):
        service.asked(stream, b"", self.AHEAD)
        self.lines += self.AHEAD

    def run(self):
        while not self.stops.is_set():
            self.each(lambda it: it.sendall(SIZE * self.AHEAD))
            self.each(self.take)

    def stop(self):
        self.stops.set()
        self.join()


def status_beside(running):
    """What one more is told of those that are attached, and how long that takes."""
    began = time.perf_counter()
    with running.connect() as stream:
        told = json.loads(service.asked(stream, STATUS))
        took = time.perf_counter() - began
        if not told["ok"] or len(told["connections"]) != MOST:
            raise Differs(f"{MOST} connections are attached, and one more is told {told}")
        if not json.loads(service.asked(stream, SCHEMA))["ok"]:
            raise Differs("one more isn't told the schema")
    return took


def ended_beside(running, busy):
    """One of those that are attached is ended by one more, and its place is free then."""
    with running.connect() as stream:
        number = json.loads(service.asked(stream, STATUS))["connections"][-1]["number"]
        done = service.asked(stream, b'{"service":"end","connection":%d}\n' % number)
        began = time.monotonic()
        while len(busy.ended) < 1 and time.monotonic() < began + STILL:
            time.sleep(0.01)
        left = json.loads(service.asked(stream, STATUS))["connections"]
    if done != b'{"ok":true}\n' or len(busy.ended) != 1 or number in [it["number"] for it in left]:
        raise Differs(f"connection {number} was to be ended: {done!r}, {len(busy.ended)} were let go, {len(left)} are attached")
    comer = running.connect()
    if service.asked(comer, SIZE) != b'{"ok":true,"size":0}\n':
        raise Differs("one was ended, and who comes behind it isn't served")
    return comer


def beside(path, options, folder):
    rounds = 3 if options.short else 50
    with Service(path) as running, contextlib.ExitStack() as opened:
        streams = [opened.enter_context(running.connect()) for _ in range(MOST)]
        for it in streams:
            service.asked(it, SIZE)
        busy = Busy(streams)
        busy.start()
        try:
            looks = [(status_beside(running), turned_away(running, SIZE)) for _ in range(rounds)]
            silent = [turned_away(running, it) for it in (b"", b'{"cmd":"si')]
            status_beside(running)
            opened.enter_context(ended_beside(running, busy))
            turned_away(running, SIZE * 1000)
            took = status_beside(running)
        finally:
            busy.stop()
        if not 1 <= min(silent) or max(silent) > 30:
            raise Differs(f"one that says nothing is let go behind {min(silent):.1f} to {max(silent):.1f} s")
    told, away = (1e3 * statistics.median(it) for it in zip(*looks))
    return (
        f"beside {MOST} clients that ask {busy.lines} lines one more is told the status in {told:.1f} ms (median of {rounds}, at most "
        f"{1e3 * max(it for it, _ in looks):.1f}), turned away in {away:.1f} ms, and if it says nothing in {max(silent):.1f} s; it ends one, whose "
        f"place is free then; at last {1e3 * took:.1f} ms"
    )


PARTS = {"comers": comers, "full": full, "deaf": deaf, "slow": slow, "sated": sated, "place": place, "beside": beside}


def main(given=None):
    parser = parts.parser_of(__doc__, PARTS)
    parser.add_argument("--connections", type=int)
    return parts.run("crowd", PARTS, parser.parse_args(given), (Differs, Ended, OSError))
