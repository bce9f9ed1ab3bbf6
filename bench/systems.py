"""The systems that are compared, each a process that gets the lines of a workload and whose replies are timed.

A system is asked by `ask(ops)`, which gives the replies as lines of JSON, the seconds until the last had come, and the seconds
that the process was on a processor meanwhile."""
import os
import select
import signal
import socket
import subprocess
import time

import fcntl

import workloads

PIPE = 1 << 20
F_SETPIPE_SZ = 1031
WATCH_SECONDS = 0.05
MARK = b"end of the replies"
MOST_ROWS = 1000
"""Of a page whose line says no number."""


class TooSlow(Exception):
    """The replies hadn't all come when the time was over. `done` is how many had."""

    def __init__(self, done, seconds):
        super().__init__(f"{done} replies in {seconds:.0f} s")
        self.done, self.seconds = done, seconds


class Ended(Exception):
    """The process ended, or refused memory."""


class Process:
    """A process, the descriptors that it reads and writes, and its times and memory."""

    def __init__(self, words, memory, **how):
        self.ran, self.memory = subprocess.Popen(words, stderr=subprocess.DEVNULL, bufsize=0, **how), memory

    def on_processor(self):
        """Seconds, so far; of the first thread, which does the work in all of these systems."""
        with open(f"/proc/{self.ran.pid}/schedstat", encoding="ascii") as file:
            return int(file.read().split()[0]) / 1e9

    def resident(self):
        """Bytes."""
        with open(f"/proc/{self.ran.pid}/status", encoding="ascii") as file:
            return next(int(it.split()[1]) * 1024 for it in file if it.startswith("VmRSS"))

    def exchange(self, source, sink, data, is_end, limit):
        """Writes the data and reads until `is_end` of the newest piece; its replies, the seconds, and those on a processor.
        A system that keeps whole copies could take the machine's memory, so it is watched meanwhile."""
        rest, pieces = memoryview(data), []
        poll = select.poll()
        poll.register(source, select.POLLIN)
        # (both ends are one descriptor where it is a socket)
        writing = select.POLLOUT | (select.POLLIN if source == sink else 0)
        poll.register(sink, writing)
        busy, began = self.on_processor(), time.perf_counter()
        watched = began
        while True:
            now = time.perf_counter()
            if now - began > limit:
                raise TooSlow(b"".join(pieces).count(b"\n"), now - began)
            if now - watched > WATCH_SECONDS:
                watched = now
                if self.resident() > self.memory:
                    raise Ended(f"it took more than {self.memory / 1e9:.0f} GB")
            for descriptor, event in poll.poll(1000 * WATCH_SECONDS):
                if event & select.POLLOUT and len(rest):
                    rest = rest[os.write(descriptor, rest[:PIPE]):]
                    if not len(rest):
                        poll.unregister(sink)
                        poll.register(source, select.POLLIN)
                if event & (select.POLLIN | select.POLLHUP | select.POLLERR) and descriptor == source:
                    piece = os.read(source, PIPE)
                    if not piece:
                        raise Ended("the process ended")
                    pieces.append(piece)
                    if is_end(piece):
                        seconds = time.perf_counter() - began
                        return b"".join(pieces), seconds, self.on_processor() - busy

    def end(self):
        self.ran.kill()
        self.ran.wait()


class LineSystem:
    """A program that reads lines of JSON from its standard input."""

    knows = set(workloads.NAMES)

    def __init__(self, name, words, memory, about):
        self.name, self.words, self.memory, self.about, self.process = name, words, memory, about, None

    def start(self):
        self.process = Process(self.words, self.memory, stdin=subprocess.PIPE, stdout=subprocess.PIPE)
        for it in (self.process.ran.stdin, self.process.ran.stdout):
            fcntl.fcntl(it, F_SETPIPE_SZ, PIPE)
            os.set_blocking(it.fileno(), False)

    def stop(self):
        if self.process:
            self.process.end()
            self.process.ran.stdin.close()
            self.process.ran.stdout.close()
            self.process = None

    def encode(self, ops):
        """What `ask` takes: the bytes, and how many replies they have."""
        return "".join(workloads.line(it) for it in ops).encode(), len(ops)

    def ask(self, encoded, limit):
        data, count = encoded
        left = count

        def is_end(piece):
            nonlocal left
            left -= piece.count(b"\n")
            return left <= 0

        ran = self.process.ran
        replies, seconds, busy = self.process.exchange(ran.stdout.fileno(), ran.stdin.fileno(), data, is_end, limit)
        if b'"error":"memory"' in replies[-4096:] or b'{"error":"memory"' in replies:
            raise Ended("it was refused memory")
        return replies, seconds, busy


def resp(*words):
    """A command in the protocol of Redis."""
    return b"*%d\r\n" % len(words) + b"".join(b"$%d\r\n%s\r\n" % (len(it), it) for it in (str(word).encode() for word in words))


def read_resp(data, at=0):
    """A reply of Redis, and where the next begins."""
    end = data.index(b"\r\n", at)
    kind, said = data[at:at + 1], data[at + 1:end]
    if kind == b"$":
        size = int(said)
        return (None, end + 2) if size < 0 else (data[end + 2:end + 2 + size], end + 4 + size)
    if kind == b"*":
        found, at = [], end + 2
        for _ in range(int(said)):
            one, at = read_resp(data, at)
            found.append(one)
        return found, at
    if kind == b"-":
        raise Ended(said.decode())
    return (int(said) if kind == b":" else said), end + 2


def all_resp(data):
    found, at = [], 0
    while at < len(data):
        one, at = read_resp(data, at)
        found.append(one)
    return found


def one(rows):
    """The reply that shows a record, or that there is none."""
    return f'{{"ok":true,"row":{rows[0]}}}\n' if rows else '{"error":"id","ok":false}\n'


def page(rows, is_more):
    return f'{{"more":{str(is_more).lower()},"ok":true,"rows":[{",".join(rows)}]}}\n'


class Redis:
    """A hash for each record, one for the owners, and a sorted set by the balance, whose members are the ids; commands are
    pipelined over a socket of the file system. What shows records is asked twice: for their ids, then for the records."""

    knows = {"insert", "get", "range10", "range1000", "between", "below", "rank", "nth", "find", "find_sorted", "count", "keep"}

    def __init__(self, name, path, memory, about, folder):
        self.name, self.path, self.memory, self.about, self.folder, self.process = name, path, memory, about, folder, None

    def start(self):
        place = f"{self.folder}/redis-{os.getpid()}.sock"
        words = [self.path, "--port", "0", "--unixsocket", place, "--save", "", "--appendonly", "no", "--dir", self.folder]
        self.process = Process(words, self.memory, stdin=subprocess.DEVNULL, stdout=subprocess.DEVNULL)
        self.socket = socket.socket(socket.AF_UNIX)
        for _ in range(200):
            try:
                self.socket.connect(place)
                break
            except OSError:
                time.sleep(0.05)
        self.socket.setblocking(False)
        self.next_id = 0

    def stop(self):
        if self.process:
            self.process.ran.send_signal(signal.SIGTERM)
            self.process.ran.wait()
            self.socket.close()
            self.process = None

    def encode(self, ops):
        return ops

    def exchange(self, commands, limit):
        data = b"".join(commands) + resp("ECHO", MARK.decode())
        last = b""

        def is_end(piece):
            nonlocal last
            last = (last + piece)[-64:]
            return last.endswith(MARK + b"\r\n")

        replies, seconds, busy = self.process.exchange(self.socket.fileno(), self.socket.fileno(), data, is_end, limit)
        return replies[:-len(b"$%d\r\n%s\r\n" % (len(MARK), MARK))], seconds, busy

    def ask(self, ops, limit):
        return getattr(self, f"ask_{ops[0][0]}")(ops, limit)

    def ask_size(self, ops, limit):
        return self.exchange([resp("ZCARD", "by_balance")], limit)

    def ask_insert(self, ops, limit):
        commands = []
        for id, (_, owner, balance, vip) in enumerate(ops, self.next_id):
            commands += [
                resp("HSETNX", "by_owner", owner, id),
                resp("HSET", f"a:{id}", "owner", owner, "balance", balance, "vip", int(vip)),
                resp("ZADD", "by_balance", balance, f"{id:08}"),
            ]
        replies, seconds, busy = self.exchange(commands, limit)
        if all_resp(replies) != [1, 3, 1] * len(ops):
            raise Ended("an insert went wrong")
        said = "".join(f'{{"id":{self.next_id + n},"ok":true}}\n' for n in range(len(ops)))
        self.next_id += len(ops)
        return said.encode(), seconds, busy

    def ask_get(self, ops, limit):
        replies, seconds, busy = self.exchange([self.record(id) for _, id in ops], limit)
        said = "".join(f'{{"ok":true,"row":{self.row(id, it)}}}\n' for (_, id), it in zip(ops, all_resp(replies)))
        return said.encode(), seconds, busy

    def ask_rank(self, ops, limit):
        replies, seconds, busy = self.exchange([resp("ZRANK", "by_balance", f"{id:08}") for _, id in ops], limit)
        return "".join(f'{{"ok":true,"rank":{it}}}\n' for it in all_resp(replies)).encode(), seconds, busy

    def ask_nth(self, ops, limit):
        return self.found([resp("ZRANGE", "by_balance", n, n) for _, n in ops], limit)

    def ask_find_sorted(self, ops, limit):
        return self.found([resp("ZRANGE", "by_balance", it, it, "BYSCORE", "LIMIT", 0, 1) for _, it in ops], limit)

    def ask_find(self, ops, limit):
        replies, *took = self.exchange([resp("HGET", "by_owner", owner) for _, owner in ops], limit)
        return self.rows_of([[] if it is None else [int(it)] for it in all_resp(replies)], one, limit, took)

    def ask_count(self, ops, limit):
        replies, seconds, busy = self.exchange([resp("ZCOUNT", "by_balance", it, it) for _, it in ops], limit)
        return "".join(f'{{"count":{it},"ok":true}}\n' for it in all_resp(replies)).encode(), seconds, busy

    def ask_add(self, ops, limit):
        commands = []
        for _, id, more in ops:
            commands += [resp("HINCRBY", f"a:{id}", "balance", more), resp("ZINCRBY", "by_balance", more, f"{id:08}")]
        replies, seconds, busy = self.exchange(commands, limit)
        said = [int(it) for it in all_resp(replies)]
        if said[::2] != said[1::2]:
            raise Ended("an add went wrong")
        return b'{"ok":true}\n' * len(ops), seconds, busy

    def ask_range(self, ops, limit):
        asked = [resp("ZRANGE", "by_balance", lower, "+inf", "BYSCORE", "LIMIT", 0, most + 1) for _, lower, most in ops]
        return self.pages(asked, [most for _, _, most in ops], limit)

    def ask_between(self, ops, limit):
        most = MOST_ROWS
        asked = [resp("ZRANGE", "by_balance", lower, f"({upper}", "BYSCORE", "LIMIT", 0, most + 1) for _, lower, upper in ops]
        return self.pages(asked, [most] * len(ops), limit)

    def ask_below(self, ops, limit):
        asked = [resp("ZRANGE", "by_balance", f"({upper}", "-inf", "BYSCORE", "REV", "LIMIT", 0, most + 1) for _, upper, most in ops]
        return self.pages(asked, [most for _, _, most in ops], limit)

    def found(self, asked, limit):
        """The replies to commands each of which has at most one id."""
        replies, *took = self.exchange(asked, limit)
        return self.rows_of([list(map(int, it)) for it in all_resp(replies)], one, limit, took)

    def pages(self, asked, mosts, limit):
        """The replies to commands each of which has one id more than its page has at most, where there are so many."""
        replies, *took = self.exchange(asked, limit)
        ids = [list(map(int, it)) for it in all_resp(replies)]
        more = iter([len(it) > most for it, most in zip(ids, mosts)])
        return self.rows_of([it[:most] for it, most in zip(ids, mosts)], lambda rows: page(rows, next(more)), limit, took)

    def rows_of(self, ids, shown, limit, took):
        """The replies that show the records of these lists of ids, which took so long to find."""
        replies, seconds, busy = self.exchange([self.record(id) for some in ids for id in some], limit)
        values = iter(all_resp(replies))
        said = "".join(shown([self.row(id, next(values)) for id in some]) for some in ids)
        return said.encode(), took[0] + seconds, took[1] + busy

    def record(self, id):
        return resp("HMGET", f"a:{id}", "owner", "balance", "vip")

    def row(self, id, values):
        owner, balance, vip = (it.decode() for it in values)
        return f'{{"balance":{balance},"id":{id},"owner":"{owner}","vip":{"true" if vip == "1" else "false"}}}'
