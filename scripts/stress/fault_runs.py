"""Rows of lines that the program is run on with requests for memory refused, and how a run is judged: what `faults.py` and
`fault_blocks.py` share. `refuse_memory.c` says which requests are the program's own."""
import glob
import json
import os
import re
import shutil
import socket
import subprocess
import sys
import time

import program
from stress.fuzz import ACCOUNTS, first_difference, toml
from reference import LONGEST_LINE, Index, Reference, Schema

ROWS = f"{program.TOP}/crates/test_rows/src/tests/rows"
PORTS = 3
"""A port that was free may be taken by somebody else before the program has it: then it is asked again with another one."""
PIECE = 4096
MEMORY = b'{"error":"memory","ok":false}\n'
UNDO = b'{"cmd":"undo"}'
WAYS = ("one", "rest", "within")


def stop(why):
    sys.exit(f"faults: {why}")


def line(cmd, **members):
    return json.dumps({"cmd": cmd, **members}, separators=(",", ":")).encode() + b"\n"


def insert(owner, balance=1, vip=True):
    return line("insert", row={"owner": owner, "balance": balance, "vip": vip})


# Rows


class Row:
    """What is sent: pairs of a connection and bytes, where None ends them."""

    def __init__(self, name, tables=("with", ""), steps=()):
        self.name, self.tables, self.steps, self.can_run = name, tables, list(steps), True

    def catalog(self):
        """The schemas, and the first revision."""
        said = {it.strip(): int(number) for it, number in re.findall(r"(\w+) = (\d+)", self.tables[1])}
        first_revision = said.pop("first_revision", 0)
        if self.tables[0] == "tables":
            one = Schema("a", [("k", "int")], [Index("u", "ordered", [(0, False)], unique=True)])
            return [one, Schema("b", [("t", "text")], [], max_rows=1, **said)], first_revision
        if not said and not first_revision:
            return [ACCOUNTS], 0
        return [Schema("accounts", ACCOUNTS.columns, ACCOUNTS.indexes[1:], **said)], first_revision

    def connections(self):
        return 2 if any(conn == 2 or bytes_ is None for conn, bytes_ in self.steps) else 1


def rows_in(text, rows):
    """Reads rows as text, behind those that are there: `row NAME`, and then what connections send (replies are passed over)."""
    for it in text.split("\n"):
        word, _, rest = it.partition(" ")
        if word == "row":
            rows[rest] = row = Row(rest)
        elif word == "after":
            row.tables, row.steps = rows[rest].tables, list(rows[rest].steps)
        elif word in ("with", "tables"):
            row.tables = (word, rest)
        elif word in ("1", "2"):
            row.can_run = row.can_run and rest != "breaks off"
            row.steps.append((int(word), None if rest == "closes" else rest.encode() + b"\n"))
        elif word in ("1+", "2+"):
            row.steps.append((int(word[0]), rest.encode()))


def written_rows():
    rows = {}
    for path in sorted(glob.glob(f"{ROWS}/*.rt")):
        with open(path, encoding="utf-8") as file:
            for text in re.findall(r'r#"(.*?)"#', file.read(), re.DOTALL):
                rows_in(text, rows)
    return list(rows.values()) or stop(f"no rows in {os.path.relpath(ROWS)}")


def made_rows():
    """Rows that would be long to write."""
    many = [insert("a"), insert("b"), line("start"), *(insert(f"k{n}") for n in range(50)), line("count", index="by_vip", key=[True])]
    many += [line("undo"), insert("c"), line("find", index="by_vip", key=[True]), line("erase", id=0), line("range", index="by_balance")]
    deep = [line("start")] * 1025
    size = line("size").rstrip()
    long = [size + b" " * (LONGEST_LINE - len(size)) + b"\n", size + b" " * (LONGEST_LINE + 1 - len(size)) + b"\n", b"\n", b"\r\n"]
    odd = [b"\xff\n", b'{"cmd":"undo"\n', b"[]\n", b'{ "cmd" : "undo" }\n', b"[" * 127 + b"]" * 127 + b"\n"]
    edits = [insert("a", 1), insert("b", 2, False), insert("c", 3), line("start"), line("replace", id=1, row={"owner": "x" * 1024, "balance": 9, "vip": True})]
    edits += [line("modify", id=0, set={"owner": "y" * 300}, add={"balance": 4}), line("erase_key", index="by_vip", key=[True]), insert("a", 5), line("start")]
    edits += [line("relocate", index="line", id=3), line("modify", id=3, add={"balance": 1}), line("undo"), line("squash")]
    room = [line("start"), insert("a", 1, False), line("squash"), UNDO + b"\n", line("size"), line("reserve", changes=3, sessions=1)]
    room += [line("reserve", changes=1_000_001, sessions=1), line("start"), line("erase", id=0), insert("b"), UNDO + b"\n"]
    made = {"fifty records are undone": many, "as many sessions as can be": deep, "lines as long as can be": long + odd}
    made.update({"every change": edits, "reserved room": room})
    return [Row(name, steps=[(1, it) for it in lines]) for name, lines in made.items()]


def pieces_of(row):
    """What the program reads, one after another: pairs of a connection and at most PIECE bytes, b"" at an end. Connections take turns,
    and one that has nothing to send passes its turn on by an empty line."""
    pieces, open_ones, at = [], list(range(1, row.connections() + 1)), 0
    for conn, bytes_ in row.steps:
        whole = bytes_ or b""
        for part in [whole[n:n + PIECE] for n in range(0, len(whole), PIECE)] or [b""]:
            while open_ones[at] != conn:
                pieces.append((open_ones[at], b"\n"))
                at = (at + 1) % len(open_ones)
            pieces.append((conn, part))
            if bytes_ is None:
                open_ones.remove(conn)
            else:
                at += 1
            at %= len(open_ones)
    return pieces, open_ones, at


def keys_of(row, schema, index):
    """The keys of an index that the rows sent may have."""
    keys = []
    for _, bytes_ in row.steps:
        try:
            said = json.loads(bytes_ or b"")
        except ValueError:
            continue
        members = said.get("row", {}) if isinstance(said, dict) else {}
        key = [members.get(schema.columns[column][0]) for column, _ in index.parts]
        if None not in key and key not in keys:
            keys.append(key)
    return keys[:4] + keys[-2:] if len(keys) > 6 else keys


def looks_at(row, schemas):
    """Lines that tell what is in the tables: each index, the order of equal keys, and which id comes next."""
    lines = [line("revision")]
    for schema in schemas:
        table = {} if len(schemas) == 1 else {"table": schema.name}
        lines.append(line("size", **table))
        hashed = []
        for index in schema.indexes:
            if index.kind == "sequenced":
                lines.append(line("list", index=index.name, **table))
            elif index.is_sorted:
                lines.append(line("range", index=index.name, **table))
            else:
                hashed += [dict(index=index.name, key=key, **table) for key in keys_of(row, schema, index)]
        lines += [line("count", **it) for it in hashed]
        lines += [line("start"), *(line("find", **it) for it in hashed)]
        for id in range(4):
            lines += [line("erase", id=schema.first_id + id, **table), *(line("find", **it) for it in hashed)]
        new = {name: {"int": 77, "text": "new", "flag": True}[kind] for name, kind in schema.columns}
        lines += [line("insert", row=new, **table), line("undo")]
    return [*lines, line("revision")]


class Plan:
    """A row in one of the ways: the pieces in the order that they are read, and which are for looking alone."""

    def __init__(self, row, way):
        self.row, self.way = row, way
        self.schemas, self.first_revision = row.catalog()
        self.pieces, open_ones, at = pieces_of(row)
        if way == "within":
            first = [(conn, line("start") if conn == 1 else b"\n") for conn in range(1, row.connections() + 1)]
            self.pieces = first + self.pieces
        behind = []
        if way != "one":
            starts = sum((bytes_ or b"").count(b'"start"') for _, bytes_ in self.pieces)
            behind = [UNDO + b"\n"] * (starts + 1)
        looks = looks_at(row, self.schemas)
        self.until = 0
        for n, it in enumerate(behind + looks):
            if n == len(behind):
                self.until = len(self.pieces)
            # (each open connection asks to undo, since any may hold the sessions; the first one looks)
            for turn in range(len(open_ones)):
                conn = open_ones[(at + turn) % len(open_ones)]
                self.pieces.append((conn, it if n < len(behind) or conn == open_ones[0] else b"\n"))
        self.pieces += [(open_ones[(at + turn) % len(open_ones)], b"") for turn in range(len(open_ones))]
        self.lines = self.lines_of_pieces()
        self.known = {}

    def lines_of_pieces(self):
        """For each piece the line that it ends, None where that has no reply; the front of a line is joined to its rest."""
        fronts, lines = {}, []
        for conn, bytes_ in self.pieces:
            whole = fronts.pop(conn, b"") + bytes_
            ended = whole.rstrip(b"\n") if whole.endswith(b"\n") or not bytes_ else None
            if ended is None:
                fronts[conn] = whole
            lines.append(ended if ended and ended != b"\r" else None)
        return lines

    def wanted(self, left_out):
        """The replies, by piece, of the reference that isn't asked the lines of these pieces."""
        if left_out not in self.known:
            reference, replies = Reference(self.schemas, self.first_revision), []
            for n, (conn, bytes_) in enumerate(self.pieces):
                if n in left_out:
                    reference.rests[conn] = b""
                    replies.append(MEMORY)
                if n not in left_out or not bytes_:
                    out = reference.feed(conn, bytes_) if bytes_ else reference.close(conn)
                    replies.append(out) if n not in left_out else None
            self.known[left_out] = replies
        return self.known[left_out]

    def is_undone(self):
        """Whether a row inside of a session is taken back by undoing, whatever of it is refused."""
        words = (b'"commit"', b'"squash"', b'"push"', b'"undo', b'"start"')
        return self.way == "within" and not any(word in (bytes_ or b"") for _, bytes_ in self.row.steps for word in words)


# Runs


class Ran:
    """What a run answered to each connection, how it ended, and in which pieces requests were refused."""

    def __init__(self, outs, status, errors, log):
        self.outs, self.status, self.errors = outs, status, errors
        self.refused_at = {int(it) for it in re.findall(r"^refused (-?\d+)$", log, re.MULTILINE)}
        counts = re.search(r"^requests (\d+) refused (\d+) others (\d+) pieces (\d+)$", log, re.MULTILINE)
        self.requests, self.refused, self.others, self.pieces = map(int, counts.groups()) if counts else (0, 0, 0, -1)
        functions = re.search(r"^within (\d+)$", log, re.MULTILINE)
        self.functions = int(functions[1]) if functions else 0
        self.has_own_allocator = "turned\n" in log


class Runner:
    def __init__(self, path, folder):
        self.path, self.folder, self.library = path, folder, compiled_library()
        self.log = f"{folder}/log.txt"

    def words(self, plan):
        words = [self.path]
        if plan.row.tables[1] or plan.row.tables[0] == "tables":
            with open(f"{self.folder}/schema.toml", "w", encoding="utf-8") as file:
                file.write(toml(plan.schemas, plan.first_revision))
            words += ["--schema", f"{self.folder}/schema.toml"]
        return words

    def env(self, way, request, first=-1, until=None, within=None):
        """The environment by which the library is loaded."""
        env = {**os.environ, "LD_PRELOAD": self.library, "REFUSE_LOG": self.log, "REFUSE_REQUEST": str(request)}
        env.update(REFUSE_ALL=str(int(way != "one")), REFUSE_FROM=str(first))
        if until is not None:
            env["REFUSE_UNTIL"] = str(until)
        if within:
            env["REFUSE_WITHIN"] = within
        if os.path.exists(self.log):
            os.remove(self.log)
        return env

    def run(self, plan, request, first=-1, within=None):
        """Runs a plan with this request refused, those of the pieces from `first` on being counted, or of these those that are made inside
        functions of some name."""
        if plan.row.connections() <= 1:
            return self.read_log(*self.over_input(plan, self.env(plan.way, request, first, plan.until, within)))
        for _ in range(PORTS):
            ran = self.read_log(*self.over_loopback(plan, self.env(plan.way, request, first, plan.until, within)))
            if (ran.status, ran.errors) != (4, b"fault: listen\n"):
                break
        return ran

    def read_log(self, outs, status, errors):
        with open(self.log, encoding="ascii") as file:
            return Ran(outs, status, errors, file.read())

    def over_input(self, plan, env):
        path = f"{self.folder}/lines.txt"
        with open(path, "wb") as file:
            file.write(b"".join(bytes_ for _, bytes_ in plan.pieces))
        with open(path, "rb") as file:
            ran = subprocess.run(self.words(plan), env=env, stdin=file, capture_output=True, timeout=60)
        return {1: ran.stdout}, ran.returncode, ran.stderr

    def over_loopback(self, plan, env):
        """Each connection sends all its bytes at once: the library gives them out by turns, a line at a time."""
        port, count = program.free_port(), plan.row.connections()
        words = [*self.words(plan), "--listen", str(port), "--clients", str(count)]
        outs = {}
        with subprocess.Popen(words, env=env, stdin=subprocess.DEVNULL, stdout=subprocess.PIPE, stderr=subprocess.PIPE) as ran:
            streams = {conn: connected(ran, port) for conn in range(1, count + 1)}
            for conn, stream in streams.items():
                outs[conn] = send_all(stream, b"".join(bytes_ for it, bytes_ in plan.pieces if it == conn))
            for conn, stream in streams.items():
                outs[conn] += receive_all(stream)
            _, errors = ran.communicate(timeout=60)
        return outs, ran.returncode, errors


def connected(ran, port):
    """A connection, or None where the program has ended."""
    while ran.poll() is None:
        try:
            return socket.create_connection(("127.0.0.1", port), timeout=30)
        except OSError:
            time.sleep(0.001)
    return None


def send_all(stream, bytes_):
    try:
        if stream:
            stream.sendall(bytes_)
            stream.shutdown(socket.SHUT_WR)
    except OSError:
        pass
    return b""


def receive_all(stream):
    got = b""
    try:
        while stream:
            more = stream.recv(65_536)
            if not more:
                break
            got += more
    except OSError:
        pass
    if stream:
        stream.close()
    return got


def compiled_library():
    """The library that refuses, compiled where its source is newer."""
    source, made = f"{program.TOP}/scripts/stress/refuse_memory.c", f"{program.TOP}/out/refuse_memory.so"
    if not os.path.exists(made) or os.path.getmtime(made) < os.path.getmtime(source):
        compiler = shutil.which(os.environ.get("CC", "cc")) or stop("a C compiler is needed: it is looked for in CC and as cc")
        # (another run may be at it too)
        new = f"{made}.{os.getpid()}"
        os.makedirs(os.path.dirname(made), exist_ok=True)
        subprocess.run([compiler, "-O2", "-Wall", "-fno-omit-frame-pointer", "-shared", "-fPIC", "-o", new, source], check=True)
        os.replace(new, made)
    return made


# Judging


def ended_early(ran):
    """Whether a run ended before its input, as a program may whose start is refused memory."""
    if ran.status == 0 or not ran.refused or ran.pieces:
        return False
    return (ran.status, ran.errors) in ((3, b"schema: memory\n"), (4, b"fault: memory\n")) and not any(ran.outs.values())


def judge(plan, ran):
    """How a run differs from what it must be, or None; and how many of its lines were answered `memory`."""
    if ended_early(ran):
        return None, 0
    if (ran.status, ran.errors) != (0, b""):
        return f"it ended with {ran.status}: {ran.errors.decode(errors='replace')!r} after {ran.pieces} pieces", 0
    if ran.pieces != len(plan.pieces):
        return f"{ran.pieces} pieces were read of {len(plan.pieces)}", 0
    answered = {conn: [n for n, text in enumerate(plan.lines) if text is not None and plan.pieces[n][0] == conn] for conn in ran.outs}
    left_out = set()
    for conn, out in ran.outs.items():
        replies = out.splitlines(keepends=True)
        if len(replies) != len(answered[conn]):
            return f"{len(replies)} replies on connection {conn}, {len(answered[conn])} were wanted", 0
        left_out |= {n for n, reply in zip(answered[conn], replies) if reply == MEMORY}
    for n in sorted(left_out):
        if n not in ran.refused_at:
            return f"piece {n} is answered memory, refused was in {sorted(ran.refused_at)}: {plan.lines[n]!r}", len(left_out)
        if plan.lines[n] == UNDO:
            return f"piece {n}, the undo line, is answered memory", len(left_out)
    if plan.way == "one" and len(left_out) > 1:
        return f"{len(left_out)} lines are answered memory", len(left_out)
    wanted = plan.wanted(frozenset(left_out))
    for conn, out in ran.outs.items():
        want = b"".join(reply for (it, _), reply in zip(plan.pieces, wanted) if it == conn)
        if out != want:
            return first_difference(want, out), len(left_out)
    return is_at_start(plan, wanted, left_out), len(left_out)


def is_at_start(plan, wanted, left_out):
    """A row inside of a session that was opened leaves, once it is undone, what stood before it."""
    if not plan.is_undone() or 0 in left_out:
        return None
    fresh = plan.wanted(frozenset(range(plan.until)))
    return None if wanted[plan.until:] == fresh[plan.until:] else "undoing didn't end at the start"


class Counts:
    def __init__(self):
        self.runs = self.refused = self.memory = self.early = self.differ = self.others = 0

    def add(self, other):
        for name, value in vars(other).items():
            setattr(self, name, getattr(self, name) + value)

    def __str__(self):
        met = f"{self.runs} runs, {self.refused} requests refused, {self.memory} lines answered memory"
        return f"{met}, {self.early} ended at the start, {self.differ} differences"


def every_request(runner, plan, first=-1):
    """Runs a plan with each of its requests refused in turn, from the piece `first` on."""
    counts, request = Counts(), 0
    while True:
        request += 1
        ran = runner.run(plan, request, first)
        differs, memory = judge(plan, ran)
        counts.runs += 1
        counts.refused += ran.refused
        counts.memory += memory
        counts.early += ended_early(ran)
        if differs:
            counts.differ += 1
            print(f"{plan.row.name}, {plan.way}, request {request}: {differs}", flush=True)
        if not ran.refused or counts.differ > 5:
            return counts
