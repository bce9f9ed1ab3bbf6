"""Random lines to the program and to `reference.py`, whose replies must be the same bytes.

    stress fuzz [--seed N] [--lines N] [--damaged SHARE] [--campaign] [--program FILE]

A case is a random schema with some 200 lines: mostly commands that mean something, and a share that is damaged by one thing: a byte, a member, a
value or its type, a length, an order, brackets, escapes, numbers at the limits, bytes that are no UTF-8. Each case goes through
standard input in one piece; each third one goes through two to four loopback connections, in pieces cut inside of lines. The same seed
gives the same cases. Where a reply differs, the case is left below out/fuzz/.

With --campaign a case has a thousand lines and goes one way alone: of ten cases two go over connections, two have fifty sessions and more open at
more than half of their lines, and one has tables of fifteen indexes."""
import argparse
import collections
import json
import os
import random
import shutil
import socket
import subprocess
import sys
import time

import program
from reference import KINDS, LAST, LONGEST_LINE, Index, Reference, Schema

CASE_LINES = 200
CAMPAIGN_LINES = 1000
DEEP = 50
MOST_INDEXES = 15
PIECE = 4096
LONGEST_END = 60
"""Seconds that a program may take to end once its connections have."""
FOLDER = f"{program.TOP}/out/fuzz/{os.getpid()}"
"""Of this run alone, so that several may run at once."""

ACCOUNTS = Schema(
    "accounts",
    [("owner", "text"), ("balance", "int"), ("vip", "flag")],
    [
        Index("by_owner", "hashed", [(0, False)], unique=True),
        Index("by_balance", "ranked", [(1, False)]),
        Index("by_vip", "hashed", [(2, False)]),
        Index("by_class", "ordered", [(2, True), (1, False)]),
        Index("line", "sequenced"),
    ],
)

TEXTS = ["", "a", "b", "ann", "bob", "\u00e4", "\u6f22", "\U0001f600", "\uffff", "z\"\\\n", "\x00\x1f\x7f", "id", "a" * 1024, "\u00e4" * 512]
NUMBERS = [0, 1, 2, 3, 5, 7, -1, -5, 50, LAST, -LAST - 1, LAST - 1]
ODD_VALUES = [
    "1.0", "1e3", "-0", "1.5", "9223372036854775807", "9223372036854775808", "-9223372036854775808", "-9223372036854775809",
    "18446744073709551616", "1e400", "1E-400", "00", "1000", "1001", "1024", "1025", "1000000", "1000001", "true", "null", "[]", "{}", "[[0]]",
    '""', '"id"', '"\\u0000"', '"\\ud83d\\ude00"', '"\\ud83d"', '"' + "x" * 1024 + '"', '"' + "x" * 1025 + '"', '"' + "\u00e4" * 513 + '"',
]
OFTEN = {
    "insert": 36, "replace": 8, "modify": 14, "erase": 5, "erase_key": 1, "relocate": 8, "start": 8, "undo": 5, "squash": 2, "commit": 4,
    "undo_all": 0.3, "push": 1, "get": 4, "find": 4, "nth": 3, "count": 4, "range": 10, "list": 6, "rank": 4, "lower_rank": 3,
    "upper_rank": 3, "size": 2, "revision": 2, "reserve": 0.5, "fly": 0.2,
}
WITHOUT_TABLE = ("start", "undo", "squash", "commit", "undo_all", "push", "revision", "reserve", "fly")
DAMAGE = [
    b"\xff", b"\x80", b"\xc3", b"\xf0\x9f\x98", b"\xc0\xaf", b"\xed\xa0\x80", b"\xf4\x90\x80\x80", b"\xef\xbb\xbf", b"\\", b"\\x", b"\\u12",
    b"\\ud800\\u0041", b"\\ud800", b"\\u0061", b"\x00", b"\t", b" ", b"}", b"{", b"[", b"]", b",", b":", b"\"", b"01", b"NaN", b"\r",
]


def toml(schemas, first_revision):
    """The catalog as a document."""
    lines = [] if len(schemas) == 1 else ["format = 2"]
    if first_revision:
        lines.append(f"first_revision = {first_revision}")
    for schema in schemas:
        alone = len(schemas) == 1
        if alone:
            lines.insert(0, f'table = "{schema.name}"')
        else:
            lines += ["[[table]]", f'name = "{schema.name}"']
        lines += [f"max_rows = {schema.max_rows}", f"first_id = {schema.first_id}", f"first_arrival = {schema.first_arrival}"]
        columns = ", ".join(f'{{name = "{name}", type = "{kind}"}}' for name, kind in schema.columns)
        lines.append(f"column = [{columns}]")
        indexes = ", ".join(toml_index(schema, it) for it in schema.indexes[1:])
        lines.append(f"index = [{indexes}]")
    return "\n".join(lines) + "\n"


def toml_index(schema, index):
    said = f'name = "{index.name}", kind = "{index.kind}"'
    if index.kind != "sequenced":
        parts = ", ".join(f'"{"-" * descends}{schema.columns[column][0]}"' for column, descends in index.parts)
        said += f", unique = {str(index.unique).lower()}, key = [{parts}]"
    return f"{{{said}}}"


class Lines:
    """Random schemas and lines."""

    def __init__(self, seed, share=0.07):
        self.random, self.share = random.Random(seed), share
        # Few values in most cases, so that keys are equal and unique indexes refuse.
        size = self.random.choice([2, 3, 5, 100])
        self.texts = self.random.sample(TEXTS, min(size, len(TEXTS)))
        self.numbers = self.random.sample(NUMBERS, min(size, len(NUMBERS)))
        self.inserts = collections.Counter()

    def schema(self, n, is_wide=False):
        pick = self.random
        columns = [(f"c{i}", pick.choice(["int", "text", "flag"])) for i in range(pick.randint(1, 5))]
        indexes, often_unique = [], pick.choice([0, 0.1, 0.3])
        for i in range(MOST_INDEXES if is_wide else pick.randint(0, 6)):
            kind = pick.choice(["ordered", "ranked", "hashed", "sequenced"])
            parts = pick.sample(range(len(columns)), pick.randint(1, min(3, len(columns))))
            parts = [(it, kind != "hashed" and pick.random() < 0.4) for it in parts]
            if kind == "sequenced":
                indexes.append(Index(f"i{i}", kind))
            else:
                indexes.append(Index(f"i{i}", kind, parts, unique=pick.random() < often_unique))
        late = pick.random() < 0.1
        return Schema(
            f"t{n}",
            columns,
            indexes,
            max_rows=pick.choice([1, 8, 1_000_000, 1_000_000]),
            first_id=LAST - pick.randint(0, 20) if late else pick.choice([0, 0, 100]),
            first_arrival=LAST - pick.randint(0, 40) if pick.random() < 0.1 else 0,
        )

    def catalog(self, is_wide=False):
        if self.random.random() < 0.3 and not is_wide:
            return [ACCOUNTS], 0
        first_revision = LAST - self.random.randint(0, 5) if self.random.random() < 0.1 else self.random.choice([0, 0, 7])
        return [self.schema(n, is_wide) for n in range(self.random.choice([1, 1, 2, 3]))], first_revision

    def value(self, kind):
        if kind == "int":
            return self.random.choice(self.numbers)
        return self.random.random() < 0.5 if kind == "flag" else self.random.choice(self.texts)

    def row(self, schema):
        return {name: self.value(kind) for name, kind in schema.columns}

    def id(self, schema):
        """Mostly the id of a record that may be there."""
        inserts = self.inserts[schema.name]
        highest = inserts + 3 if self.random.random() < 0.1 else inserts * 2 // 3
        return max(0, min(LAST, schema.first_id + self.random.randint(-1 if highest < 1 else 0, highest)))

    def key(self, schema, index, is_whole_key):
        kinds = ["int"] if index.is_id else [schema.columns[column][1] for column, _ in index.parts]
        if index.is_id:
            return [self.id(schema)]
        least = len(kinds) if is_whole_key or not index.is_sorted else 1
        length = self.random.randint(min(least, len(kinds)), len(kinds))
        return [self.value(it) for it in kinds[:length]]

    def index(self, schema, kinds):
        fitting = [it for it in schema.indexes if it.kind in kinds]
        return self.random.choice(fitting if fitting and self.random.random() < 0.95 else schema.indexes)

    def command(self, schemas):
        """A command as an object."""
        pick, schema = self.random, self.random.choice(schemas)
        name = pick.choices(list(OFTEN), list(OFTEN.values()))[0]
        if not any(it.kind in KINDS.get(name, it.kind).split() for it in schema.indexes) and pick.random() < 0.9:
            name = "insert"
        said = {"cmd": name}
        self.inserts[schema.name] += name == "insert"
        if name in ("insert", "replace"):
            said["row"] = self.row(schema)
        if name in ("replace", "modify", "erase", "relocate", "get", "rank"):
            said["id"] = self.id(schema)
        if name == "modify":
            self.edits(schema, said)
        if name in ("insert", "relocate", "list"):
            self.places(schema, name, said)
        if name in ("rank", "nth", "find", "count", "erase_key", "lower_rank", "upper_rank"):
            self.keys(schema, name, said)
        if name in ("range", "list"):
            self.page(schema, name, said)
        if name == "commit":
            said["revision"] = pick.choice([0, 1, 2, 3, 8, LAST - 3, LAST])
        if name == "reserve":
            said.update(changes=pick.choice([0, 3, 1_000_000, 1_000_001]), sessions=pick.choice([0, 1, 1024, 1025]))
        if name not in WITHOUT_TABLE and (schema is not schemas[0] or pick.random() < 0.1):
            said["table"] = schema.name
        return said

    def places(self, schema, name, said):
        """The members of a command that speaks of a place in a sequenced index."""
        pick, index = self.random, self.index(schema, ["sequenced"]).name
        if name == "insert":
            if pick.random() < 0.2:
                said["before"] = pick.choice([None] + [{"index": index, "id": self.id(schema)}] * 3)
            return
        said["index"] = index
        if name == "relocate" and pick.random() < 0.8:
            said["before"] = pick.choice([None, self.id(schema), self.id(schema)])
        if name == "list" and pick.random() < 0.5:
            said["after"] = self.id(schema)

    def keys(self, schema, name, said):
        """The members of a command that asks for a key, or for a place in a ranked index."""
        is_ranked = name in ("rank", "nth", "lower_rank", "upper_rank")
        index = self.index(schema, ["ranked", "id"] if is_ranked else ["ordered", "ranked", "hashed", "id"])
        said["index"] = index.name
        if name == "nth":
            said["n"] = self.random.randint(0, 20)
        elif name != "rank":
            said["key"] = self.key(schema, index, name == "erase_key")

    def page(self, schema, name, said):
        """The members of a command that answers a page."""
        pick = self.random
        if name == "range":
            index = self.index(schema, ["ordered", "ranked", "id"])
            said["index"] = index.name
            for side, bounds in (("lower", ["ge", "gt"]), ("upper", ["le", "lt"])):
                if pick.random() < 0.5:
                    said[side] = {pick.choice(bounds): self.key(schema, index, False)}
            if pick.random() < 0.3:
                said["reverse"] = pick.random() < 0.8
        if pick.random() < 0.4:
            said["limit"] = pick.choice([1, 2, 3, 1000, pick.randint(0, 1001)])

    def edits(self, schema, said):
        pick = self.random
        names = pick.sample(schema.columns, pick.randint(0, len(schema.columns)))
        for name, kind in names:
            if kind == "int" and pick.random() < 0.6:
                said.setdefault("add", {})[name] = self.value(kind)
            else:
                said.setdefault("set", {})[name] = self.value(kind)
        if pick.random() < 0.05 and names:
            said.setdefault("add", {})[names[0][0]] = 1
        if pick.random() < 0.8:
            said["rollback"] = pick.random() < 0.9

    def text(self, said):
        """The object as a line, written in one of the ways that JSON allows."""
        pick = self.random
        if pick.random() < 0.1:
            members = list(said.items())
            pick.shuffle(members)
            said = dict(members)
        spaces = pick.random() < 0.1
        text = json.dumps(said, ensure_ascii=pick.random() < 0.2, separators=(", ", ": ") if spaces else (",", ":"))
        return text.encode()

    def line(self, schemas):
        pick = self.random
        chance = pick.random()
        if chance < 0.03:
            return pick.choice([b"", b"\r", b"\r\r", b" ", b"[]", b"{}", b"null", b"[" * 127 + b"]" * 127, b"[" * 128 + b"]" * 128, b'{"cmd":"undo"}'])
        if chance < 0.035:
            text = b'{"cmd":"size"}'
            return text + b" " * (LONGEST_LINE - len(text) + pick.randint(-1, 1))
        said = self.command(schemas)
        text = self.text(said)
        if pick.random() < self.share:
            return self.damaged(text, said).replace(b"\n", b"\x0b")
        return text + b"\r" if chance < 0.08 else text

    def damaged(self, text, said):
        pick = self.random
        how = pick.randint(0, 8)
        if how == 0:
            return text[: pick.randint(0, len(text))]
        if how == 1:
            at = pick.randint(0, len(text))
            return text[:at] + pick.choice(DAMAGE) + text[at:]
        if how == 2:
            at = pick.randint(0, len(text) - 1)
            return text[:at] + text[at + 1:]
        if how == 3:
            member = pick.choice(list(said))
            return json.dumps({it: value for it, value in said.items() if it != member}).encode()
        if how == 4:
            name = pick.choice([*said, "x", "table"])
            return text[:-1] + f',"{name}":{pick.choice(ODD_VALUES)}}}'.encode()
        if how == 5:
            at = pick.randint(0, len(text) - 1)
            return text[:at] + bytes([pick.randint(0, 255)]) + text[at + 1:]
        if how == 6:
            # two members change places, or one stands there twice
            members = [f"{json.dumps(it)}:{json.dumps(value)}" for it, value in said.items()]
            members += [pick.choice(members)] if pick.random() < 0.5 else []
            pick.shuffle(members)
            return f"{{{','.join(members)}}}".encode()
        if how == 7:
            depth = pick.choice([1, 2, 124, 125, 126, 127, 128, 300])
            odd = "[" * depth + pick.choice(["", "0"]) + "]" * depth
        else:
            odd = pick.choice(ODD_VALUES)
        return json.dumps(replaced(said, pick)).replace('"@"', odd).encode()


def deep_lines(made, schemas, count):
    """Lines of which most are asked with fifty sessions and more open, and how many are."""
    reference, lines, deep = Reference(schemas), [], 0
    while len(lines) < count:
        is_deep = len(reference.old) >= DEEP
        line = made.line(schemas) if is_deep or made.random.random() < 0.4 else b'{"cmd":"start"}'
        lines.append(line)
        deep += is_deep
        reference.feed(1, line + b"\n")
    return lines, deep


def replaced(said, pick):
    """The object with one value, at any depth, replaced by "@"."""
    if isinstance(said, dict) and said:
        name = pick.choice(list(said))
        return {**said, name: replaced(said[name], pick)}
    if isinstance(said, list) and said:
        return [replaced(said[0], pick), *said[1:]]
    return "@"


def start(path, folder, catalog, words=()):
    schemas, first_revision = catalog
    words = [path, *words]
    if schemas != [ACCOUNTS]:
        with open(f"{folder}/schema.toml", "w", encoding="utf-8") as file:
            file.write(toml(schemas, first_revision))
        words += ["--schema", f"{folder}/schema.toml"]
    return subprocess.Popen(words, stdin=subprocess.PIPE, stdout=subprocess.PIPE, stderr=subprocess.PIPE)


def first_difference(want, got):
    """Where replies differ first from those that are wanted, in words."""
    want, got = want.split(b"\n"), got.split(b"\n")
    for n, pair in enumerate(zip(want, got)):
        if pair[0] != pair[1]:
            return f"reply {n + 1}\n  wanted {pair[0][:2000]!r}\n  got    {pair[1][:2000]!r}"
    return f"{len(want) - 1} replies were wanted, {len(got) - 1} came"


def ended(ran, seconds, whole=None):
    """What a program writes until it ends, once it is given these bytes; and what is wrong with its end, or None. It is to end in time, with
    status 0, and to say nothing."""
    try:
        got, said = ran.communicate(whole, timeout=seconds)
    except subprocess.TimeoutExpired:
        ran.kill()
        ran.communicate()
        return b"", f"the program hadn't ended after {seconds} s"
    if ran.returncode or said:
        return got, f"the program ended with status {ran.returncode}: {said.decode(errors='replace')}"
    return got, None


def over_pipes(path, catalog, lines):
    """Asks a case over standard input, in one piece. Answers how it differs, if it does."""
    reference = Reference(*catalog)
    whole = b"\n".join(lines)
    want = reference.feed(1, whole) + reference.close(1)
    with open(f"{FOLDER}/lines.txt", "wb") as file:
        file.write(whole)
    got, fault = ended(start(path, FOLDER, catalog), 300, whole)
    return fault if fault or got == want else first_difference(want, got)


def connected(ran, port):
    for _ in range(500):
        try:
            stream = socket.create_connection(("127.0.0.1", port), timeout=30)
            stream.setsockopt(socket.IPPROTO_TCP, socket.TCP_NODELAY, 1)
            return stream
        except ConnectionRefusedError:
            if ran.poll() is not None:
                break
            time.sleep(0.02)
    return None


def over_loopback(path, catalog, lines, pick):
    """Asks a case over several connections, which take turns. Each turn is a piece with at least one reply, so that the next
    connection's piece is sent once the server has read this one's. Answers how it differs, or how the program ends where that isn't well."""
    reference, count, port = Reference(*catalog), pick.randint(2, 4), program.free_port()
    ran = start(path, FOLDER, catalog, ["--listen", str(port), "--clients", str(count)])
    streams = [connected(ran, port) for _ in range(count)]
    try:
        differs = by_turns(reference, dict(enumerate(streams, 1)), lines, pick)
    except OSError as error:
        differs = f"a connection broke off: {error}"
    for it in streams:
        if it:
            it.close()
    fault = ended(ran, LONGEST_END)[1]
    return f"{differs}; {fault}" if differs and fault else differs or fault


def received(stream, length):
    got = b""
    while len(got) < length or length < 0:
        try:
            more = stream.recv(65_536)
        except socket.timeout:
            break
        if not more:
            break
        got += more
    return got


def by_turns(reference, streams, lines, pick):
    if None in streams.values():
        return "the program doesn't listen"
    left = [it for it in lines if len(it) < PIECE // 2]
    fronts = {it: b"" for it in streams}
    log = []
    while streams:
        for connection in list(streams):
            stream, ends = streams[connection], not left or pick.random() < 0.01
            if ends:
                # (what was sent of a last line is a line now)
                piece, want = b"", reference.close(connection)
                stream.shutdown(socket.SHUT_WR)
                got = received(stream, -1)
                del streams[connection]
            else:
                piece = (left.pop() + b"\n") if left else b""
                # The last line of a turn is cut in half of them; its rest comes with the connection's next turn.
                cut_line = left.pop() if left and pick.random() < 0.5 else b""
                cut = pick.randint(0, len(cut_line))
                piece = fronts[connection] + piece + b'{"cmd":"size"}\n' + cut_line[:cut]
                fronts[connection] = cut_line[cut:] + b"\n" if cut_line else b""
                want = reference.feed(connection, piece)
                stream.sendall(piece)
                got = received(stream, len(want))
            log.append((connection, piece, want, got))
            if got != want:
                with open(f"{FOLDER}/turns.txt", "w", encoding="utf-8") as file:
                    file.writelines(f"{it[0]} {it[1]!r}\n  wanted {it[2]!r}\n  got    {it[3]!r}\n" for it in log)
                return f"turn {len(log)} of connection {connection}: {first_difference(want, got)}"
    return None


def case_of(options, case, count):
    """How a case differs, if it does, the file that has it then, and of which kinds its lines are."""
    made = Lines(f"{options.seed}/{case}", options.damaged)
    catalog, kinds = made.catalog(), collections.Counter()
    lines = [made.line(catalog[0]) for _ in range(count)]
    differs = over_pipes(options.program, catalog, lines)
    if not differs and case % 3 == 0:
        kinds["over connections too"] = count
        return over_loopback(options.program, catalog, lines, made.random), "turns.txt", kinds
    return differs, "lines.txt", kinds


def campaign_case_of(options, case, count):
    """The same of a case of a campaign."""
    made = Lines(f"{options.seed}/{case}", options.damaged)
    kinds = collections.Counter()
    if case % 10 in (1, 6):
        schemas = made.catalog()[0]
        lines, kinds[f"with {DEEP} sessions open or more"] = deep_lines(made, schemas, count)
        return over_pipes(options.program, (schemas, 0), lines), "lines.txt", kinds
    catalog = made.catalog(case % 10 == 2)
    lines = [made.line(catalog[0]) for _ in range(count)]
    if case % 10 in (0, 5):
        kinds["over connections"] = count
        return over_loopback(options.program, catalog, lines, made.random), "turns.txt", kinds
    if case % 10 == 2:
        kinds[f"on tables of {MOST_INDEXES} indexes"] = count
    return over_pipes(options.program, catalog, lines), "lines.txt", kinds


def main():
    parser = argparse.ArgumentParser()
    parser.add_argument("--seed", type=int, default=1)
    parser.add_argument("--lines", type=int, default=2000)
    parser.add_argument("--damaged", type=float, default=0.07, help="the share of lines that are damaged")
    parser.add_argument("--campaign", action="store_true")
    parser.add_argument("--program")
    options = parser.parse_args()
    options.program = options.program or program.program()
    os.makedirs(FOLDER, exist_ok=True)
    began, asked, case, kinds = time.monotonic(), 0, 0, collections.Counter()
    ask, most = (campaign_case_of, CAMPAIGN_LINES) if options.campaign else (case_of, CASE_LINES)
    while asked < options.lines:
        count = min(most, options.lines - asked)
        differs, where, of_kinds = ask(options, case, count)
        if differs:
            sys.exit(f"seed {options.seed}, case {case}: {differs}\nthe case is in {os.path.relpath(FOLDER)}: schema.toml, {where}")
        asked, case = asked + count, case + 1
        kinds.update(of_kinds)
    seconds = time.monotonic() - began
    shutil.rmtree(FOLDER)
    title = program.title(options.program)
    print(f"{asked} lines in {case} cases of seed {options.seed}: {title} and the reference wrote the same bytes ({seconds:.0f} s)")
    print(f"a share of {options.damaged} of them is damaged; " + ", ".join(f"{it} {n}" for it, n in sorted(kinds.items())))
