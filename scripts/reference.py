"""The table server read a second time: what it is to answer, written from the definitions in plain lists and whole copies, and
as slow as that is. It shares no code with the server, and knows nothing of how that is made. `stress/fuzz.py` compares the two.

A `Reference` has one catalog, any number of connections, and gets bytes: `feed` and `close` answer the bytes that are written."""
import copy
import functools
import json

LAST = 2**63 - 1
LONGEST_LINE = 65_536
LONGEST_TEXT = 1_024
MOST_SESSIONS = 1_024
MOST_ROWS = 1_000
DEEPEST = 127


class Refusal(Exception):
    """A word, and for `unique` the record in the way."""

    def __init__(self, word, **more):
        super().__init__(word)
        self.reply = {"error": word, **more, "ok": False}


# What a schema says


class Index:
    """`parts` are pairs of a column's place and whether it descends; the index `id` has none."""

    def __init__(self, name, kind, parts=(), unique=False):
        self.name, self.kind, self.parts, self.unique = name, kind, list(parts), unique
        self.is_id = kind == "id"
        self.is_sorted = kind in ("ordered", "ranked", "id")
        self.is_ranked = kind in ("ranked", "id")


class Schema:
    """A table's name, its columns as pairs of name and type, and its indexes, of which the first is `id`."""

    def __init__(self, name, columns, indexes, max_rows=1_000_000, first_id=0, first_arrival=0):
        self.name, self.columns, self.max_rows = name, columns, max_rows
        self.first_id, self.first_arrival = first_id, first_arrival
        self.indexes = [Index("id", "id", unique=True), *indexes]

    def index(self, name):
        for x, it in enumerate(self.indexes):
            if it.name == name:
                return x
        raise Refusal("index")

    def __deepcopy__(self, _):
        # (it never changes, so the copies of a table share it)
        return self


def compare(a, b):
    return (a > b) - (a < b)


def plain(value):
    """A value as it compares: texts by their bytes."""
    return value.encode() if isinstance(value, str) else value


# Tables


class Table:
    def __init__(self, schema):
        self.schema, self.rows = schema, {}
        self.lists = [[] for _ in schema.indexes]
        self.next, self.arrivals = schema.first_id, schema.first_arrival

    def key(self, x, id, row=None):
        index = self.schema.indexes[x]
        row = self.rows[id] if row is None else row
        return [id] if index.is_id else [row[column] for column, _ in index.parts]

    def compare_keys(self, x, a, b):
        """Part by part, as long as the shorter one is."""
        parts = self.schema.indexes[x].parts or [(None, False)]
        for (_, descends), one, other in zip(parts, a, b):
            found = compare(plain(one), plain(other))
            if found:
                return -found if descends else found
        return 0

    def view(self, x):
        """The ids in the order that the index shows."""
        if not self.schema.indexes[x].is_sorted:
            return list(self.lists[x])
        by_key = functools.cmp_to_key(lambda a, b: self.compare_keys(x, self.key(x, a), self.key(x, b)))
        return sorted(self.lists[x], key=by_key)

    def of_key(self, x, key):
        return [id for id in self.view(x) if self.compare_keys(x, self.key(x, id), key) == 0]

    def conflict(self, row, but=None):
        for x, index in enumerate(self.schema.indexes):
            if not index.unique or index.is_id:
                continue
            key = [row[column] for column, _ in index.parts]
            for id in self.lists[x]:
                if id != but and self.key(x, id) == key:
                    return {"id": id, "index": index.name}
        return None

    def insert(self, row, before):
        if before is not None and before[1] not in self.rows:
            raise Refusal("id")
        if len(self.rows) >= self.schema.max_rows:
            raise Refusal("full")
        if LAST in (self.next, self.arrivals):
            raise Refusal("spent")
        found = self.conflict(row)
        if found:
            raise Refusal("unique", **found)
        id = self.next
        self.rows[id] = row
        for x, ids in enumerate(self.lists):
            at = ids.index(before[1]) if before and before[0] == x else len(ids)
            ids.insert(at, id)
        self.next += 1
        self.arrivals += 1
        return id

    def put(self, id, row):
        for x, index in enumerate(self.schema.indexes):
            if index.kind != "sequenced" and not index.is_id and self.key(x, id) != self.key(x, id, row):
                self.lists[x].remove(id)
                self.lists[x].append(id)
        self.rows[id] = row
        self.arrivals += 1

    def erase(self, id):
        self.there(id)
        for ids in self.lists:
            ids.remove(id)
        del self.rows[id]

    def there(self, id):
        if id not in self.rows:
            raise Refusal("id")

    def relocate(self, x, id, before):
        self.there(id)
        if before is not None:
            self.there(before)
        if before == id:
            return
        ids = self.lists[x]
        ids.remove(id)
        ids.insert(len(ids) if before is None else ids.index(before), id)

    def lower_rank(self, x, key):
        return sum(self.compare_keys(x, self.key(x, id), key) < 0 for id in self.rows)

    def upper_rank(self, x, key):
        return sum(self.compare_keys(x, self.key(x, id), key) <= 0 for id in self.rows)


# Lines


def no_constant(_):
    raise ValueError


class Fraction:
    """A number that is no whole number of 64 bits."""


def number(text):
    if float(text) in (float("inf"), float("-inf")):
        raise ValueError
    return Fraction()


def whole(text):
    digits = text.lstrip("-")
    if text == "-0" or len(digits) > 19 or not -(2**63) <= int(text) <= LAST:
        return number(text)
    return int(text)


def depth(text):
    """How deep brackets nest outside of texts."""
    now = most = 0
    inside = escaped = False
    for it in text:
        if inside:
            inside, escaped = (it != '"' or escaped), (it == "\\" and not escaped)
        elif it == '"':
            inside = True
        else:
            now += (it in "[{") - (it in "]}")
            most = max(most, now)
    return most


def has_surrogate(value):
    if isinstance(value, str):
        return any("\ud800" <= it <= "\udfff" for it in value)
    if isinstance(value, dict):
        return any(has_surrogate(it) for pair in value.items() for it in pair)
    return isinstance(value, list) and any(map(has_surrogate, value))


class Pairs(dict):
    """An object, whose repeated members were seen by `pairs` below."""


def pairs(found):
    # (a repeated member counts once, with its last value; one that is lost may still have no reading)
    if any(has_surrogate(it) for pair in found for it in pair):
        raise ValueError
    return Pairs(found)


def read(line):
    """The JSON of a line."""
    try:
        text = line.decode("utf-8")
        # (most lines have fewer brackets than may nest, and then nobody looks how they stand)
        if text.count("[") + text.count("{") > DEEPEST and depth(text) > DEEPEST:
            raise ValueError
        # (only an escape makes a surrogate: no UTF-8 has one)
        may_have = "\\u" in text
        found = json.loads(text, parse_int=whole, parse_float=number, parse_constant=no_constant, object_pairs_hook=pairs if may_have else Pairs)
    except ValueError:
        raise Refusal("json") from None
    if may_have and has_surrogate(found):
        raise Refusal("json")
    return found


def is_whole(it):
    return isinstance(it, int) and not isinstance(it, bool)


def is_count(it):
    return is_whole(it) and it >= 0


def is_between(low, high):
    return lambda it: is_whole(it) and low <= it <= high


def is_bool(it):
    return isinstance(it, bool)


def is_text(it):
    return isinstance(it, str)


def is_list(it):
    return isinstance(it, list)


def is_object(it):
    return isinstance(it, dict)


def is_bound(*names):
    return lambda it: is_object(it) and len(it) == 1 and all(name in names and is_list(key) for name, key in it.items())


def is_count_or_null(it):
    return it is None or is_count(it)


def is_place(it):
    return it is None or is_object(it) and set(it) == {"index", "id"} and is_text(it["index"]) and is_count(it["id"])


CHANGES = {"insert", "replace", "modify", "erase", "erase_key", "relocate"}
STEPS = {"start", "undo", "squash", "commit", "undo_all", "push", "reserve"}

# For each command its members, each with what it may be; those of the second list may be absent.
FORMS = {
    "insert": ({"row": is_object}, {"before": is_place}),
    "replace": ({"id": is_count, "row": is_object}, {}),
    "modify": ({"id": is_count}, {"set": is_object, "add": is_object, "rollback": is_bool}),
    "erase": ({"id": is_count}, {}),
    "erase_key": ({"index": is_text, "key": is_list}, {}),
    "relocate": ({"index": is_text, "id": is_count}, {"before": is_count_or_null}),
    "start": ({}, {}),
    "undo": ({}, {}),
    "squash": ({}, {}),
    "commit": ({"revision": is_count}, {}),
    "undo_all": ({}, {}),
    "push": ({}, {}),
    "reserve": ({"changes": is_between(0, 1_000_000), "sessions": is_between(0, MOST_SESSIONS)}, {}),
    "get": ({"id": is_count}, {}),
    "find": ({"index": is_text, "key": is_list}, {}),
    "nth": ({"index": is_text, "n": is_count}, {}),
    "count": ({"index": is_text, "key": is_list}, {}),
    "range": (
        {"index": is_text},
        {"lower": is_bound("ge", "gt"), "upper": is_bound("le", "lt"), "reverse": is_bool, "limit": is_between(1, MOST_ROWS)},
    ),
    "list": ({"index": is_text}, {"after": is_count, "limit": is_between(1, MOST_ROWS)}),
    "rank": ({"index": is_text, "id": is_count}, {}),
    "lower_rank": ({"index": is_text, "key": is_list}, {}),
    "upper_rank": ({"index": is_text, "key": is_list}, {}),
    "size": ({}, {}),
    "revision": ({}, {}),
}
WITHOUT_TABLE = STEPS | {"revision"}

# For each command of an index the kinds that it is for, and whether a key may be a prefix.
KINDS = {
    "find": "ordered ranked id hashed",
    "count": "ordered ranked id hashed",
    "erase_key": "ordered ranked id hashed",
    "range": "ordered ranked id",
    "lower_rank": "ranked id",
    "upper_rank": "ranked id",
    "rank": "ranked id",
    "nth": "ranked id",
    "relocate": "sequenced",
    "list": "sequenced",
}


def form(found):
    """The command of a line's JSON, or `form`."""
    if not is_object(found) or not is_text(found.get("cmd")):
        raise Refusal("form")
    members = dict(found)
    name = members.pop("cmd")
    if name not in FORMS:
        raise Refusal("form")
    needed, others = FORMS[name]
    others = others if name in WITHOUT_TABLE else {**others, "table": is_text}
    if not set(needed) <= set(members) or not set(members) <= set(needed) | set(others):
        raise Refusal("form")
    if not all({**needed, **others}[it](value) for it, value in members.items()):
        raise Refusal("form")
    return name, members


def fits(kind, value):
    if kind == "int":
        return is_whole(value)
    if kind == "flag":
        return is_bool(value)
    return is_text(value) and len(value.encode()) <= LONGEST_TEXT


def is_foreign(line):
    """Whether a service hears nothing behind a first line that begins so: neither with an object of JSON nor with a blank."""
    return line[:1] not in (b"", b"{", b" ", b"\t", b"\n", b"\r")


class Reference:
    def __init__(self, schemas, first_revision=0):
        self.tables = [Table(it) for it in schemas]
        self.old, self.revision = [], first_revision
        self.holder, self.held = None, 0
        self.rests = {}

    # Bytes

    def feed(self, connection, piece):
        """What is written when a piece of bytes has come."""
        *lines, rest = (self.rests.get(connection, b"") + piece).split(b"\n")
        self.rests[connection] = rest
        return b"".join(self.answer_ended(connection, it) for it in lines)

    def close(self, connection):
        """What is written when a connection has ended; what it holds is undone."""
        rest = self.rests.pop(connection, b"")
        out = b""
        if len(rest) > LONGEST_LINE:
            out = b'{"error":"line","ok":false}\n'
        elif rest:
            out = self.answer(connection, rest)
        if self.holder == connection:
            for _ in range(self.held):
                self.undo()
            self.holder = None
            self.held = 0
        return out

    def answer_ended(self, connection, text):
        """The reply to a line that a newline ended."""
        if len(text) > LONGEST_LINE:
            return b'{"error":"line","ok":false}\n'
        line = text[:-1] if text.endswith(b"\r") else text
        return self.answer(connection, line) if line else b""

    def answer(self, connection, line):
        try:
            reply = {"ok": True, **self.do(connection, *form(read(line)))}
        except Refusal as refusal:
            reply = refusal.reply
        return json.dumps(reply, separators=(",", ":"), sort_keys=True, ensure_ascii=False).encode() + b"\n"

    # Commands

    def do(self, connection, name, members):
        keeps_out = name in CHANGES or name in STEPS
        if keeps_out and self.held and self.holder != connection:
            raise Refusal("busy")
        if name in STEPS or name == "revision":
            return getattr(self, f"do_{name}")(connection, **members)
        table = self.table(members.pop("table", None))
        if "index" in members:
            members["index"] = self.index_for(name, table, members["index"])
        if name == "insert" and members.get("before") is not None:
            before = members["before"]
            members["before"] = (self.index_for("relocate", table, before["index"]), before["id"])
        for it in ("row", "set", "add"):
            if it in members:
                members[it] = getattr(self, f"bind_{it}")(table, members[it])
        if set(members.get("set", ())) & set(members.get("add", ())):
            raise Refusal("row")
        if "key" in members:
            is_whole_key = name == "erase_key"
            self.check_key(table, members["index"], members["key"], is_whole_key)
        for it in ("lower", "upper"):
            for key in members.get(it, {}).values():
                self.check_key(table, members["index"], key, False)
        return getattr(self, f"do_{name}")(table, **members)

    def table(self, name):
        for it in self.tables:
            if name is None or it.schema.name == name:
                return it
        raise Refusal("table")

    def index_for(self, name, table, index):
        x = table.schema.index(index)
        if table.schema.indexes[x].kind not in KINDS[name].split():
            raise Refusal("kind")
        return x

    def bind_row(self, table, row):
        columns = dict(table.schema.columns)
        if set(row) != set(columns) or not all(fits(kind, row[it]) for it, kind in columns.items()):
            raise Refusal("row")
        return [row[it] for it in columns]

    def bind_set(self, table, members):
        names = [it for it, _ in table.schema.columns]
        if not all(it in names and fits(dict(table.schema.columns)[it], value) for it, value in members.items()):
            raise Refusal("row")
        return {names.index(it): value for it, value in members.items()}

    def bind_add(self, table, members):
        if not all(dict(table.schema.columns).get(it) == "int" for it in members):
            raise Refusal("row")
        return self.bind_set(table, members)

    def check_key(self, table, x, key, is_whole_key):
        index = table.schema.indexes[x]
        kinds = ["int"] if index.is_id else [table.schema.columns[column][1] for column, _ in index.parts]
        least = len(kinds) if is_whole_key or not index.is_sorted else 1
        if not least <= len(key) <= len(kinds) or not all(map(fits, kinds, key)):
            raise Refusal("key")

    def do_insert(self, table, row, before=None):
        return {"id": table.insert(row, before)}

    def do_replace(self, table, id, row):
        table.there(id)
        if table.arrivals == LAST:
            raise Refusal("spent")
        found = table.conflict(row, but=id)
        if found:
            raise Refusal("unique", **found)
        table.put(id, row)
        return {}

    def do_modify(self, table, id, set=(), add=(), rollback=False):
        table.there(id)
        row = list(table.rows[id])
        for column, value in dict(set).items():
            row[column] = value
        for column, more in dict(add).items():
            row[column] += more
            if not -(2**63) <= row[column] <= LAST:
                raise Refusal("range")
        if table.arrivals == LAST:
            raise Refusal("spent")
        found = table.conflict(row, but=id)
        if found:
            if not rollback:
                table.erase(id)
            raise Refusal("unique", **found, lost=not rollback)
        table.put(id, row)
        return {}

    def do_erase(self, table, id):
        table.erase(id)
        return {}

    def do_erase_key(self, table, index, key):
        ids = table.of_key(index, key)
        for id in ids:
            table.erase(id)
        return {"erased": len(ids)}

    def do_relocate(self, table, index, id, before=None):
        table.relocate(index, id, before)
        return {}

    # Sessions

    def undo(self):
        self.tables = self.old.pop()
        self.revision -= 1

    def let_go(self, held):
        self.held = held
        if not held:
            self.holder = None

    def do_start(self, connection):
        if self.revision == LAST:
            raise Refusal("spent")
        if len(self.old) == MOST_SESSIONS:
            raise Refusal("depth")
        self.old.append(copy.deepcopy(self.tables))
        self.revision += 1
        self.holder, self.held = connection, self.held + 1
        return {"revision": self.revision}

    def do_undo(self, connection):
        if not self.old:
            raise Refusal("session")
        self.undo()
        self.let_go(max(0, self.held - 1))
        return {"revision": self.revision}

    def do_squash(self, connection):
        if not self.old:
            raise Refusal("session")
        self.old.pop()
        self.revision -= 1
        self.let_go(max(0, self.held - 1))
        return {"revision": self.revision}

    def do_commit(self, connection, revision):
        first = self.revision - len(self.old) + 1
        ended = max(0, min(len(self.old), revision - first + 1))
        del self.old[:ended]
        self.let_go(min(self.held, len(self.old)))
        return {"committed": ended}

    def do_undo_all(self, connection):
        open_ones = len(self.old)
        for _ in range(open_ones):
            self.undo()
        self.let_go(0)
        return {"undone": open_ones}

    def do_push(self, connection):
        held = self.held
        self.let_go(0)
        return {"pushed": held}

    def do_reserve(self, connection, changes, sessions):
        return {}

    def do_revision(self, connection):
        held = self.held if self.holder == connection else 0
        return {"revision": self.revision, "depth": len(self.old), "held": held}

    # Look-ups

    def row(self, table, id):
        return {"id": id, **{name: value for (name, _), value in zip(table.schema.columns, table.rows[id])}}

    def one(self, table, ids):
        if not ids:
            raise Refusal("id")
        return {"row": self.row(table, ids[0])}

    def page(self, table, ids, limit):
        return {"rows": [self.row(table, it) for it in ids[:limit]], "more": len(ids) > limit}

    def do_get(self, table, id):
        table.there(id)
        return {"row": self.row(table, id)}

    def do_find(self, table, index, key):
        return self.one(table, table.of_key(index, key))

    def do_nth(self, table, index, n):
        return self.one(table, table.view(index)[n:n + 1])

    def do_count(self, table, index, key):
        return {"count": len(table.of_key(index, key))}

    def do_range(self, table, index, lower=None, upper=None, reverse=False, limit=MOST_ROWS):
        ids = table.view(index)
        against = lambda id, key: table.compare_keys(index, table.key(index, id), key)
        for bound, key in {**(lower or {}), **(upper or {})}.items():
            keeps = {"ge": lambda c: c >= 0, "gt": lambda c: c > 0, "le": lambda c: c <= 0, "lt": lambda c: c < 0}[bound]
            ids = [id for id in ids if keeps(against(id, key))]
        return self.page(table, ids[::-1] if reverse else ids, limit)

    def do_list(self, table, index, after=None, limit=MOST_ROWS):
        ids = table.view(index)
        if after is not None:
            table.there(after)
            ids = ids[ids.index(after) + 1:]
        return self.page(table, ids, limit)

    def do_rank(self, table, index, id):
        table.there(id)
        return {"rank": table.view(index).index(id)}

    def do_lower_rank(self, table, index, key):
        return {"rank": table.lower_rank(index, key)}

    def do_upper_rank(self, table, index, key):
        return {"rank": table.upper_rank(index, key)}

    def do_size(self, table):
        return {"size": len(table.rows)}
