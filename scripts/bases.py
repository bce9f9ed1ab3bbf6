"""A journal's segments, and its base: the tables behind a line of it. Read a second time, from their format; `mi_service` writes them.

    shop.journal           segment 1: a header of format 1, and lines
    shop.journal.000002    a later segment: a header of format 2, and lines
    shop.journal.base      the base, one JSON value a line: a heading; of each table its counters, its rows by their ids, and of each index but
                           `id` all ids, those of one key in their order; and the SHA-256 of all that
"""
import collections
import functools
import hashlib
import json
import os
import re
import sys

from reference import LAST, Refusal, is_count, is_list, is_object, is_text, read

sys.path.insert(0, f"{os.path.dirname(os.path.dirname(os.path.realpath(__file__)))}/clients/python")

from mi_tools.journal_names import base_path, numbers_of, segment_path  # noqa: E402, F401

DIGITS = re.compile("[0-9a-f]{64}")
HEADER = ("journal", "previous", "revision", "schema", "segment")
HEADING = ("base", "line", "revision", "schema", "segment", "sum")


class BadBase(Exception):
    """A line of a base that is none: its number, from 1, and why."""

    def __init__(self, number, why):
        super().__init__(f"line {number}: {why}")
        self.number = number


class BadChain(Exception):
    """Segments that aren't one journal, and why."""


Base = collections.namedtuple("Base", "line revision schema segment sum tables")
Image = collections.namedtuple("Image", "name next arrivals rows lists")


def compact(value):
    return json.dumps(value, separators=(",", ":"), ensure_ascii=False).encode()


# The base


class Lines:
    """A base's lines, each of which is read as JSON and is to be written in the one way."""

    def __init__(self, text):
        if not text.endswith(b"\n"):
            raise BadBase(text.count(b"\n") + 1, "a torn line")
        self.lines, self.number = text[:-1].split(b"\n"), 0

    def next(self):
        if self.number == len(self.lines):
            raise BadBase(self.number + 1, "the base ends here")
        text = self.lines[self.number]
        self.number += 1
        try:
            found = read(text)
            again = compact(found)
        except (Refusal, TypeError):
            # (of a number that is no whole one of 64 bits nothing can be written)
            self.fail("no JSON, or no whole number")
        if again != text:
            self.fail("JSON that is written in another way")
        return found

    def fail(self, why):
        raise BadBase(self.number, why)

    def members(self, names):
        """An object of just these members, in this order."""
        found = self.next()
        if not is_object(found) or tuple(found) != names:
            self.fail(f"no object of {', '.join(names)}")
        return found


def read_base(text, columns=None):
    """The base that these bytes are. `columns` has for each table the types of its columns, where rows are to fit them."""
    lines = Lines(text)
    if not lines.lines[-1].startswith(b'{"sha256":'):
        raise BadBase(len(lines.lines), "no digest")
    digest = hashlib.sha256(text[: len(text) - len(lines.lines[-1]) - 1]).hexdigest()
    heading = lines.members(HEADING)
    if heading["base"] != 1 or not all(is_count(heading[it]) for it in ("line", "revision", "segment")):
        lines.fail("no heading of a base of format 1")
    if not all(is_text(heading[it]) and DIGITS.fullmatch(heading[it]) for it in ("schema", "sum")):
        lines.fail("a sum isn't of 64 hexadecimal digits")
    tables = []
    while lines.number < len(lines.lines) - 1:
        tables.append(read_image(lines, columns[len(tables)] if columns is not None and len(tables) < len(columns) else None))
    if lines.members(("sha256",))["sha256"] != digest:
        lines.fail("another digest than that of the lines in front of it")
    return Base(heading["line"], heading["revision"], heading["schema"], heading["segment"], heading["sum"], tables)


def text_of(base):
    """The bytes of a base, which may be one that breaks rules."""
    lines = [{"base": 1, "line": base.line, "revision": base.revision, "schema": base.schema, "segment": base.segment, "sum": base.sum}]
    for it in base.tables:
        lines.append({"arrivals": it.arrivals, "next": it.next, "rows": len(it.rows), "table": it.name})
        lines += [[id, *row] for id, row in it.rows.items()] + it.lists
    text = b"".join(compact(it) + b"\n" for it in lines)
    return text + compact({"sha256": sum_of(text)}) + b"\n"


def is_id(it):
    return is_count(it) and it < LAST


def read_image(lines, types):
    """A table. How many indexes it has is told by the lines: those behind its rows that are lists."""
    head = lines.members(("arrivals", "next", "rows", "table"))
    if not all(is_count(head[it]) for it in ("arrivals", "next", "rows")) or not is_text(head["table"]):
        lines.fail("no head of a table")
    rows = {}
    for _ in range(head["rows"]):
        row = lines.next()
        if not is_list(row) or not row or not is_id(row[0]) or row[0] >= head["next"] or (rows and row[0] <= next(reversed(rows))):
            lines.fail("no row whose id is above the last one and below the next one")
        if types is not None and not fit(types, row[1:]):
            lines.fail("a row that doesn't fit the columns")
        rows[row[0]] = row[1:]
    lists = []
    while lines.number < len(lines.lines) - 1 and lines.lines[lines.number].startswith(b"["):
        ids = lines.next()
        if not all(map(is_id, ids)) or sorted(ids) != list(rows):
            lines.fail("a list that hasn't each id once")
        lists.append(ids)
    return Image(head["table"], head["next"], head["arrivals"], rows, lists)


def fit(types, row):
    kinds = {"int": int, "text": str, "flag": bool}
    return len(types) == len(row) and all(type(value) is kinds[it] for it, value in zip(types, row))


def shows_same(image, table):
    """Whether an image and a table of the reference show the same: rows, counters, each index, and of a hashed one each key's order."""
    if (image.name, image.next, image.arrivals, image.rows) != (table.schema.name, table.next, table.arrivals, dict(table.rows)):
        return False
    if len(image.lists) != len(table.lists) - 1:
        return False
    return all(in_order(table, x, ids) == in_order(table, x, table.view(x)) for x, ids in enumerate(image.lists, 1))


def in_order(table, x, ids):
    """The ids as the index shows them: of a hashed one the ids of each key, of a sorted one by their keys, equals as the list has them."""
    if table.schema.indexes[x].is_sorted:
        return sorted(ids, key=functools.cmp_to_key(lambda a, b: table.compare_keys(x, table.key(x, a), table.key(x, b))))
    if table.schema.indexes[x].kind != "hashed":
        return ids
    keys = collections.defaultdict(list)
    for it in ids:
        keys[json.dumps(table.key(x, it))].append(it)
    return dict(keys)


# Segments


Segment = collections.namedtuple("Segment", "number path")


def segments_of(path, first=0):
    """The segments of a journal that are there from this number on, by their numbers: a base that begins there needs no others. Raises BadChain where
    one in between is missing."""
    numbers = [it for it in numbers_of(path) if it >= first]
    for wanted, number in enumerate(numbers, first or min(numbers, default=0)):
        if number != wanted:
            raise BadChain(f"segment {wanted} is missing, and segment {number} is there")
    return [Segment(it, segment_path(path, it)) for it in numbers]


def header_of(line):
    """The members of a header of format 2, or None."""
    try:
        found = read(line)
    except Refusal:
        return None
    if not is_object(found) or tuple(found) != HEADER or found["journal"] != 2 or compact(found) != line:
        return None
    if not all(is_text(found[it]) and DIGITS.fullmatch(found[it]) for it in ("previous", "schema")):
        return None
    return found if is_count(found["revision"]) and is_count(found["segment"]) else None


def segment_header(previous, number, schema, revision=0):
    """The header of a segment behind the first, with its newline. `previous` is the sum of the segment before it."""
    return compact({"journal": 2, "previous": previous, "revision": revision, "schema": schema, "segment": number}) + b"\n"


def sum_of(data):
    return hashlib.sha256(data).hexdigest()
