"""Exact dumps: all that the base of a service's journal has, as JSON lines that a program may edit, and a new journal made of these. No server is
asked: no look-up tells the order of a hashed index, of more than 1,000 equals, or the counters.

    {"ids":1,"revision":3}                                            the first line
    {"arrivals":5,"next":3,"table":"accounts"}                        a table, and behind it its rows by their ids
    {"id":0,"row":{"owner":"ann",..},"table":"accounts"}
    {"index":"by_owner","order":[0,2],"table":"accounts"}             of each index but `id` all ids, those of one key in their order"""
from __future__ import annotations

import hashlib
import json
import os
from typing import IO, Any, Dict, Iterator, List, Optional, Set, Tuple

from mi_client import Schema
from mi_client.schema import Index, Table
from mi_client.utf8 import text_of
from mi_tools.journal_names import base_path, numbers_of, segment_path
from mi_tools.journals import OtherSchema, heading_of
from mi_tools.meaning import hash_of
from mi_tools.rowfiles import Faulty, json_line, reading, writing
from mi_tools.whole_files import replacing

LAST = 2**63 - 1
LONGEST_TEXT = 1_024
DIGEST = b'{"sha256":"'
KINDS = {"int": int, "text": str, "flag": bool}


def compact(value: Any) -> bytes:
    return json.dumps(value, separators=(",", ":"), ensure_ascii=False).encode() + b"\n"


def schema_of(path: Optional[str]) -> Schema:
    return Schema.read(path) if path else Schema.built_in()


# From a base


def check_digest(file: IO[bytes], path: str) -> None:
    """Raises Faulty where the last line isn't the digest of all in front of it."""
    digest, last = hashlib.sha256(), b""
    for line in file:
        digest.update(last)
        last = line
    if last != compact({"sha256": digest.hexdigest()}):
        raise Faulty(f"{path}: the base is torn, or was changed")
    file.seek(0)


def check_place(journal: str, heading: Dict[str, Any]) -> None:
    """Raises Faulty where lines stand behind the base, or its segment isn't the journal's newest."""
    path, later = segment_path(journal, heading["segment"]), segment_path(journal, heading["segment"] + 1)
    with open(path, "rb") as file:
        text = file.read().partition(b"\0")[0]
    if text.count(b"\n") != 1 + heading["line"] or os.path.exists(later):
        raise Faulty(f"{journal}: lines stand behind its base: end the service, and make it anew by mi_service --rebase")
    if hashlib.sha256(text.partition(b"\n")[0]).hexdigest() != heading["sum"]:
        raise Faulty(f"{path}: it is no segment of the base's journal")


def base_lines(journal: str, schema: Schema) -> Iterator[bytes]:
    """The lines of an exact dump of a journal. Raises Faulty, OtherSchema and OSError."""
    path = base_path(journal)
    if not os.path.exists(path):
        raise Faulty(f"{path} isn't there: mi_service --rebase makes it, of a journal that no service has")
    with open(path, "rb") as file:
        check_digest(file, path)
        heading = heading_of(file.readline(), path)
        if heading["schema"] != hash_of(schema):
            raise OtherSchema(f"{path}: it is of another schema: name the one that the service was started with by --schema FILE")
        check_place(journal, heading)
        yield compact({"ids": 1, "revision": heading["revision"]})
        for table in schema.tables:
            yield from table_lines(file, table)


def table_lines(file: IO[bytes], table: Table) -> Iterator[bytes]:
    """A table of a base of its schema, whose digest is right."""
    head = json.loads(file.readline())
    names = [it.name for it in table.columns]
    yield compact({"arrivals": head["arrivals"], "next": head["next"], "table": table.name})
    for _ in range(head["rows"]):
        id, *values = json.loads(file.readline())
        yield json_line({"id": id, **dict(sorted(zip(names, values)))}, table.name)
    for index in table.indexes[1:]:
        yield compact({"index": index.name, "order": json.loads(file.readline()), "table": table.name})


def dump(journal: str, schema: Optional[str], to: str) -> int:
    """Writes an exact dump, and answers how many rows it has."""
    rows = 0
    lines = base_lines(journal, schema_of(schema))
    first = next(lines)
    with writing(to) as file:
        file.write(first)
        for line in lines:
            file.write(line)
            rows += line.startswith(b'{"id":')
    return rows


# Into a new journal


class Loading:
    """A table that is read from an exact dump."""

    def __init__(self, table: Table, arrivals: Optional[int] = None, next: Optional[int] = None) -> None:
        self.table, self.names = table, [it.name for it in table.columns]
        self.arrivals = table.first_arrival if arrivals is None else arrivals
        self.next = table.first_id if next is None else next
        self.rows: Dict[int, bytes] = {}
        self.orders: Dict[str, List[int]] = {}
        self.keys: Dict[str, Set[str]] = {it.name: set() for it in table.indexes[1:] if it.unique}
        self.last = -1

    def take_row(self, id: Any, row: Any, place: str) -> None:
        """Raises Faulty where it doesn't fit the table."""
        if not is_count(id) or not self.last < id < self.next:
            raise Faulty(f"{place}: the id {id} isn't above {self.last}, that of the row before, and below {self.next}, the next one")
        if not isinstance(row, dict) or sorted(row) != sorted(self.names):
            raise Faulty(f"{place}: a row of {self.table.name} has the columns {', '.join(self.names)}")
        for column in self.table.columns:
            fault = misfit(column.type, row[column.name])
            if fault:
                raise Faulty(f"{place}: {column.name} {fault}")
        if len(self.rows) == self.table.max_rows:
            raise Faulty(f"{place}: {self.table.name} has {self.table.max_rows} rows at most")
        for index in self.table.indexes[1:]:
            if index.unique:
                self.take_key(index, row, place)
        self.rows[id] = compact([id, *(row[it] for it in self.names)])
        self.last = id

    def take_key(self, index: Index, row: Dict[str, Any], place: str) -> None:
        key = json.dumps([row[it] for it in index.columns])
        if key in self.keys[index.name]:
            raise Faulty(f"{place}: unique: an earlier row has the same key {key} of {index.name}")
        self.keys[index.name].add(key)

    def take_order(self, name: str, order: Any, place: str) -> bool:
        """Whether the table has this index. Raises Faulty where it isn't all ids."""
        if name == "id" or self.table.index(name) is None:
            return False
        if not isinstance(order, list) or not all(map(is_count, order)) or sorted(order) != list(self.rows):
            raise Faulty(f"{place}: the order of {name} has each id of {self.table.name} once")
        self.orders[name] = order
        return True

    def lines(self) -> Iterator[bytes]:
        """The lines of a base. An index without an order has the rows by their ids."""
        yield compact({"arrivals": max(self.arrivals, len(self.rows)), "next": self.next, "rows": len(self.rows), "table": self.table.name})
        yield from self.rows.values()
        for index in self.table.indexes[1:]:
            yield compact(self.orders.get(index.name, list(self.rows)))


def is_count(it: Any) -> bool:
    return isinstance(it, int) and not isinstance(it, bool) and 0 <= it <= LAST


def misfit(kind: str, value: Any) -> str:
    """Why a value isn't of a column's type, or nothing."""
    if type(value) is not KINDS[kind]:
        return f"is {json.dumps(value)}; {kind} wanted"
    if kind == "int" and not -LAST - 1 <= value <= LAST:
        return "is no number of 64 bits"
    return f"is longer than {LONGEST_TEXT} bytes" if kind == "text" and len(value.encode("utf-8", "surrogatepass")) > LONGEST_TEXT else ""


class Read:
    """An exact dump that was read: its revision, its tables by their names, and the indexes that the schema doesn't have."""

    def __init__(self, schema: Schema, file: IO[bytes], name: str) -> None:
        """Raises Faulty."""
        self.schema, self.revision = schema, schema.first_revision
        self.tables: Dict[str, Loading] = {}
        self.passed_over: List[str] = []
        for n, line in enumerate(file, 1):
            self.take(parsed(line, f"{name}:{n}"), n == 1, f"{name}:{n}")
        if not is_count(self.revision):
            raise Faulty(f"{name}:1: the first line says no revision")

    def take(self, found: Dict[str, Any], is_first: bool, place: str) -> None:
        if is_first != (set(found) == {"ids", "revision"}) or is_first and found["ids"] != 1:
            raise Faulty(f'{place}: {{"ids":1,"revision":R}} is the first line of what dump --ids writes, and no other')
        if is_first:
            self.revision = found["revision"]
        elif set(found) == {"arrivals", "next", "table"}:
            self.begin(found, place)
        elif set(found) == {"id", "row", "table"}:
            self.of(found, place).take_row(found["id"], found["row"], place)
        elif set(found) == {"index", "order", "table"}:
            if not self.of(found, place).take_order(found["index"], found["order"], place):
                self.passed_over.append(f"{found['table']}.{found['index']}")
        else:
            raise Faulty(f"{place}: no line of what dump --ids writes")

    def begin(self, found: Dict[str, Any], place: str) -> None:
        table = next((it for it in self.schema.tables if it.name == found["table"]), None)
        if table is None or table.name in self.tables:
            raise Faulty(f"{place}: {'the schema has no table' if table is None else 'here begins once more the table'} {found['table']}")
        if not is_count(found["arrivals"]) or not is_count(found["next"]):
            raise Faulty(f"{place}: arrivals and next are counted from 0 to {LAST}")
        self.tables[table.name] = Loading(table, found["arrivals"], found["next"])

    def of(self, found: Dict[str, Any], place: str) -> Loading:
        """The table of a line, which has begun and is the last one."""
        if not self.tables or found["table"] != next(reversed(self.tables)):
            raise Faulty(f"{place}: lines of {found['table']} stand behind the one with its counters")
        return self.tables[found["table"]]

    def rows(self) -> int:
        return sum(len(it.rows) for it in self.tables.values())


def parsed(line: bytes, place: str) -> Dict[str, Any]:
    try:
        found = json.loads(text_of(line))
        compact(found)  # (which fails for half of a pair of surrogates)
    except (ValueError, RecursionError) as error:
        raise Faulty(f"{place}: no JSON: {error}") from None
    if not isinstance(found, dict):
        raise Faulty(f"{place}: an object is wanted")
    return found


def check_new(journal: str) -> None:
    """Raises FileExistsError where a file of a journal of this name is there, and OSError where its folder can't be read."""
    segments = (segment_path(journal, it) for it in numbers_of(journal))
    there = [it for it in (journal, base_path(journal), *segments) if os.path.lexists(it)]
    if there:
        raise FileExistsError(f"{there[0]} is there: --ids makes a new journal, of another name")


def base_text(read: Read, header: bytes) -> Iterator[bytes]:
    """The lines of a base right behind a header, the digest last."""
    digest = hashlib.sha256()
    heading = {"base": 1, "line": 0, "revision": read.revision, "schema": hash_of(read.schema), "segment": 1, "sum": hashlib.sha256(header).hexdigest()}
    for line in all_lines(read, heading):
        digest.update(line)
        yield line
    yield compact({"sha256": digest.hexdigest()})


def all_lines(read: Read, heading: Dict[str, Any]) -> Iterator[bytes]:
    yield compact(heading)
    for table in read.schema.tables:
        yield from (read.tables.get(table.name) or Loading(table)).lines()


def load(path: str, schema: Optional[str], journal: str) -> Tuple[int, List[str]]:
    """Makes a journal of an exact dump: its base, and then the segment that begins behind it, without which no service starts. Answers how many rows
    it has, and which indexes were passed over. Raises Faulty and OSError; then there is no journal."""
    check_new(journal)
    with reading(path) as file:
        read = Read(schema_of(schema), file, path)
    header = compact({"journal": 1, "revision": read.schema.first_revision, "schema": hash_of(read.schema)})
    with replacing(os.path.abspath(base_path(journal))) as file:
        file.writelines(base_text(read, header[:-1]))
    handle = os.open(journal, os.O_WRONLY | os.O_CREAT | os.O_EXCL | os.O_CLOEXEC, 0o666)
    with open(handle, "wb") as file:
        file.write(header)
        file.flush()
        os.fsync(file.fileno())
    return read.rows(), read.passed_over
