"""Rows of files into the tables of a server: a page comes in whole or not at all, so a load that was stopped can be gone on with. The server
counts ids from the first one, so rows keep theirs where the file has them in a row from there; else columns that hold ids can follow."""
from __future__ import annotations

import itertools
import json
from typing import Callable, Dict, Iterable, Iterator, List, NamedTuple, Optional, Sequence, Tuple, Union

from mi_client import Answer, Database, Pipeline, Refused, Schema
from mi_client.request import MOST_ROWS, Row, columns_of
from mi_tools.rowfiles import Faulty, Item

REMEDY = "--renumber lets ids differ, and --references TABLE.COLUMN=TABLE makes a column that holds ids follow"


class Stopped(Exception):
    """A load came upon a row that is refused. The pages before are in, and of its own page nothing."""


class Loaded(NamedTuple):
    """What a load did: rows that came in, those among them that got another id, and refusals that were passed over."""

    rows: int
    other_ids: int
    refused: List[str]


class Reference(NamedTuple):
    """A column that holds ids of a table."""

    table: str
    column: str
    target: str

    @classmethod
    def of(cls, text: str) -> Reference:
        """One that is written `payment.from=account`. Raises ValueError."""
        place, equals, target = text.partition("=")
        table, dot, column = place.partition(".")
        if not (equals and dot and table and column and target):
            raise ValueError("TABLE.COLUMN=TABLE is wanted")
        return cls(table, column, target)


class References:
    """The columns that hold ids, and which new ids the old ones have become."""

    def __init__(self, given: Sequence[Reference] = (), schema: Optional[Schema] = None) -> None:
        """Raises ValueError where the schema has no such column."""
        self._first = schema.tables[0].name if schema else None
        self._columns: Dict[Optional[str], List[Reference]] = {}
        self._ids: Dict[Optional[str], Dict[int, int]] = {it.target: {} for it in given}
        self._sent: List[Tuple[Item, Answer[int]]] = []
        for it in given:
            table, target = (schema.table(name) for name in (it.table, it.target)) if schema else (None, None)
            column = table.column(it.column) if table else None
            if schema and (target is None or column is None or column.type != "int"):
                raise ValueError(f"--references {it.table}.{it.column}={it.target}: an int column and a table are wanted")
            self._columns.setdefault(it.table, []).append(it)

    def row(self, item: Item) -> Row:
        """The row with new ids. Raises Faulty where one is of no row that came before."""
        row = item.row
        for it in self._columns.get(item.table or self._first, ()):
            old = row.get(it.column)
            if type(old) is int:  # (what is none the server refuses)
                if old not in self._ids[it.target]:
                    self._settle()
                if old not in self._ids[it.target]:
                    raise Faulty(f"{item.place}: {it.column} is {old}, and no row of {it.target} that came before has this id")
                row = {**row, it.column: self._ids[it.target][old]}
        return row

    def sent(self, item: Item, answer: Answer[int]) -> None:
        if item.id is not None and (item.table or self._first) in self._ids:
            self._sent.append((item, answer))

    def known(self, item: Item, new: int) -> None:
        """A row of the file has this id."""
        ids = self._ids.get(item.table or self._first)
        if ids is not None and item.id is not None:
            ids[item.id] = new

    def _settle(self) -> None:
        """Waits for the ids of the rows that were sent."""
        for it, answer in self._sent:
            try:
                self.known(it, answer.result())
            except Refused:
                pass  # (its own row says so)
        self._sent = []


def load_rows(
    db: Database,
    items: Iterable[Item],
    keep_going: bool = False,
    told: Optional[Callable[[int, int], None]] = None,
    size: int = MOST_ROWS,
    references: Optional[References] = None,
    keeps_ids: bool = False,
) -> Loaded:
    """Inserts rows in pages of this size, each in a session of its own and sent ahead. `told` hears of each page: its rows, and the bytes
    that are read. Raises Stopped, and Refused where another connection holds sessions; where `keep_going` is, refused rows are
    left out. Where ids are kept, one that differs stops it."""
    rows = other_ids = 0
    refused: List[str] = []
    source, references = iter(items), references or References()
    while True:
        page = list(itertools.islice(source, size))
        if not page:
            return Loaded(rows, other_ids, refused)
        with db.session():
            with db.pipeline() as ahead:
                answers = [inserted(ahead, it, references) for it in page]
                ahead.flush()
                ahead.refused()
            for it, answer in zip(page, answers):
                found = answer if isinstance(answer, str) else result(it, answer)
                if isinstance(found, int):
                    rows += 1
                    other_ids += it.id is not None and it.id != found
                    if keeps_ids and it.id is not None and it.id != found:
                        raise Stopped(other_id(it, found))
                elif not keep_going:
                    raise Stopped(found)
                else:
                    refused.append(found)
        if told:
            told(len(page), page[-1].done)


def inserted(ahead: Pipeline, item: Item, references: References) -> Union[str, Answer[int]]:
    """The answer to a row that is sent, or why it isn't sent."""
    try:
        answer: Answer[int] = ahead.insert(references.row(item), item.table)
    except Faulty as fault:
        return str(fault)
    references.sent(item, answer)
    return answer


def result(item: Item, answer: Answer[int]) -> Union[str, int]:
    """A row's id, or why it is refused."""
    try:
        return answer.result()
    except Refused as refusal:
        return f"{item.place}: {refusal}"


def other_id(item: Item, id: int) -> str:
    where = f" of {item.table}" if item.table else ""
    return f"{item.place}: record {item.id}{where} would get the id {id}. {REMEDY}"


# Before the first row


def check_ids(db: Database, items: Iterable[Item], resumed: bool) -> None:
    """Raises Stopped where a row of the file would get another id than it has. What is no row the load itself tells. Of a load that is gone
    on with, tables that have rows are left to it too."""
    firsts: Dict[Optional[str], Item] = {}
    bases: Dict[Optional[str], int] = {}
    counts: Dict[Optional[str], int] = {}
    try:
        for it in items:
            count = counts[it.table] = counts.get(it.table, -1) + 1
            firsts.setdefault(it.table, it)
            if isinstance(it.id, int) and bases.setdefault(it.table, it.id - count) != it.id - count:
                raise Stopped(other_id(it, bases[it.table] + count))
    except Faulty:
        pass
    wanted = [firsts[it] for it in bases if not resumed or db.size(it) == 0]
    for it, id in next_ids(db, wanted):
        if bases[it.table] != id:
            raise Stopped(other_id(it._replace(id=bases[it.table]), id))


def next_ids(db: Database, firsts: Sequence[Item]) -> List[Tuple[Item, int]]:
    """The ids that these rows get, each in a table of its own: they are inserted, and that is undone. Rows that are refused are left out."""
    found: List[Tuple[Item, int]] = []
    if firsts:
        db.begin()
        try:
            for it in firsts:
                try:
                    found.append((it, db.insert(it.row, it.table)))
                except Refused:
                    pass
        finally:
            db.undo()
    return found


# Behind what is there


def behind_loaded(db: Database, items: Iterable[Item], references: Optional[References] = None) -> Iterator[Item]:
    """The rows of the file behind those that are in, where the tables have the first ones of the file, in their order, but for
    some that were left out. Raises ValueError, at the end of the file, where a table has another record."""
    there: Dict[Optional[str], Iterator[Row]] = {}
    next_ones: Dict[Optional[str], Optional[Row]] = {}
    references = references or References()
    for it in items:
        if it.table is None and db.schema:
            it = it._replace(table=db.schema.tables[0].name)  # (so that it is one table, named or not)
        if it.table not in there:
            there[it.table] = rows_by_now(db, it.table)
            next_ones[it.table] = next(there[it.table], None)
        row = next_ones[it.table]
        if row is None:
            yield it
        elif is_row(row, it, references):
            references.known(it, row["id"])
            next_ones[it.table] = next(there[it.table], None)
    for table, row in next_ones.items():
        if row is not None:
            where = f" of {table}" if table else ""
            raise ValueError(f"record {row['id']}{where} isn't among the rows of the file, in their order: there is nothing to go on with")


def is_row(row: Row, item: Item, references: References) -> bool:
    """Whether a row of a table is this one of the file."""
    try:
        return text_of(columns_of(row)) == text_of(references.row(item))
    except Faulty:
        return False


def rows_by_now(db: Database, table: Optional[str]) -> Iterator[Row]:
    """The rows that a table has by now, in the order in which they came."""
    return itertools.islice(db.walk_range("id", ["id"], table=table), db.size(table))


def text_of(row: Row) -> str:
    """Alike for equal rows alone (to Python 1 is True, and 1.0)."""
    return json.dumps(row, sort_keys=True)
