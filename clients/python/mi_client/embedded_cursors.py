"""Cursors over a database of this process: a row by its id, seen under an index, of which a column is read where it is asked for.

    at = db.seek("by_balance", 10)
    while at is not None:
        print(at.id, at["owner"], at.rank())
        at = at.next()

A cursor is an id and two names. It owes nothing, and stays what it is while rows change: each call finds the row anew, where it stands now."""
from __future__ import annotations

import ctypes
from typing import Any, Callable, Iterator, Optional, Sequence, Tuple, Union

from mi_client import calls
from mi_client.database import Database
from mi_client.embedded_values import ABSENT, ROW_TEXTS, TEXT, TRUE, UNFIT, Rows, Told, Values
from mi_client.errors import NeedsSchema, Refused
from mi_client.request import Bound, Key, Page, Request, Row

END = 20
"""The status where no row is left."""

UNLAID = -1
"""In the place of a status: the call can't take what it is given, and a line refuses that in its own words."""

LARGEST = 2**64 - 1

Place = Tuple[int, int]
"""A status, and where it is 0 a number."""


class Field(ctypes.Structure):
    """A column of a row."""

    _fields_ = [("status", ctypes.c_uint32), ("kind", ctypes.c_uint32), ("integer", ctypes.c_int64)]


def prepare(library: Any) -> None:
    """Says what the calls give."""
    for it in ("seek_id", "find_id", "first_id", "last_id", "at_rank_id", "step_id", "has_id", "rank", "text_in"):
        getattr(library, f"weltiyo_{it}").restype = Told
    library.weltiyo_field_of.restype = Field


# The calls, as `Values` has others: first come the buffers, the library, the handle, and how the rows of the table lie.


def _place(told: Told) -> Place:
    return told.status, told.number


def _by_key(values: Values, library: Any, handle: Any, rows: Rows, index: str, key: Sequence[Any], beyond: Optional[bool]) -> Place:
    """Where a key begins, or with `beyond` what stands behind it; with None its first row."""
    try:
        number, layout = rows.keys[index, len(key)]
        texts = layout.lay(key, values.given)
    except UNFIT:
        return UNLAID, 0
    given = handle, rows.number, number, values.given, layout.count, texts, ctypes.c_size_t(len(texts))
    return _place(library.weltiyo_find_id(*given) if beyond is None else library.weltiyo_seek_id(*given, ctypes.c_uint32(beyond)))


def _at_end(values: Values, library: Any, handle: Any, rows: Rows, index: str, last: bool) -> Place:
    """The first row of an index, or the last."""
    number = rows.indexes.get(index)
    if number is None:
        return UNLAID, 0
    return _place((library.weltiyo_last_id if last else library.weltiyo_first_id)(handle, rows.number, number))


def _at_rank(values: Values, library: Any, handle: Any, rows: Rows, index: str, n: int) -> Place:
    """The row before which `n` others stand."""
    number = rows.indexes.get(index)
    if number is None or not 0 <= n <= LARGEST:
        return UNLAID, 0
    return _place(library.weltiyo_at_rank_id(handle, rows.number, number, ctypes.c_uint64(n)))


def _of_id(values: Values, library: Any, handle: Any, rows: Rows, index: str, id: int) -> Place:
    """The row of an id."""
    if index not in rows.indexes or not 0 <= id <= LARGEST:
        return UNLAID, 0
    return _place(library.weltiyo_has_id(handle, rows.number, ctypes.c_uint64(id)))


def _beside(values: Values, library: Any, handle: Any, rows: Rows, index: str, id: int, back: bool) -> Place:
    """The row behind one, or before it."""
    return _place(library.weltiyo_step_id(handle, rows.number, rows.indexes[index], ctypes.c_uint64(id), ctypes.c_uint32(back)))


def _ranked(values: Values, library: Any, handle: Any, rows: Rows, index: str, id: int) -> Place:
    """How many rows stand before one."""
    return _place(library.weltiyo_rank(handle, rows.number, rows.indexes[index], ctypes.c_uint64(id)))


def _column(values: Values, library: Any, handle: Any, rows: Rows, id: int, name: str) -> Tuple[int, Any]:
    """A status, and where it is 0 the value of a column, which is there."""
    number, of = ctypes.c_size_t(rows.columns[name][0]), ctypes.c_uint64(id)
    field = library.weltiyo_field_of(handle, rows.number, of, number)
    if field.status or field.kind != TEXT:
        return field.status, field.kind == TRUE if field.kind else field.integer
    told = library.weltiyo_text_in(handle, rows.number, of, number, values.given, ctypes.c_size_t(ROW_TEXTS))
    return told.status, values.given.raw[:told.number].decode() if told.status == 0 else None


class Cursor:
    """A row by its id, as an index shows it. The calls of `Embedded` make one."""

    __slots__ = ("_db", "_table", "index", "id")

    def __init__(self, db: Cursors, table: Optional[str], index: str, id: int) -> None:
        self._db, self._table, self.index, self.id = db, table, index, id

    def __repr__(self) -> str:
        return f"Cursor({self.index!r}, {self.id})"

    def __getitem__(self, column: str) -> Union[int, str, bool]:
        """The value of a column, as it is now. Raises KeyError where there is no such column, and Refused with the word `id` where the row is
        gone."""
        return self._db._value_of(self._table, self.id, column)

    def row(self) -> Row:
        """The whole row. Raises Refused with the word `id` where it is gone."""
        return self._db.get(self.id, self._table)

    def is_there(self) -> bool:
        """Whether its row is there."""
        return self._db.of_id(self.id, self.index, self._table) is not None

    def rank(self) -> int:
        """How many rows stand before it in its index. Raises Refused with the word `kind` where that isn't ranked, or `id` where the row is
        gone."""
        return self._db._rank_of(self._table, self.index, self.id)

    def next(self) -> Optional[Cursor]:
        """The row that its index shows behind it; none at the last. Raises Refused with the word `kind` where the index is hashed, or `id`
        where the row is gone."""
        return self._db._stepped(self._table, self.index, self.id, False)

    def back(self) -> Optional[Cursor]:
        """The row before it; none at the first. Raises Refused as `next` does."""
        return self._db._stepped(self._table, self.index, self.id, True)


class Cursors(Database):
    """The calls that find rows without reading them. Each raises Refused and Ended as its line does, and NeedsSchema where the client can't read
    the schema."""

    def _by_values(self, call: Callable[..., Any], table: Optional[str], *given: Any) -> Any:
        raise NotImplementedError

    def seek(self, index: str, key: Key, beyond: bool = False, table: Optional[str] = None) -> Optional[Cursor]:
        """The first row of an ordered or ranked index whose key isn't less than this one, or with `beyond` is greater. The first values of a
        key will do."""
        side = "gt" if beyond else "ge"
        request = calls.range(index, {side: key}, limit=1, table=table)
        values = self._dialect.key(request.members, request.members["lower"][side])
        return self._cursor(table, index, self._told(_by_key, table, index, values, beyond), request)

    def find_at(self, index: str, key: Key, table: Optional[str] = None) -> Optional[Cursor]:
        """The first row of a key, in any index that has keys; of an ordered or ranked one the first values of a key will do."""
        request = calls.find(index, key, table)
        values = self._dialect.key(request.members, request.members["key"])
        return self._cursor(table, index, self._told(_by_key, table, index, values, None), request)

    def first(self, index: str, table: Optional[str] = None) -> Optional[Cursor]:
        """The first row of any index but a hashed one."""
        return self._cursor(table, index, self._told(_at_end, table, index, False), calls.range(index, limit=1, table=table))

    def last(self, index: str, table: Optional[str] = None) -> Optional[Cursor]:
        """The last row of any index but a hashed one."""
        return self._cursor(table, index, self._told(_at_end, table, index, True), calls.range(index, limit=1, table=table))

    def at_rank(self, index: str, n: int, table: Optional[str] = None) -> Optional[Cursor]:
        """The row of a ranked index before which `n` others stand."""
        return self._cursor(table, index, self._told(_at_rank, table, index, n), calls.nth(index, n, table))

    def of_id(self, id: int, index: str = "id", table: Optional[str] = None) -> Optional[Cursor]:
        """The row of an id, as an index shows it."""
        told = self._told(_of_id, table, index, id)
        return None if told[0] == ABSENT else self._cursor(table, index, told, calls.get(id, table))

    def scan(
        self, index: str, lower: Optional[Bound] = None, upper: Optional[Bound] = None, reverse: bool = False, table: Optional[str] = None
    ) -> Iterator[Cursor]:
        """The rows of a range, one at a time: those that `range` gives, which takes the same bounds, but as many as there are. A sequenced
        index is walked from its first row, without bounds. What changes in the meantime is seen; a row that is erased while the walk stands at
        it raises Refused with the word `id`, and where the row behind the range is gone the walk goes on to the index's end."""
        if lower is None and upper is None:
            return self._walk((self.last if reverse else self.first)(index, table), None, reverse)
        found = self.range(index, lower, upper, reverse, 1, table).rows
        first = Cursor(self, table, index, found[0]["id"]) if found else None
        return self._walk(first, self._behind(index, lower, upper, reverse, table) if first else None, reverse)

    def _behind(
        self, index: str, lower: Optional[Bound], upper: Optional[Bound], reverse: bool, table: Optional[str]
    ) -> Optional[Cursor]:
        """The row at which a walk over a range that isn't empty ends, if there is one."""
        bound = lower if reverse else upper
        if bound is None:
            return None
        ((name, key),) = bound.items()
        at = self.seek(index, key, name in ("le", "gt"), table)
        return at.back() if reverse and at else at

    @staticmethod
    def _walk(at: Optional[Cursor], stop: Optional[Cursor], reverse: bool) -> Iterator[Cursor]:
        end = stop.id if stop else None
        while at is not None and at.id != end:
            yield at
            at = at.back() if reverse else at.next()

    def _told(self, call: Callable[..., Any], table: Optional[str], *given: Any) -> Tuple[int, Any]:
        """What a call tells. Where none can be made now a line is asked first, which settles what was sent ahead, or says why."""
        told = self._by_values(call, table, *given)
        if told is None:
            self.size(table)
            told = self._by_values(call, table, *given)
        if told is None:
            raise NeedsSchema("cursors need the schema, which the client can't read")
        found: Tuple[int, Any] = told
        return found

    def _cursor(self, table: Optional[str], index: str, told: Place, request: Request[Any]) -> Optional[Cursor]:
        """The row that was told, or none at the end. Where the call was refused, or couldn't take what was given, the line of the request is
        asked: it refuses that in its own words, or takes it."""
        status, id = told
        if status == END:
            return None
        if status:
            found = self._first_answered(request, status == UNLAID)
            if found is None:
                return None
            id = found["id"]
        return Cursor(self, table, index, id)

    def _first_answered(self, request: Request[Any], may_lack: bool) -> Optional[Row]:
        """The first row that a line answers. Raises Refused, but where a row that isn't there may be lacking."""
        try:
            found = self.send(request)
        except Refused as refused:
            if may_lack and refused.word == "id":
                return None
            raise
        rows = found.rows if isinstance(found, Page) else [found]
        return rows[0] if rows else None

    def _stepped(self, table: Optional[str], index: str, id: int, back: bool) -> Optional[Cursor]:
        told = self._told(_beside, table, index, id, back)
        # (the line of an id that is gone; and that of a hashed index, which has no order)
        request: Request[Any] = calls.get(id, table) if told[0] == ABSENT else calls.range(index, limit=1, table=table)
        return self._cursor(table, index, told, request)

    def _rank_of(self, table: Optional[str], index: str, id: int) -> int:
        status, rank = self._told(_ranked, table, index, id)
        return rank if status == 0 else self.rank(index, id, table)  # (which raises)

    def _value_of(self, table: Optional[str], id: int, column: str) -> Union[int, str, bool]:
        status, value = self._told(_column, table, id, column)
        found: Union[int, str, bool] = value if status == 0 else self.get(id, table)[column]  # (which raises)
        return found
