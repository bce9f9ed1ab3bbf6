"""The library's calls with values in place of a line, for the commands that are asked most: what a caller gave is laid out in buffers that are made
once, by the schema. What a call can't take, or refuses, is left to a line, which refuses it in its own words."""
from __future__ import annotations

import ctypes
import operator
import struct
from typing import Any, Callable, Dict, List, Optional, Sequence, Tuple, Union

from mi_client.request import Row
from mi_client.schema import Schema, Table

TEXT, FALSE, TRUE = 1, 2, 3
"""What a value is; a whole number is 0."""

PUT, ADD = 0, 1
"""What an edit does with its value."""

ROW_VALUES, ROW_TEXTS = 16, 16 * 1024
"""Room that any row fits."""

VALUE_SIZE, EDIT_SIZE, MOST_EDITS = 32, 48, 32

ABSENT = 10
"""The status of a refusal: there is no such record."""

LONGEST_TEXTS = 8192
"""Texts of more bytes are left to a line, which may be too long a line once they are written as JSON."""

MOST = 2**63 - 1

UNFIT = (ValueError, LookupError, TypeError, struct.error)
"""What laying out raises where a line is to be asked: a column or an index isn't there, a value is of another type, a number is beyond 64 bits, or a
text is none of UTF-8."""

TYPES = {"int": int, "text": str, "flag": bool}
"""A call takes values of just these types; a line writes those made from them in ways of its own."""

LAID = {"int": "8xq16x", "text": "I12xQQ", "flag": "I28x"}
READ = {"int": "8xq16x", "text": "16xQQ", "flag": "I28x"}
"""What differs from value to value, as it is written and as it is read."""

EDIT = "I4xQ"
"""What stands ahead of the value in an edit: what is done with it, and the column."""


class Told(ctypes.Structure):
    """What a call tells."""

    _fields_ = [("status", ctypes.c_uint32), ("index", ctypes.c_uint32), ("number", ctypes.c_uint64)]


def prepare(library: Any) -> None:
    """Says what the calls give. What they take is handed over as C has it, which costs half of what a conversion of each number does."""
    library.weltiyo_get.restype = library.weltiyo_modify.restype = ctypes.c_uint32  # (the status, which is told first)
    library.weltiyo_find.restype = library.weltiyo_insert.restype = Told


class Layout:
    """How values of these types lie side by side, behind a head of an edit where there is one."""

    def __init__(self, types: Sequence[str], head: str = "") -> None:
        self.types = [TYPES[it] for it in types]
        self.count = ctypes.c_size_t(len(types))
        self._pack = struct.Struct("=" + head + "".join(LAID[it] for it in types)).pack_into

    def lay(self, values: Sequence[Any], to: Any) -> bytes:
        """Writes values to a buffer, and answers their texts, one behind another. Raises one of UNFIT."""
        if list(map(type, values)) != self.types:
            raise ValueError
        fields: List[int] = []
        texts = b""
        for value in values:
            if value is True:
                fields.append(TRUE)
            elif value is False:
                fields.append(FALSE)
            elif type(value) is int:
                fields.append(value)
            else:
                text = value.encode()
                fields += (TEXT, len(texts), len(text))
                texts += text
        if len(texts) > LONGEST_TEXTS:
            raise ValueError
        self._pack(to, 0, *fields)
        return texts

    def lay_one(self, value: Any, to: Any, at: int, begin: int, *head: int) -> bytes:
        """The same of a value alone at a place of the buffer, behind its head; its text will begin there."""
        wanted: Any = self.types[0]
        if type(value) is not wanted:
            raise ValueError
        if wanted is int:
            self._pack(to, at, *head, value)
        elif wanted is bool:
            self._pack(to, at, *head, TRUE if value else FALSE)
        else:
            text: bytes = value.encode()
            self._pack(to, at, *head, TEXT, begin, len(text))
            return text
        return b""


class Rows:
    """How the rows of a table lie, and its keys."""

    def __init__(self, number: int, table: Table, values: Any, texts: bytearray) -> None:
        self.number = ctypes.c_size_t(number)
        self.names = [it.name for it in table.columns]
        self.pick: Callable[[Row], Sequence[Any]] = self._only
        if len(self.names) > 1:
            self.pick = operator.itemgetter(*self.names)
        self.layout = Layout([it.type for it in table.columns])
        self.columns = {it.name: (n, Layout([it.type], EDIT)) for n, it in enumerate(table.columns)}
        self.keys: Dict[Tuple[str, int], Tuple[ctypes.c_size_t, Layout]] = {}
        self.indexes = {it.name: ctypes.c_size_t(n) for n, it in enumerate(table.indexes)}
        for n, index in enumerate(table.indexes):
            types = [table.type_of(it) for it in index.columns]
            for count in range(1, len(types) + 1):
                self.keys[index.name, count] = ctypes.c_size_t(n), Layout(types[:count])
        self.read = _reader(table, values, texts)
        """Makes a row of its id and what lies in the buffers."""

    def _only(self, row: Row) -> Sequence[Any]:
        """The values of a row of one column."""
        return [row[it] for it in self.names]


def _reader(table: Table, values: Any, texts: bytearray) -> Callable[[int], Row]:
    """What makes a row out of its id and the buffers, with the columns in the order that replies have. It is a function that keeps what it needs
    beside it, since a method that looks for that in an object takes longer."""
    unpack = struct.Struct("=" + "".join(READ[it.type] for it in table.columns)).unpack_from
    copy = dict.fromkeys(sorted(["id", *(it.name for it in table.columns)])).copy
    columns, place = [], 0
    for it in table.columns:
        # (a text is two numbers, where it begins and how long it is; the second one's place, which is never 0, tells it from others)
        columns.append((it.name, place, place + 1 if it.type == "text" else 0, it.type == "flag"))
        place += 2 if it.type == "text" else 1

    def read(id: int) -> Row:
        found = unpack(values)
        row: Row = copy()
        row["id"] = id
        for name, at, length, is_flag in columns:
            if length:
                begin = found[at]
                row[name] = texts[begin:begin + found[length]].decode()
            elif is_flag:
                row[name] = found[at] == TRUE
            else:
                row[name] = found[at]
        return row

    return read


class Values:
    """The calls of a connection, whose first arguments are the library, the handle and how the rows of the table lie: each answers None where a
    line is to be asked. One is made at a time, since all share their buffers."""

    def __init__(self, schema: Schema, connection: int) -> None:
        self._connection, self._id, self._length = ctypes.c_uint64(connection), ctypes.c_uint64(), ctypes.c_size_t()
        self.given = ctypes.create_string_buffer(max(VALUE_SIZE * ROW_VALUES, EDIT_SIZE * MOST_EDITS, ROW_TEXTS))
        values, texts = ctypes.create_string_buffer(VALUE_SIZE * ROW_VALUES), bytearray(ROW_TEXTS)
        self._room = values, ctypes.c_size_t(ROW_VALUES), (ctypes.c_char * ROW_TEXTS).from_buffer(texts), ctypes.c_size_t(ROW_TEXTS)
        self._rows: Dict[Optional[str], Rows] = {it.name: Rows(n, it, values, texts) for n, it in enumerate(schema.tables)}
        self._rows[None] = self._rows[schema.tables[0].name]
        self._count, self._rollback = ctypes.c_size_t(), ctypes.c_uint32(1)

    def rows(self, table: Optional[str]) -> Optional[Rows]:
        """How the rows of a table lie; none where it isn't there."""
        return self._rows.get(table) if table is None or type(table) is str else None

    def get(self, library: Any, handle: Any, rows: Rows, id: int) -> Union[Row, int, None]:
        """A row, or ABSENT."""
        if type(id) is not int or not 0 <= id <= MOST:
            return None
        self._id.value = id
        status: int = library.weltiyo_get(handle, rows.number, self._id, *self._room)
        if status:
            return ABSENT if status == ABSENT else None
        return rows.read(id)

    def find(self, library: Any, handle: Any, rows: Rows, index: str, key: Sequence[Any]) -> Union[Row, int, None]:
        """The first row of a key, or ABSENT."""
        try:
            count = len(key)
            number, layout = rows.keys[index, count]
            texts = layout.lay_one(key[0], self.given, 0, 0) if count == 1 else layout.lay(key, self.given)
        except UNFIT:
            return None
        self._length.value = len(texts)
        told = library.weltiyo_find(handle, rows.number, number, self.given, layout.count, texts, self._length, *self._room)
        status: int = told.status
        if status:
            return ABSENT if status == ABSENT else None
        return rows.read(told.number)

    def insert(self, library: Any, handle: Any, rows: Rows, row: Row) -> Optional[int]:
        """The id of a new row."""
        if type(row) is not dict or len(row) != len(rows.names):
            return None
        try:
            texts = rows.layout.lay(rows.pick(row), self.given)
        except UNFIT:
            return None
        self._length.value = len(texts)
        told = library.weltiyo_insert(handle, self._connection, rows.number, self.given, rows.layout.count, texts, self._length)
        return None if told.status else told.number

    def modify(self, library: Any, handle: Any, rows: Rows, id: int, put: Optional[Row], added: Optional[Row]) -> Optional[bool]:
        """True where a row was modified. Where a unique index would refuse it, nothing has changed."""
        if type(id) is not int or not 0 <= id <= MOST:
            return None
        try:
            count, texts = self._edits(rows, put, added)
        except UNFIT:
            return None
        self._id.value, self._count.value, self._length.value = id, count, len(texts)
        status = library.weltiyo_modify(
            handle, self._connection, rows.number, self._id, self.given, self._count, texts, self._length, self._rollback
        )
        return None if status else True

    def _edits(self, rows: Rows, put: Optional[Row], added: Optional[Row]) -> Tuple[int, bytes]:
        """Lays edits out: how many they are, one at least, and their texts. Raises one of UNFIT."""
        count, texts = 0, b""
        for kind, given in ((PUT, put), (ADD, added)):
            if given is None:
                continue
            if type(given) is not dict:
                raise ValueError
            for name, value in given.items():
                column, layout = rows.columns[name]
                texts += layout.lay_one(value, self.given, EDIT_SIZE * count, len(texts), kind, column)
                count += 1
        if not count or len(texts) > LONGEST_TEXTS:
            raise ValueError
        return count, texts
