"""The hash of what a schema means, by which a journal's header tells its schema from others. Comments, spaces and the order of members
don't count."""
from __future__ import annotations

import hashlib
from typing import Iterator

from mi_client import Schema
from mi_client.schema import Index, Table


def hash_of(schema: Schema) -> str:
    """64 hexadecimal digits: the SHA-256 of a text that has a line for each part of the meaning."""
    text = "".join(f"{it}\n" for it in _parts(schema))
    return hashlib.sha256(text.encode()).hexdigest()


def _parts(schema: Schema) -> Iterator[object]:
    yield schema.first_revision
    for table in schema.tables:
        yield from (table.name, table.first_id, table.first_arrival, table.max_rows, len(table.columns))
        for it in table.columns:
            yield from (it.name, it.type)
        yield len(table.indexes)
        for index in table.indexes:
            yield from _index_parts(table, index)


def _index_parts(table: Table, index: Index) -> Iterator[object]:
    """(The index `id` goes by no column, so its key has no parts here.)"""
    parts = () if index.name == "id" else index.parts
    numbers = {it.name: n for n, it in enumerate(table.columns)}
    yield from (index.name, index.kind, "unique" if index.unique else "many", len(parts))
    for part in parts:
        yield from (numbers[part.column], "down" if part.descends else "up")
