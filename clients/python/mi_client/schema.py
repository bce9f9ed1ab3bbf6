"""What a schema says: tables, columns and indexes, as the client needs them to order keys and to explain refusals. It reads
files that the server accepts; what is wrong with one the server says, and `weltiyo-lint` where."""
from __future__ import annotations

import json
import os
from dataclasses import dataclass
from typing import Any, Dict, List, Mapping, Optional, Sequence, Tuple, Union

from mi_client import toml_places
from mi_client.request import Alone, Values

SCHEMA_LINE = '{"service":"schema"}'
"""The line that a service answers with the text of its schema."""

BUILT_IN = """
table = "accounts"
column = [{ name = "owner", type = "text" }, { name = "balance", type = "int" }, { name = "vip", type = "flag" }]
index = [
    { name = "by_owner", kind = "hashed", unique = true, key = ["owner"] },
    { name = "by_balance", kind = "ranked", key = ["balance"] },
    { name = "by_vip", kind = "hashed", key = ["vip"] },
    { name = "by_class", kind = "ordered", key = ["-vip", "balance"] },
    { name = "line", kind = "sequenced" },
]
"""


@dataclass(frozen=True)
class Column:
    """A column, and the type of its values."""

    name: str
    type: str
    """`int`, `text` or `flag`."""


@dataclass(frozen=True)
class Part:
    """A part of a key: a column, and whether it descends."""

    column: str
    descends: bool = False

    def __str__(self) -> str:
        return f"-{self.column}" if self.descends else self.column


@dataclass(frozen=True)
class Index:
    """An index: its kind, and the parts of its key in their order."""

    name: str
    kind: str
    """`ordered`, `ranked`, `hashed` or `sequenced`."""
    parts: Tuple[Part, ...] = ()
    unique: bool = False

    @property
    def columns(self) -> List[str]:
        return [it.column for it in self.parts]

    def values(self, key: Mapping[str, Any]) -> List[Any]:
        """The values of a key that is given by columns, in the order of the parts. Raises ValueError where a column is no part
        of the key, or one is left out before another that is given."""
        strange = [it for it in key if it not in self.columns]
        if strange:
            raise ValueError(f"{', '.join(strange)} is no part of the key of {self.name}, which is {', '.join(self.columns)}")
        given = [it for it in self.columns if it in key]
        if given != self.columns[: len(given)]:
            lacking = next(it for it in self.columns if it not in key)
            raise ValueError(f"the key of {self.name} is {', '.join(self.columns)}: {lacking} can't be left out before {given[-1]}")
        return [key[it] for it in given]


@dataclass(frozen=True)
class Table:
    """A table: its columns and indexes, its most rows, and where its counters begin."""

    name: str
    columns: Tuple[Column, ...]
    indexes: Tuple[Index, ...]
    """The index `id` first, then as written."""
    max_rows: int = 1_000_000
    first_id: int = 0
    first_arrival: int = 0
    """Where the counter of changes begins."""

    def index(self, name: str) -> Optional[Index]:
        return next((it for it in self.indexes if it.name == name), None)

    def column(self, name: str) -> Optional[Column]:
        return next((it for it in self.columns if it.name == name), None)

    def type_of(self, column: str) -> str:
        found = self.column(column)
        return found.type if found else "int"


@dataclass(frozen=True)
class Schema:
    """The tables of a server."""

    tables: Tuple[Table, ...]
    first_revision: int = 0
    """The revision before the first session."""

    @classmethod
    def built_in(cls) -> Schema:
        """The table `accounts`, which a server without a schema has."""
        return cls.of_text(BUILT_IN)

    @classmethod
    def read(cls, path: Union[str, os.PathLike[str]]) -> Schema:
        """The schema of a file. Raises OSError, or ValueError, which names the file and the line, where it is none."""
        with open(path, "rb") as file:
            return cls._of_bytes(file.read(), os.fsdecode(path))

    @classmethod
    def of_text(cls, text: str) -> Schema:
        """The schema of a TOML text. Raises ValueError where it is none."""
        return cls._of_bytes(text.encode())

    @classmethod
    def told(cls, reply: bytes) -> Optional[Schema]:
        """The schema that a reply to SCHEMA_LINE tells. None where it tells none, as where the server refuses the line, or none that can be
        read."""
        try:
            found = json.loads(reply)
            text = found.get("schema") if isinstance(found, dict) and found.get("ok") is True else None
            return cls.of_text(text) if isinstance(text, str) else None
        except (ValueError, RecursionError):
            return None

    @classmethod
    def of(cls, given: Union[None, str, os.PathLike[str], Schema]) -> Optional[Schema]:
        """A schema as callers give one: itself, or a file."""
        return given if given is None or isinstance(given, Schema) else cls.read(given)

    @classmethod
    def _of_bytes(cls, data: bytes, file: str = "") -> Schema:
        try:
            root = _plain(toml_places.read(data))
            written = root["table"]
            tables = [_table(root, written)] if isinstance(written, str) else [_table(it, it["name"]) for it in written]
        except toml_places.Fault as fault:
            raise ValueError(f"{file}:{fault.line}: {fault.why}" if file else f"line {fault.line}: {fault.why}") from None
        except (KeyError, TypeError, AttributeError) as error:
            raise ValueError(f"{file}{': ' if file else ''}this is no schema: {error}") from None
        return cls(tuple(tables), root.get("first_revision", 0))

    def table(self, name: Optional[str] = None) -> Optional[Table]:
        """The table of this name, or the first one."""
        if name is None:
            return self.tables[0]
        return next((it for it in self.tables if it.name == name), None)

    def key(self, index: str, key: Values, table: Optional[str] = None) -> Sequence[Any]:
        """The values of a key. One that is given by columns is put in order; where index or table isn't there, the server says so. Raises
        ValueError where it isn't one of the index, as a value alone where that has several parts."""
        home = self.table(table)
        found = home.index(index) if home else None
        if isinstance(key, Mapping):
            return found.values(key) if found else list(key.values())
        if isinstance(key, Alone) and found and len(found.parts) > 1:
            raise ValueError(f"the key of {index} has the parts {', '.join(found.columns)}, so a value alone is none: give a list of values")
        return key


def _plain(node: Any) -> Any:
    """The values of a document without their lines."""
    if node.kind == "table":
        return {name: _plain(it) for name, it in node.value.items()}
    return [_plain(it) for it in node.value] if node.kind == "array" else node.value


def _table(written: Dict[str, Any], name: str) -> Table:
    columns = tuple(Column(it["name"], it["type"]) for it in written["column"])
    indexes = [Index("id", "ranked", (Part("id"),), True)]
    for it in written.get("index", []):
        parts = tuple(Part(part.lstrip("-"), part.startswith("-")) for part in it.get("key", []))
        indexes.append(Index(it["name"], it["kind"], parts, it.get("unique", False)))
    return Table(
        name, columns, tuple(indexes), written.get("max_rows", 1_000_000), written.get("first_id", 0), written.get("first_arrival", 0)
    )
