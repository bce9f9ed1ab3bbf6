"""A command that can be sent, and what it is made of: rows, keys, bounds. Nothing here reads or writes."""
from __future__ import annotations

import json
from typing import Any, Callable, Dict, Generic, Iterable, List, Mapping, NamedTuple, Optional, Tuple, TypeVar, Union

T = TypeVar("T")
Row = Dict[str, Any]
"""The values of a record by the names of columns; of one that a server tells, with its `id`."""
Key = Union[str, int, Iterable[Any], Mapping[str, Any]]
"""A value alone, which is the key of one part; the values of a key in the order of the index's parts; or, where the schema is known, by the
names of columns."""
Bound = Mapping[str, Key]
"""`{"ge": key}` or `{"gt": key}` below, `{"le": key}` or `{"lt": key}` above."""

MOST_ROWS = 1000
"""The most rows of one page."""

LONGEST_LINE = 65_536
"""The most bytes of a line before its newline."""

_encode = json.JSONEncoder(separators=(",", ":"), ensure_ascii=False).encode


class Page(NamedTuple):
    """The rows of a page, and whether others stand behind them."""

    rows: List[Row]
    more: bool


class Revision(NamedTuple):
    """The revision, how many sessions are open, and how many of them this connection holds."""

    revision: int
    depth: int
    held: int


class Request(Generic[T]):
    """A command that can be sent, and how the accepted reply to it is read. A member that is None is left out."""

    __slots__ = ("members", "read")

    def __init__(self, cmd: str, read: Callable[[Dict[str, Any]], T], **members: Any) -> None:
        self.members: Dict[str, Any] = {"cmd": cmd}
        for name, it in members.items():
            if it is not None:
                self.members[name] = it
        self.read = read

    def line(self) -> bytes:
        """The line with its newline. A text with half of a surrogate pair is sent as it is; the server refuses it. Raises TypeError where
        a value is nothing that JSON has, and names it."""
        try:
            text = _encode(self.members)
        except TypeError as error:
            raise TypeError(_unfit(self.members) or str(error)) from None
        return text.encode("utf-8", "surrogatepass") + b"\n"


def _unfit(value: Any, name: str = "") -> str:
    """Which value in this one is nothing that JSON has, by the nearest name, as that of its column; empty where each is."""
    if isinstance(value, dict):
        return next(filter(None, (_unfit(it, str(key)) for key, it in value.items())), "")
    if isinstance(value, (list, tuple)):
        return next(filter(None, (_unfit(it, name) for it in value)), "")
    return "" if value is None or isinstance(value, (str, int, float)) else f"{name} is of the type {type(value).__name__}, which can't be sent"


def columns_of(row: Row) -> Row:
    """A row as it can be sent: without the member `id`, which every reply has and which is no column."""
    return {name: it for name, it in row.items() if name != "id"}


class Alone(List[Any]):
    """The key of one part that was given as a value alone. Over an index of several parts it is refused before it is sent."""


Values = Union[List[Any], Mapping[str, Any]]


def key_of(key: Key) -> Values:
    """The values of a key, in order or by columns. Raises TypeError where it is neither a value nor several in an order."""
    if isinstance(key, (Alone, Mapping)):
        return key
    if isinstance(key, (str, int, float)):
        return Alone([key])
    if isinstance(key, (bytes, bytearray, memoryview, set, frozenset)) or not isinstance(key, Iterable):
        raise TypeError(f'a key is a value or a list of values, as "ann" or ["ann", 5]; {type(key).__name__} is neither')
    return list(key)


def bound_of(bound: Optional[Bound]) -> Optional[Mapping[str, Values]]:
    """A bound with the values of its key. Raises TypeError where it is none."""
    if bound is None:
        return None
    if not isinstance(bound, Mapping):
        raise TypeError(f'a bound is a mapping, as {{"ge": [10]}} or {{"le": [10]}}; {type(bound).__name__} is none')
    return {side: key_of(it) for side, it in bound.items()}
