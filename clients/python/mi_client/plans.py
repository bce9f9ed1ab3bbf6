"""Look-ups that take several lines: walks over pages, windows by place, counts between keys, and the equals of a key. A plan
asks nothing itself: it yields batches of requests and is sent their answers, and yields rows. `walks.py` carries plans out, and
`aio.py` with awaiting, so both do the same."""
from __future__ import annotations

from typing import Any, Dict, Generator, List, Mapping, NamedTuple, Optional, Sequence, Set, TypeVar, Union

from mi_client import calls
from mi_client.errors import NeedsSchema, Refused, TooManyEqual
from mi_client.explain import which_index_goes_on
from mi_client.request import Bound, Key, Page, Request, Row
from mi_client.schema import Index, Schema, Table

R = TypeVar("R")


class Batch(NamedTuple):
    """Requests that are sent together. A plan is sent a list of their answers, each with a `result()` that may raise Refused."""

    requests: Sequence[Request[Any]]


class Window(NamedTuple):
    """Rows that stand side by side in a ranked index, and the place of the first."""

    place: int
    rows: List[Row]


Plan = Generator[Union[Batch, Row], Any, R]


def one(request: Request[Any]) -> Plan[Any]:
    """The answer to one request."""
    answers = yield Batch([request])
    return answers[0].result()


# Pages


def walk_range(
    schema: Optional[Schema],
    index: str,
    columns: Optional[Sequence[str]],
    lower: Optional[Bound],
    upper: Optional[Bound],
    reverse: bool,
    page: int,
    table: Optional[str],
) -> Plan[None]:
    columns = [columns] if isinstance(columns, str) else columns
    names = [it.lstrip("-") for it in columns] if columns else known(schema, index, table).columns
    side, including, beyond = ("upper", "le", "lt") if reverse else ("lower", "ge", "gt")
    bounds: Dict[str, Optional[Bound]] = {"lower": calls.bound_of(lower), "upper": calls.bound_of(upper)}
    last: List[Any] = []
    given: Set[int] = set()
    newest = -1
    while True:
        found: Page = yield from one(calls.range(index, bounds["lower"], bounds["upper"], reverse, page, table))
        new = [it for it in found.rows if it["id"] not in given or [it[name] for name in names] != last]
        for row in new:
            key = [row[name] for name in names]
            if key != last:
                last, given = key, set()
            newest = row["id"]
            given.add(newest)
            yield row
        if not found.more:
            return
        if not new:
            if (yield from one(calls.count(index, last, table))) > len(found.rows):  # (some that were given may have left the key)
                yield from _equals_behind(schema, index, names, last, given, newest, reverse, page, table)
            given = set()  # (behind the key each row is a new one, also one that was moved there)
        bounds[side] = {including if new else beyond: last}


def _equals_behind(
    schema: Optional[Schema],
    index: str,
    names: Sequence[str],
    key: List[Any],
    given: Set[int],
    newest: int,
    reverse: bool,
    page: int,
    table: Optional[str],
) -> Plan[None]:
    """The rows of one key that aren't given yet, by their places in a ranked index."""
    step = -1 if reverse else 1
    while True:
        try:
            place = yield from _place_behind(index, names, key, newest, step, table)
        except Refused as refusal:
            if refusal.word != "kind":
                raise
            home = schema.table(table) if schema else None
            raise TooManyEqual(f"more than {page} records of {index} have the key {key}; {which_index_goes_on(home, names)}") from None
        rows = yield from _rows_at(index, range(place, place + step * page, step), table)
        for row in rows:
            if [row[name] for name in names] != key:
                return
            newest = row["id"]
            if newest not in given:
                given.add(newest)
                yield row
        if len(rows) < page:
            return


def _place_behind(index: str, names: Sequence[str], key: List[Any], newest: int, step: int, table: Optional[str]) -> Plan[int]:
    """The place behind the row that was given last; where that one has left the key, the first place of the key."""
    rank, row, start, end = yield Batch([
        calls.rank(index, newest, table), calls.get(newest, table), calls.lower_rank(index, key, table), calls.upper_rank(index, key, table),
    ])
    try:
        if [row.result()[name] for name in names] == key:
            place: int = rank.result() + step
            return place
    except Refused as refusal:
        if refusal.word != "id":
            raise
    first: int = start.result() if step > 0 else end.result() - 1
    return first


def _rows_at(index: str, places: Sequence[int], table: Optional[str]) -> Plan[List[Row]]:
    """The rows at these places, up to the first that isn't there."""
    rows: List[Row] = []
    answers = yield Batch([calls.nth(index, it, table) for it in places if it >= 0])
    for answer in answers:
        try:
            rows.append(answer.result())
        except Refused as refusal:
            if refusal.word != "id":
                raise
            break
    return rows


def walk_list(index: str, page: int, table: Optional[str]) -> Plan[None]:
    after: Optional[int] = None
    while True:
        found: Page = yield from one(calls.list_(index, after, page, table))
        yield from found.rows
        if not found.more:
            return
        after = found.rows[-1]["id"]


# Places


def window(index: str, place: int, n: int, table: Optional[str]) -> Plan[Window]:
    if place < 0 or n < 0:
        raise ValueError("places and numbers of rows begin at 0")
    return Window(place, (yield from _rows_at(index, range(place, place + n), table)))


def around(schema: Optional[Schema], id: int, n: int, index: Optional[str], table: Optional[str]) -> Plan[Window]:
    index = index or _only_ranked(schema, table)
    place = yield from one(calls.rank(index, id, table))
    first = max(0, place - n)
    return (yield from window(index, first, place + n + 1 - first, table))


def count_range(schema: Optional[Schema], index: str, from_key: Key, to_key: Key, table: Optional[str]) -> Plan[int]:
    first, last = values(schema, index, from_key, table), values(schema, index, to_key, table)
    # (a key of fewer values equals those that begin with it, so that only what both have can stand the wrong way round)
    shared = min(len(first), len(last))
    keys = [first[:shared], last[:shared]]
    below, up_to, *sides = yield Batch([
        calls.lower_rank(index, first, table), calls.upper_rank(index, last, table),
        *(calls.lower_rank(index, it, table) for it in keys), *(calls.upper_rank(index, it, table) for it in keys),
    ])
    count: int = up_to.result() - below.result()
    from_below, to_below, from_up_to, to_up_to = (it.result() for it in sides)
    if from_below > to_below or from_up_to > to_up_to:
        raise ValueError(f"in the order of {index} the key {list(last)} stands before {list(first)}: exchange the bounds")
    return max(0, count)


# Equals


def equal(schema: Optional[Schema], index: str, key: Key, table: Optional[str], page: int) -> Plan[None]:
    found, home = known(schema, index, table), table_of(schema, table)
    wanted = values(schema, index, key, table)
    if found.kind == "hashed" and found.unique:
        try:
            yield (yield from one(calls.find(index, wanted, table)))
        except Refused as refusal:
            if refusal.word != "id":
                raise
        return
    other = next((it for it in home.indexes if _lists(it, found)), None)
    if other is None:
        columns = ", ".join(found.columns)
        raise ValueError(f"{index} is {found.kind} and can't list its equals; an ordered index whose key begins with {columns} can")
    if other is not found:
        by_column = dict(zip(found.columns, wanted))
        wanted = [by_column[it] for it in other.columns[: len(wanted)]]
    yield from walk_range(schema, other.name, other.columns, {"ge": wanted}, {"le": wanted}, False, page, table)


def _lists(index: Index, like: Index) -> bool:
    """Whether an index can list the equals of another's key."""
    n = len(like.columns)
    return index.kind in ("ordered", "ranked") and (index == like or set(index.columns[:n]) == set(like.columns) and like.kind == "hashed")


# The schema


def table_of(schema: Optional[Schema], table: Optional[str]) -> Table:
    """Raises NeedsSchema, and ValueError where there is no such table."""
    if schema is None:
        raise NeedsSchema("this connection was opened without a schema, so the columns of an index have to be given")
    home = schema.table(table)
    if home is None:
        raise ValueError(f"there is no table {table}; tables are {', '.join(it.name for it in schema.tables)}")
    return home


def known(schema: Optional[Schema], index: str, table: Optional[str]) -> Index:
    """Raises NeedsSchema, and ValueError where there is no such index."""
    home = table_of(schema, table)
    found = home.index(index)
    if found is None:
        raise ValueError(f"{home.name} has no index {index}; indexes are {', '.join(it.name for it in home.indexes)}")
    return found


def values(schema: Optional[Schema], index: str, key: Key, table: Optional[str]) -> Sequence[Any]:
    """The values of a key, by the schema where it is given by columns. Raises as `Schema.key` and `known` do."""
    given = calls.key_of(key)
    if isinstance(given, Mapping):
        return known(schema, index, table).values(given)
    return list(schema.key(index, given, table) if schema else given)


def _only_ranked(schema: Optional[Schema], table: Optional[str]) -> str:
    home = table_of(schema, table)
    ranked = [it.name for it in home.indexes if it.kind == "ranked" and it.name != "id"]
    if len(ranked) != 1:
        raise ValueError(f"say which index: {home.name} has the ranked ones {', '.join(ranked) or 'id'}")
    return ranked[0]
