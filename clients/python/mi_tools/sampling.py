"""What `plot` draws: how many records have which keys, and a column along an index. Ranked indexes are asked at some places
alone, whatever their size; ordered ones are walked."""
from __future__ import annotations

from typing import Any, List, NamedTuple, Optional, Sequence, Tuple

from mi_client import Database, NeedsSchema
from mi_client.schema import Index, Table
from mi_tools.opening import NO_COLUMNS

MOST_VALUES = 40
"""The most values that are counted one by one; the others are one bar."""


class Bars(NamedTuple):
    """How many records have a key in each of some ranges or of some values."""

    title: str
    bars: List[Tuple[str, int]]
    key: str = ""
    """What the names of the bars are."""
    sampled: str = ""
    """Which records were looked at."""


class Line(NamedTuple):
    """A column's value at some places of an index."""

    title: str
    points: List[Tuple[int, float]]
    across: str = ""
    """What the first number of a point is."""
    up: str = ""
    sampled: str = ""
    """Which records were looked at."""


def index_of(db: Database, table: Optional[str], name: str) -> Tuple[Table, Index]:
    """The table and its index. Raises NeedsSchema, and ValueError where there is none that can be drawn."""
    if db.schema is None:
        raise NeedsSchema(NO_COLUMNS)
    home = db.schema.table(table)
    found = home.index(name) if home else None
    if home is None or found is None:
        raise ValueError(f"there is no index {name}" + (f" of {home.name}; indexes are {', '.join(it.name for it in home.indexes)}" if home else ""))
    if found.kind not in ("ranked", "ordered"):
        raise ValueError(f"{name} is {found.kind}; ranked and ordered indexes can be drawn")
    return home, found


def along(db: Database, table: Optional[str], name: str, column: str, points: int) -> Line:
    """A column's value at so many places of an index."""
    home, index = index_of(db, table, name)
    if column != "id" and (home.column(column) is None or home.type_of(column) == "text"):
        raise ValueError(f"{column} is no column of numbers or flags of {home.name}")
    size = db.size(table)
    places = spread(size, points)
    if index.kind == "ranked":
        with db.pipeline() as ahead:
            rows = [it.result() for it in [ahead.nth(name, place, table) for place in places]]
    else:
        wanted = set(places)
        rows = [row for place, row in enumerate(db.walk_range(name, table=table)) if place in wanted]
    found = [(place, float(row[column])) for place, row in zip(places, rows)]
    return Line(f"{column} along {name} of {home.name}", found, f"place in {name}", column, f"{len(found):,} of {size:,} records, evenly spread")


def spread(size: int, points: int) -> List[int]:
    """Places from the first to the last, as evenly as they can stand, at most so many."""
    if size <= points:
        return list(range(size))
    return [n * (size - 1) // (points - 1) for n in range(points)] if points > 1 else [0][:points]


def distribution(db: Database, table: Optional[str], name: str, bins: int) -> Bars:
    """How many records have which first value of an index's key."""
    home, index = index_of(db, table, name)
    column = index.columns[0]
    title = f"records of {home.name} by {column} ({name})"
    size = db.size(table)
    all_of = f"all {size:,} records"
    if size == 0:
        return Bars(title, [])
    if index.kind == "ordered":
        return Bars(title, in_ranges([row[column] for row in db.walk_range(name, table=table)], bins), column, f"{all_of}, walked")
    first, last = db.nth(name, 0, table)[column], db.nth(name, size - 1, table)[column]
    values = by_values(db, table, index, first, size)
    if values is not None:
        return Bars(title, values, column, f"{all_of}, counted by ranks")
    if not isinstance(first, int):
        quantiles = by_quantiles(db, table, index, size, bins)
        return Bars(title, quantiles, column, f"{len(quantiles):,} of {size:,} records, evenly spread; a bar goes from one to the next")
    low, high = min(first, last), max(first, last)
    edges = edges_of(low, high, bins)
    with db.pipeline() as ahead:
        # (along a descending part those that come before an edge are the greater ones)
        answers = [ahead.upper_rank(name, [it - 1], table) if not index.parts[0].descends else ahead.lower_rank(name, [it - 1], table)
                   for it in edges[1:-1]]
        ranks = [it.result() for it in answers]
    below = [0, *(size - it if index.parts[0].descends else it for it in ranks), size]
    found = [(range_name(low, high), after - before) for low, high, before, after in zip(edges, edges[1:], below, below[1:])]
    return Bars(title, found, column, f"{all_of}, counted by ranks")


def by_values(db: Database, table: Optional[str], index: Index, first: Any, size: int) -> Optional[List[Tuple[str, int]]]:
    """The records of each value, by leaps from one value to the next; None where there are many values."""
    counts: List[Tuple[str, int]] = []
    place, value = 0, first
    while place < size:
        if len(counts) == MOST_VALUES:
            return None
        behind = db.upper_rank(index.name, [value], table)
        counts.append((word(value), behind - place))
        place = behind
        if place < size:
            value = db.nth(index.name, place, table)[index.columns[0]]
    return counts


def by_quantiles(db: Database, table: Optional[str], index: Index, size: int, bins: int) -> List[Tuple[str, int]]:
    """Texts have no distances, so these bars are parts of one size, by the text that each begins with."""
    places = spread(size, bins)
    with db.pipeline() as ahead:
        rows = [it.result() for it in [ahead.nth(index.name, place, table) for place in places]]
    return [(word(row[index.columns[0]]) + " ..", after - before) for row, before, after in zip(rows, places, [*places[1:], size])]


def in_ranges(values: Sequence[Any], bins: int) -> List[Tuple[str, int]]:
    """The same of values that have all been read."""
    distinct = list(dict.fromkeys(values))
    if len(distinct) <= MOST_VALUES or not all(isinstance(it, int) for it in distinct):
        shown = distinct[:MOST_VALUES]
        counts = [(word(it), values.count(it)) for it in shown]
        rest = len(values) - sum(count for _, count in counts)
        return counts + ([("others", rest)] if rest else [])
    edges = edges_of(min(values), max(values), bins)
    return [(range_name(low, high), sum(low <= it < high for it in values)) for low, high in zip(edges, edges[1:])]


def edges_of(low: int, high: int, bins: int) -> List[int]:
    """The beginnings of at most so many ranges of whole numbers, and the number behind the last."""
    width = -(-(high - low + 1) // bins)
    return [*range(low, high + 1, width), high + 1]


def range_name(low: int, high: int) -> str:
    return str(low) if high == low + 1 else f"{low} to {high - 1}"


def word(value: Any) -> str:
    return {True: "true", False: "false"}[value] if isinstance(value, bool) else str(value)
