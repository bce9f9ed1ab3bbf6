"""Replies as people read them: rows as a table, other members side by side, and the tables of a schema."""
from __future__ import annotations

import json
import unicodedata
from typing import Any, Dict, List, Optional, Sequence

from mi_client import Schema

WIDEST = 40
"""The most columns of the screen that one value takes."""


def width_of(text: str) -> int:
    """How many columns of a terminal a text takes."""
    return sum(0 if unicodedata.combining(it) else 2 if unicodedata.east_asian_width(it) in "WF" else 1 for it in text)


def cell(value: Any) -> str:
    text = value if isinstance(value, str) else json.dumps(value, ensure_ascii=False)
    text = "".join(it if it.isprintable() else json.dumps(it)[1:-1] for it in text)
    if width_of(text) <= WIDEST:
        return text
    while width_of(text) > WIDEST - 2:
        text = text[:-1]
    return text + ".."


def table(rows: Sequence[Dict[str, Any]], columns: Sequence[str]) -> str:
    """Rows below their columns' names; numbers stand at the right."""
    cells = [[cell(row.get(it, "")) for it in columns] for row in rows]
    widths = [max([width_of(name), *(width_of(it[n]) for it in cells)]) for n, name in enumerate(columns)]
    right = [any(isinstance(row.get(it), int) and not isinstance(row.get(it), bool) for row in rows) for it in columns]

    def line(texts: Sequence[str]) -> str:
        padded = [" " * (width - width_of(it)) + it if is_right else it + " " * (width - width_of(it))
                  for it, width, is_right in zip(texts, widths, right)]
        return "  ".join(padded).rstrip()

    return "\n".join([line(columns), "  ".join("-" * it for it in widths), *map(line, cells)])


def columns_in_order(rows: Sequence[Dict[str, Any]], schema: Optional[Schema], named: Optional[str]) -> List[str]:
    """The id first, then the columns as the schema has them, else by their names."""
    home = schema.table(named) if schema else None
    names = [it.name for it in home.columns] if home else []
    present = sorted({name for row in rows for name in row})
    return [it for it in ["id", *names] if it in present] + [it for it in present if it != "id" and it not in names]


def reply(line: str, schema: Optional[Schema], named: Optional[str]) -> str:
    """A reply: its rows as a table, else its members. A reply that is none of these stays a line."""
    found = json.loads(line)
    if not found.get("ok"):
        return line
    rows = found.get("rows", [found["row"]] if "row" in found else None)
    if rows is None:
        said = [f"{name} {json.dumps(it)}" for name, it in found.items() if name != "ok"]
        return ", ".join(said) or "ok"
    more = "; more stand behind" if found.get("more") else ""
    if not rows:
        return "no rows"
    end = "" if "row" in found else f"\n{len(rows)} row{'' if len(rows) == 1 else 's'}{more}"
    return table(rows, columns_in_order(rows, schema, named)) + end


def tables(schema: Schema) -> str:
    """The tables with their columns and indexes."""
    parts: List[str] = []
    for it in schema.tables:
        parts.append(f"table {it.name}: {', '.join(f'{column.name} {column.type}' for column in it.columns)}")
        rows = [
            {"index": index.name, "kind": index.kind + (", unique" if index.unique else ""), "key": ", ".join(map(str, index.parts))}
            for index in it.indexes
        ]
        parts.append(table(rows, ["index", "kind", "key"]))
    return "\n".join(parts)
