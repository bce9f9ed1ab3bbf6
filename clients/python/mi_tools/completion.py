"""What a word at the prompt may become: commands, members, and by the schema tables, indexes and columns."""
from __future__ import annotations

import re
from typing import List, Optional

from mi_client import Schema
from mi_client.commands import COMMANDS, REFUSALS
from mi_client.explain import kinds_for
from mi_client.schema import Table
from mi_tools.shorthand import names_of

EXTRAS = ["help", "quit", "\\c", "\\d", "\\i", "\\n", "\\t", "\\x"]
IN_OBJECT = re.compile(r'(.*[{,]\s*)"([a-z0-9_]*)$')
"""A column's name that has begun within an object."""


def completions(line: str, word: str, schema: Optional[Schema] = None) -> List[str]:
    """What the word at the end of a line may become."""
    before = line[: len(line) - len(word)].split()
    if not before:
        return [f"{it} " for it in [*COMMANDS, *EXTRAS] if it.startswith(word)]
    if before[0] == "help":
        return [f"{it} " for it in [*COMMANDS, *REFUSALS] if it.startswith(word)] if len(before) == 1 else []
    if before[0] not in COMMANDS:
        return []
    if schema:
        found = by_schema(schema, before, word)
        if found:
            return found
    return [f"{it}=" for it in names_of(before[0]) if it.startswith(word)]


def by_schema(schema: Schema, before: List[str], word: str) -> List[str]:
    table = schema.table(next((it[6:] for it in before if it.startswith("table=")), None))
    head, _, typed = word.rpartition("=")
    member = head or place_of(before)
    if member == "table":
        return _named([it.name for it in schema.tables], head, typed)
    if member == "index" and table:
        kinds = kinds_for(before[0])
        return _named([it.name for it in table.indexes if it.kind in kinds], head, typed)
    return columns(table, word)


def place_of(before: List[str]) -> str:
    """Which member a value without a name would be."""
    named = {it.partition("=")[0] for it in before[1:] if "=" in it}
    free = [it for it in names_of(before[0]) if it not in named]
    bare = [it for it in before[1:] if "=" not in it]
    return free[len(bare)] if len(bare) < len(free) else ""


def columns(table: Optional[Table], word: str) -> List[str]:
    found = IN_OBJECT.match(word) or (re.match(r'()"([a-z0-9_]*)$', word) if word.startswith('"') else None)
    if not found or not table:
        return []
    return [f'{found[1]}"{it.name}":' for it in table.columns if it.name.startswith(found[2])]


def _named(names: List[str], head: str, typed: str) -> List[str]:
    return [f"{head}={it} " if head else f"{it} " for it in names if it.startswith(typed)]
