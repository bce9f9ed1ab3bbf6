"""Whether a schema is the server's, as far as look-ups tell: `mi_server` says nothing of its schema."""
from __future__ import annotations

import json
from typing import Any, Dict, Iterator, Tuple

from mi_client import Database, Schema
from mi_client.schema import Index, Table

NAME_IT = "this schema isn't its own; name it by --schema FILE"


def line_of(cmd: str, **members: Any) -> str:
    return json.dumps({"cmd": cmd, **members}, separators=(",", ":"))


def probes(schema: Schema) -> Iterator[Tuple[str, str]]:
    """Look-ups that a server over this schema answers, each behind what it is about."""
    for table in schema.tables:
        yield f"the table {table.name}", line_of("size", table=table.name)
        for index in table.indexes:
            yield f"the index {index.name} of {table.name}", _probe(table, index)


def _probe(table: Table, index: Index) -> str:
    if index.kind in ("sequenced", "ordered"):
        return line_of("list" if index.kind == "sequenced" else "range", table=table.name, index=index.name, limit=1)
    plain: Dict[str, Any] = {"int": 0, "text": "", "flag": False}
    key = [0] if index.name == "id" else [plain[table.type_of(it)] for it in index.columns]
    return line_of("lower_rank" if index.kind == "ranked" else "count", table=table.name, index=index.name, key=key)


def misfit(db: Database, schema: Schema) -> str:
    """In words what the server refuses that one over this schema answers, or which columns it has in the place of these; empty where it
    answers all. Raises Ended."""
    asked = list(probes(schema))
    for (about, _), reply in zip(asked, list(db.ask_lines(line for _, line in asked))):
        try:
            found = json.loads(reply)
        except ValueError:
            return "what answers isn't a table server"
        if not found.get("ok") and found.get("error") != "memory":
            return f"the server refuses {about} as {found.get('error')}: {NAME_IT}"
    firsts = db.ask_lines(line_of("range", table=it.name, index="id", limit=1) for it in schema.tables)
    for table, reply in zip(schema.tables, list(firsts)):
        wanted = sorted(["id", *(it.name for it in table.columns)])
        for row in json.loads(reply).get("rows", []):
            if sorted(row) != wanted:
                return f"the server's rows of {table.name} have {', '.join(sorted(row))}, and not {', '.join(wanted)}: {NAME_IT}"
    return ""
