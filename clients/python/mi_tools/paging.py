"""Pages at the prompt: the rows behind those of a reply, and texts that are longer than the screen."""
from __future__ import annotations

import contextlib
import itertools
import json
import os
import shutil
import subprocess
from typing import Any, Dict, Iterator, List, Mapping, Optional

from mi_client import Database, NeedsSchema
from mi_client.request import MOST_ROWS, Row
from mi_tools.show import width_of


class Behind:
    """What stands behind the page that a `range` or a `list` has answered."""

    def __init__(self, db: Database, asked: Mapping[str, Any], rows: List[Row]) -> None:
        self.table: Optional[str] = asked.get("table")
        self._limit = asked.get("limit", MOST_ROWS)
        self._rows = listed(db, asked, rows[-1]["id"]) if asked["cmd"] == "list" else ranged(db, asked, rows)

    def reply(self) -> str:
        """The next page, as a server would answer it. Raises Refused, TooManyEqual, NeedsSchema and Ended."""
        rows = list(itertools.islice(self._rows, self._limit))
        following = next(self._rows, None)
        if following is not None:
            self._rows = itertools.chain([following], self._rows)
        return json.dumps({"more": following is not None, "ok": True, "rows": rows}, separators=(",", ":"), ensure_ascii=False, sort_keys=True)


def listed(db: Database, asked: Mapping[str, Any], after: int) -> Iterator[Row]:
    while True:
        page = db.list(asked["index"], after=after, table=asked.get("table"))
        yield from page.rows
        if not page.more:
            return
        after = page.rows[-1]["id"]


def ranged(db: Database, asked: Mapping[str, Any], rows: List[Row]) -> Iterator[Row]:
    """From the key of the last row on, but for the rows of this key that were in the page."""
    index, table = asked["index"], asked.get("table")
    columns = columns_of(db, index, table)
    key = [rows[-1][it] for it in columns]
    seen = {it["id"] for it in rows if [it[name] for name in columns] == key}
    bounds: Dict[str, Any] = {"lower": asked.get("lower"), "upper": asked.get("upper"), "reverse": bool(asked.get("reverse"))}
    bounds["upper" if bounds["reverse"] else "lower"] = {"le" if bounds["reverse"] else "ge": key}
    return (it for it in db.walk_range(index, columns, table=table, **bounds) if it["id"] not in seen)


def columns_of(db: Database, index: str, table: Optional[str]) -> List[str]:
    home = db.schema.table(table) if db.schema else None
    found = home.index(index) if home else None
    if found is None and index != "id":
        raise NeedsSchema("the next page needs the index's columns: start the prompt with --schema FILE")
    return found.columns if found else ["id"]


def is_longer_than_screen(text: str) -> bool:
    columns, lines = shutil.get_terminal_size()
    return sum(max(1, -(-width_of(it) // max(1, columns))) for it in text.split("\n")) >= lines


def through_pager(text: str) -> bool:
    """Shows a text by the program that PAGER names, else by less; whether there is one."""
    pager = os.environ.get("PAGER") or shutil.which("less")
    if not pager:
        return False
    with contextlib.suppress(KeyboardInterrupt):
        return subprocess.run(pager, shell=True, input=text + "\n", text=True).returncode not in (126, 127)
    return True
