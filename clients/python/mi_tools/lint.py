"""Checks schemas with the program's `--check`, and where one is refused names the members and lines at fault.

    weltiyo-lint [--program FILE] SCHEMA.toml ..

The program decides, and its word is printed as it is. This script only looks for the places; where other faults would be
found once those are mended, it prints them too, behind `then`: a member whose name is nearly that of one that is missing is read as
that one, so that a slip of the pen isn't followed by what it alone brings about. The status is 0 where all are sound, else 3."""
from __future__ import annotations

import argparse
import difflib
import os
import re
import subprocess
import sys
from typing import Callable, Dict, List, Mapping, Optional, Sequence, Set, Tuple

from mi_client import toml_places
from mi_client.toml_places import Node

Known = Mapping[str, Tuple[str, bool]]
"""Of each member the kind that it has, and whether it is needed."""
Found = Dict[str, Node]
Rows = List[Tuple[str, Found, Node]]
Placed = Tuple[str, int, str, str]
"""The word of a fault, its line, the member, and what is wrong."""

NAME = re.compile(r"[a-z_][a-z0-9_]{0,31}")
TYPES = ("int", "text", "flag")
KINDS = ("ordered", "ranked", "hashed", "sequenced")
COUNTERS = ("first_id", "first_arrival", "first_revision")
MOST_ROWS = 16_777_216
LARGEST_FILE = 65_536
WORDS = ("file", "toml", "shape", "name", "twice", "type", "kind", "key", "limit", "number", "memory")

COLUMN = {"name": ("text", True), "type": ("text", True)}
INDEX = {"name": ("text", True), "kind": ("text", True), "unique": ("boolean", False), "key": ("array", False)}
PER_TABLE = {
    "column": ("array", True),
    "index": ("array", False),
    "first_id": ("number", False),
    "first_arrival": ("number", False),
    "max_rows": ("number", False),
}
ONE_TABLE = {"format": ("number", False), "table": ("text", True), "first_revision": ("number", False), **PER_TABLE}
SEVERAL = {"format": ("number", True), "table": ("array", True), "first_revision": ("number", False)}
NAMED_TABLE = {"name": ("text", True), **PER_TABLE}
NEARLY = 0.75
"""How alike two names are, of which one is taken for the other: `columns` and `column` are 0.92."""
FORMAT = ": a schema of several tables, `[[table]]`, has `format = 2` above the first of them"
TABLES = ": a schema of one table has no `format = 2`, and one of several has `[[table]]` with a `name` for each"


class Lint:
    """The faults of a document as (word, line, member, what)."""

    def __init__(self, root: Node) -> None:
        self.faults: List[Placed] = []
        self.root = root

    def fault(self, word: str, line: int, member: str, what: str) -> None:
        self.faults.append((word, line, member, what))

    # Shape

    def members(self, node: Node, wanted: Known, member: str) -> Found:
        """The members of a table that are of the right kind; the faults of the others."""
        found: Found = {}
        if node.kind != "table":
            self.fault("shape", node.line, member or "the document", f"is {kind_of(node)}, and a table is wanted")
            return found
        missing = [name for name in wanted if name not in node.value]
        for name, it in node.value.items():
            path = f"{member}.{name}" if member else name
            if name not in wanted:
                meant = next(iter(difflib.get_close_matches(name, missing, 1, NEARLY)), None)
                what = f"; `{meant}` is meant?" if meant else f"{hint(name, member)}; known are {', '.join(wanted)}"
                self.fault("shape", it.line, path, f"is unknown here{what}")
                if meant:
                    missing.remove(meant)
                    self.take(found, it, wanted[meant][0], meant)
            elif not self.take(found, it, wanted[name][0], name):
                self.fault("shape", it.line, path, f"is {kind_of(it)}, and {kind_named(wanted[name][0])} is wanted")
        for name in missing:
            if wanted[name][1]:
                self.fault("shape", node.line, f"{member}.{name}" if member else name, "is missing" + (FORMAT if (member, name) == ("", "format") else ""))
        return found

    def take(self, found: Found, node: Node, kind: str, name: str) -> bool:
        """Takes a member as this one if it is of the right kind, and answers whether it is."""
        if node.kind == kind:
            found[name] = node
        return node.kind == kind

    def rows(self, node: Optional[Node], wanted: Known, member: str) -> Rows:
        """The tables of an array of tables, with the names by which they are spoken of."""
        found: Rows = []
        for n, it in enumerate(node.value if node else [], 1):
            path = f"{member}[{n}]"
            made = self.members(it, wanted, path)
            name = made["name"].value if "name" in made else None
            found.append((f"{path} ({name})" if name else path, made, it))
        return found

    def document(self) -> None:
        said, table = self.root.value.get("format"), self.root.value.get("table")
        has_tables = table and table.kind == "array" and all(it.kind == "table" for it in table.value)
        if said and not (said.kind == "number" and said.value in (1, 2)):
            self.fault("shape", said.line, "format", "is 1 or 2")
        elif said and said.value == 2 and table and table.kind == "text":
            self.fault("shape", table.line, "table", "is a text, and an array is wanted" + TABLES)
            self.one()
        elif said and said.value == 2 or not said and has_tables:
            self.several()
        else:
            self.one()

    def one(self) -> None:
        found = self.members(self.root, ONE_TABLE, "")
        if "table" in found:
            self.name(found["table"], "table", is_reserved=False)
        self.table(found, "", self.root)
        self.counters(found, "", ("first_revision",))

    def several(self) -> None:
        found = self.members(self.root, SEVERAL, "")
        tables = self.rows(found.get("table"), NAMED_TABLE, "table")
        if "table" in found and not 1 <= len(tables) <= 16:
            self.fault("limit", found["table"].line, "table", f"has {len(tables)} tables, and 1 to 16 are wanted")
        self.twice(tables, "table")
        for path, it, node in tables:
            if "name" in it:
                self.name(it["name"], f"{path}.name", is_reserved=False)
            self.table(it, f"{path}.", node)
        self.counters(found, "", ("first_revision",))

    # A table

    def table(self, found: Found, prefix: str, node: Node) -> None:
        columns = self.rows(found.get("column"), COLUMN, f"{prefix}column")
        indexes = self.rows(found.get("index"), INDEX, f"{prefix}index")
        for path, it, _ in [*columns, *indexes]:
            if "name" in it:
                self.name(it["name"], f"{path}.name", is_reserved=True)
        self.twice(columns, f"{prefix}column")
        self.twice(indexes, f"{prefix}index")
        for path, it, _ in columns:
            if "type" in it and it["type"].value not in TYPES:
                self.fault("type", it["type"].line, f"{path}.type", f"`{it['type'].value}` is no type; types are {', '.join(TYPES)}")
        for path, it, row in indexes:
            self.index(path, it, row, [c["name"].value for _, c, _ in columns if "name" in c] if "column" in found else None)
        if "column" in found and not 1 <= len(columns) <= 16:
            self.fault("limit", found["column"].line, f"{prefix}column", f"has {len(columns)} columns, and 1 to 16 are wanted")
        if len(indexes) > 15:
            self.fault("limit", found["index"].line, f"{prefix}index", f"has {len(indexes)} indexes, and at most 15 are wanted")
        self.counters(found, prefix, ("first_id", "first_arrival"))
        rows = found.get("max_rows")
        if rows and not 1 <= rows.value <= MOST_ROWS:
            self.fault("number", rows.line, f"{prefix}max_rows", f"is {rows.value}, and 1 to {MOST_ROWS} is wanted")

    def counters(self, found: Found, prefix: str, names: Sequence[str]) -> None:
        for name in names:
            if name in found and found[name].value < 0:
                self.fault("number", found[name].line, f"{prefix}{name}", f"is {found[name].value}, which is below 0")

    def name(self, node: Node, path: str, is_reserved: bool) -> None:
        if not NAME.fullmatch(node.value):
            what = f"`{node.value}` is no name: 1 to 32 of a to z, 0 to 9 and _, no digit first"
            self.fault("name", node.line, path, what)
        elif is_reserved and node.value == "id":
            self.fault("name", node.line, path, "`id` is the index and member that every table has")

    def twice(self, rows: Rows, member: str) -> None:
        seen: Dict[str, int] = {}
        for path, it, _ in rows:
            if "name" not in it:
                continue
            name = it["name"]
            if name.value in seen:
                self.fault("twice", name.line, f"{path}.name", f"`{name.value}` is taken already, in line {seen[name.value]}")
            seen.setdefault(name.value, name.line)

    def index(self, path: str, it: Found, node: Node, columns: Optional[Sequence[str]]) -> None:
        kind = it["kind"].value if "kind" in it else None
        if kind is not None and kind not in KINDS:
            self.fault("kind", it["kind"].line, f"{path}.kind", f"`{kind}` is no kind; kinds are {', '.join(KINDS)}")
        parts = it["key"].value if "key" in it else None
        for n, part in enumerate(parts or [], 1):
            if part.kind != "text":
                self.fault("shape", part.line, f"{path}.key[{n}]", f"is {kind_of(part)}, and a text is wanted")
                return
        if kind == "sequenced":
            if parts is not None:
                self.fault("key", it["key"].line, f"{path}.key", "a sequenced index has no key")
            if "unique" in it and it["unique"].value:
                self.fault("key", it["unique"].line, f"{path}.unique", "a sequenced index is never unique")
        elif kind in KINDS:
            self.key(path, it, node, columns, kind)
        if parts and len(parts) > 4:
            self.fault("limit", it["key"].line, f"{path}.key", f"has {len(parts)} parts, and at most 4 are wanted")

    def key(self, path: str, it: Found, node: Node, columns: Optional[Sequence[str]], kind: str) -> None:
        if "key" not in it or not it["key"].value:
            line = it["key"].line if "key" in it else node.line
            self.fault("key", line, f"{path}.key", "is empty" if "key" in it else f"is missing; {article(kind)} {kind} index has one")
            return
        seen: Set[str] = set()
        for part in it["key"].value:
            name = part.value[1:] if part.value.startswith("-") else part.value
            if part.value.startswith("-") and kind == "hashed":
                self.fault("key", part.line, f"{path}.key", f"`{part.value}`: no part of a hashed key descends")
            if columns is not None and name not in columns:
                self.fault("key", part.line, f"{path}.key", f"`{name}` is no column; columns are {', '.join(columns)}")
            elif name in seen:
                self.fault("key", part.line, f"{path}.key", f"`{name}` stands twice")
            seen.add(name)


def article(word: str) -> str:
    return "an" if word[0] in "aeiou" else "a"


def kind_named(kind: str) -> str:
    return {"table": "a table", "array": "an array", "text": "a text", "number": "a whole number", "boolean": "true or false"}.get(kind, "another value")


def kind_of(node: Node) -> str:
    return kind_named(node.kind)


def hint(name: str, member: str) -> str:
    """A member of the whole table that stands below a header belongs to the part above it."""
    part = re.search(r"(column|index|table)\[\d+\]$", member)
    if part and name in ({**ONE_TABLE, **SEVERAL} if part[1] != "table" else SEVERAL):
        return f": below `[[..]]` it belongs to {member}, so move it above the first of these"
    return ""


def places(data: bytes) -> List[Placed]:
    """The faults of a document, those of the first check first."""
    if len(data) > LARGEST_FILE:
        return [("file", 1, "the file", f"has {len(data)} bytes, and at most {LARGEST_FILE} are read; comments count")]
    try:
        root = toml_places.read(data)
    except toml_places.Fault as fault:
        return [("toml", fault.line, "the document", fault.why)]
    lint = Lint(root)
    lint.document()
    return sorted(lint.faults, key=lambda it: (WORDS.index(it[0]), it[1]))


def lint_file(path: str, file: str) -> bool:
    """Prints what is wrong with a schema, and answers whether it is sound."""
    ran = subprocess.run([path, "--check", "--schema", file], capture_output=True, text=True)
    if (ran.returncode, ran.stdout) == (0, "ok\n"):
        print(f"{file}: ok")
        return True
    if ran.returncode != 3:
        raise OSError(f"it has ended with {ran.returncode}, and isn't a `mi_server` that checks schemas")
    said = ran.stderr.strip()
    print(f"{file}: {said}")
    word = said[len("schema: "):] if said.startswith("schema: ") else None
    try:
        with open(file, "rb") as it:
            found = places(it.read())
    except OSError as error:
        print(f"{file}: {error.strerror}")
        return False
    first = [it for it in found if it[0] == word]
    for _, line, member, what in first:
        print(f"{file}:{line}: {member} {what}" if not what.startswith(("`", "the byte")) else f"{file}:{line}: {member}: {what}")
    if not first:
        print(f"{file}: no place was found for this word")
    for other, line, member, what in found:
        if other != word:
            print(f"{file}:{line}: then {other}: {member}: {what}")
    return False


def main(found: Optional[Callable[[], str]] = None) -> int:
    """The exit status. `found` names the program where no option does; without it the environment's MI_SERVER does, or the PATH."""
    parser = argparse.ArgumentParser()
    parser.add_argument("--program")
    parser.add_argument("files", nargs="+")
    options = parser.parse_args()
    path = options.program or (found() if found else os.environ.get("MI_SERVER", "mi_server"))
    try:
        sound = [lint_file(path, it) for it in options.files]
    except FileNotFoundError:
        print(f"there is no program {path}: name the server by --program", file=sys.stderr)
        return 2
    except OSError as error:
        print(f"{path} can't be asked: {error}", file=sys.stderr)
        return 2
    return 0 if all(sound) else 3


if __name__ == "__main__":
    sys.exit(main())
