"""Why the server refused a command, as far as its schema tells: `balance is a float; int wanted`. The server's word stands;
this only looks for the place, after the refusal, so that accepted commands cost nothing more."""
from __future__ import annotations

import collections
import json
from typing import Any, Callable, Dict, Iterator, List, Mapping, Optional, Sequence, Tuple

from mi_client.commands import COMMANDS, REFUSALS
from mi_client.schema import Column, Index, Schema, Table

LONGEST_TEXT = 1024


def why(schema: Optional[Schema], members: Mapping[str, Any], word: str) -> str:
    """What can be said beyond the word of a refusal of the command with these members. Without a schema it is what the word
    means; of `unique` the reply itself says more."""
    said = ""
    if word == "form":
        said = "; ".join(_faults_of_form(members))
    elif word == "id":
        said = _missing(members)
    elif schema:
        said = _by_schema(schema, members, word)
    return said or ("" if word == "unique" else REFUSALS.get(word, ("",))[0])


def kinds_for(cmd: str) -> Tuple[str, ...]:
    """The kinds of index that a command is for; of `insert` those of its member `before`."""
    return COMMANDS[cmd].kinds if cmd in COMMANDS else ()


def _by_schema(schema: Schema, members: Mapping[str, Any], word: str) -> str:
    table = schema.table(members.get("table"))
    if word == "table" and table:
        return f"the server has no table {table.name}, and this schema does: it isn't the server's"
    if word == "table" or table is None:
        return f"there is no table {members.get('table')}; tables are {_listed([it.name for it in schema.tables])}"
    if word == "row":
        return "; ".join(_faults_of_row(table, members))
    if word in ("index", "kind", "key"):
        return _of_index(table, members, word)
    return f"{table.name} has its most rows, {table.max_rows}" if word == "full" else ""


def _missing(members: Mapping[str, Any]) -> str:
    """Which record isn't there."""
    cmd, before = members["cmd"], members.get("before")
    if cmd == "insert":
        return f"there is no record {before['id']}" if before else ""
    if cmd in COMMANDS and COMMANDS[cmd].absent:
        said = {name: it if isinstance(it, str) else json.dumps(it, ensure_ascii=False) for name, it in members.items()}
        return COMMANDS[cmd].absent.format_map(collections.defaultdict(lambda: "None", said))
    other = f", or none {before}" if before is not None else ""
    return f"there is no record {members.get('id')}{other}"


def _is_whole(low: int, high: int) -> Callable[[Any], bool]:
    return lambda it: isinstance(it, int) and not isinstance(it, bool) and low <= it <= high


def _is_bound(*names: str) -> Callable[[Any], bool]:
    return lambda it: isinstance(it, Mapping) and len(it) == 1 and list(it)[0] in names and isinstance(it[list(it)[0]], (list, tuple))


_NUMBER = (_is_whole(0, 2**63 - 1), "a whole number from 0")
_OBJECT = (lambda it: isinstance(it, Mapping), "an object")
_FLAG = (lambda it: isinstance(it, bool), "true or false")
_TEXT = (lambda it: isinstance(it, str), "a text")
FORMS: Dict[str, Tuple[Callable[[Any], bool], str]] = {
    "id": _NUMBER, "n": _NUMBER, "revision": _NUMBER, "after": _NUMBER, "index": _TEXT, "table": _TEXT,
    "row": _OBJECT, "set": _OBJECT, "add": _OBJECT, "rollback": _FLAG, "reverse": _FLAG,
    "key": (lambda it: isinstance(it, (list, tuple)), "an array"),
    "limit": (_is_whole(1, 1000), "1 to 1000"),
    "changes": (_is_whole(0, 1_000_000), "0 to 1000000"),
    "sessions": (_is_whole(0, 1024), "0 to 1024"),
}
"""What each member of a command has to be, and in words."""

BOUNDS = {"lower": ("ge", "gt"), "upper": ("le", "lt")}
"""The words of each bound."""


def _faults_of_form(members: Mapping[str, Any]) -> Iterator[str]:
    cmd = members.get("cmd")
    if not isinstance(cmd, str) or cmd not in COMMANDS:
        yield f"there is no command {cmd}"
        return
    known = [it.strip("[]") for it in COMMANDS[cmd].members]
    for name, value in members.items():
        if name != "cmd" and name not in known:
            yield f"{cmd} has no member {name}; it has {_listed(known)}"
        elif name in FORMS and not FORMS[name][0](value):
            yield f"{name} is {value if type(value) is int else kind_of(value)}; {FORMS[name][1]} wanted"
        elif name in BOUNDS and not _is_bound(*BOUNDS[name])(value):
            yield _bound_fault(name, value)
    for name in COMMANDS[cmd].members:
        if not name.startswith("[") and name not in members:
            yield f"{name} is missing"


def _bound_fault(name: str, value: Any) -> str:
    """Why a bound is none, and how it is written; a word of the other side is told as that."""
    words, other = BOUNDS[name], "upper" if name == "lower" else "lower"
    given: Dict[str, Any] = dict(value) if isinstance(value, Mapping) else {}
    has = f"has {_listed([json.dumps(it) for it in given])}" if isinstance(value, Mapping) else f"is {kind_of(value)}"
    whose = f", which {'is' if len(given) == 1 else 'are'} for {other}" if given and set(given) <= set(BOUNDS[other]) else ""
    key = next((it for it in given.values() if isinstance(it, (list, tuple))), [10])
    return f'{name} {has}{whose}; "{words[0]}" or "{words[1]}" wanted, as {name}={{"{words[0]}": {json.dumps(key, ensure_ascii=False)}}}'


def _listed(names: Sequence[str]) -> str:
    return ", ".join(names) or "none"


def kind_of(value: Any) -> str:
    """What a value is, in the words of the schema where it has one."""
    for kind, name in ((bool, "a flag"), (int, "an int"), (str, "a text"), (float, "a float")):
        if isinstance(value, kind):
            return name
    if value is None:
        return "null"
    return "an object" if isinstance(value, Mapping) else "a list" if isinstance(value, (list, tuple)) else type(value).__name__


def misfit(type: str, value: Any) -> str:
    """Why a value doesn't fit a column of this type; empty where it does."""
    wanted = {"int": int, "text": str, "flag": bool}[type]
    if not isinstance(value, wanted) or type == "int" and isinstance(value, bool):
        return f"is {kind_of(value)}; {type} wanted"
    if isinstance(value, int) and not -(2**63) <= value < 2**63:
        return "is beyond 64 bits"
    if isinstance(value, str) and len(value.encode("utf-8", "surrogatepass")) > LONGEST_TEXT:
        return f"has {len(value.encode('utf-8', 'surrogatepass'))} bytes; at most {LONGEST_TEXT} fit"
    return ""


def _faults_of_row(table: Table, members: Mapping[str, Any]) -> Iterator[str]:
    columns = {it.name: it for it in table.columns}
    if "row" in members:
        row = members["row"]
        lacking = [it for it in columns if it not in row]
        if lacking:
            yield f"{_listed(lacking)} {'is' if len(lacking) == 1 else 'are'} missing"
        yield from _faults_of_values(columns, row)
        return
    added, put = members.get("add", {}), members.get("set", {})
    yield from _faults_of_values(columns, put)
    for name, value in added.items():
        if name in put:
            yield f"{name} stands in set and in add"
        elif name in columns and columns[name].type != "int":
            yield f"{name} is a {columns[name].type} column; only an int can be added to"
        else:
            yield from _faults_of_values(columns, {name: value})


def _faults_of_values(columns: Dict[str, Column], row: Mapping[str, Any]) -> Iterator[str]:
    for name, value in row.items():
        if name == "id" and "id" not in columns:
            yield "id is no column: the server gives it"
        elif name not in columns:
            yield f"{name} is no column; columns are {_listed(list(columns))}"
        else:
            said = misfit(columns[name].type, value)
            if said:
                yield f"{name} {said}"


def _of_index(table: Table, members: Mapping[str, Any], word: str) -> str:
    name = members.get("index") or (members.get("before") or {}).get("index")
    index = table.index(name) if isinstance(name, str) else None
    if index is None:
        return f"{table.name} has no index {name}; indexes are {_listed([it.name for it in table.indexes])}"
    if word == "kind":
        kinds = kinds_for(members["cmd"])
        fit = [it.name for it in table.indexes if it.kind in kinds]
        return f"{index.name} is {index.kind}, and {members['cmd']} is for {' or '.join(kinds)} ones: {_listed(fit)}"
    if word == "key":
        bounds = [members.get("key"), *(members.get("lower") or {}).values(), *(members.get("upper") or {}).values()]
        whole = index.kind == "hashed" or members["cmd"] == "erase_key"
        return next((said for said in (key_fault(table, index, it, whole) for it in bounds if it is not None) if said), "")
    return ""


def key_fault(table: Table, index: Index, key: Sequence[Any], whole: bool) -> str:
    """Why a key doesn't fit an index; empty where it does."""
    parts: List[str] = [str(it) for it in index.parts]
    if not key:
        return f"the key is empty; {index.name} has {_listed(parts)}"
    if len(key) > len(parts) or whole and len(key) < len(parts):
        return f"{len(key)} of {len(parts)} values: the key of {index.name} is {_listed(parts)}"
    for column, value in zip(index.columns, key):
        said = misfit(table.type_of(column), value)
        if said:
            return f"{column} {said}"
    return ""


def which_index_goes_on(table: Optional[Table], columns: Sequence[str]) -> str:
    """Which index a walk over many equal keys can take, for the message of `TooManyEqual`."""
    ranked = [it.name for it in table.indexes if it.kind == "ranked" and it.columns[: len(columns)] == list(columns)] if table else []
    if ranked:
        return f"{ranked[0]} is ranked by the same columns, so a walk over it goes on by place"
    return f"an index of the kind `ranked` by {', '.join(columns)} goes on by place, or one whose key a further column makes unique"
