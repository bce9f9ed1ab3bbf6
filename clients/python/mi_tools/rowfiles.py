"""Rows in files: JSON lines and CSV, written and read, with the place of each row. Nothing here asks a server."""
from __future__ import annotations

import contextlib
import csv
import io
import itertools
import json
import os
import re
import shutil
import sys
import tempfile
from typing import IO, Any, Callable, Dict, Iterator, List, NamedTuple, Optional, Sequence, Tuple

from mi_client.schema import Table
from mi_client.utf8 import text_of
from mi_tools.whole_files import part_of, place_of, replacing

Row = Dict[str, Any]
WHOLE = re.compile(r"[+-]?[0-9]+")
FLAGS = {"true": True, "false": False, "1": True, "0": False, "yes": True, "no": False}


class Item(NamedTuple):
    """A row of a file."""

    place: str
    """`FILE:LINE`."""
    table: Optional[str]
    id: Optional[int]
    """The id that the record had where it was written."""
    row: Row
    done: int
    """How many bytes of the file are read."""


class Faulty(ValueError):
    """A line of a file that is no row. Its message begins with the place."""


@contextlib.contextmanager
def reading(path: str, again: bool = False) -> Iterator[IO[bytes]]:
    """A file; where it is read `again`, as from a pipe, what has come of it is kept meanwhile."""
    with contextlib.ExitStack() as opened:
        file: IO[bytes] = sys.stdin.buffer if path == "-" else opened.enter_context(open(path, "rb"))
        if again and not file.seekable():
            kept = opened.enter_context(tempfile.TemporaryFile())
            shutil.copyfileobj(file, kept)
            kept.seek(0)
            file = kept
        yield file


@contextlib.contextmanager
def writing(path: str, kept: int = 0, is_gone_on_with: bool = False) -> Iterator[IO[bytes]]:
    """A file to write, which is whole at the end of the block or stays as it was; a device, a pipe or the standard output is written as it comes.
    The first `kept` bytes are those of a run before."""
    place = None if path == "-" else place_of(path)
    if path == "-":
        yield sys.stdout.buffer
        sys.stdout.flush()
    elif place is None:
        with open(path, "wb") as file:
            yield file
    else:
        with replacing(place, kept, is_gone_on_with) as file:
            yield file


def has_rows(path: str, kind: str) -> bool:
    """Whether a file of this format that is there has a row; the first line of CSV has names."""
    if path == "-" or not os.path.isfile(path):
        return False
    with open(path, "rb") as file:
        return any(it.strip() for it in itertools.islice(file, 1 if kind == "csv" else 0, None))


def length_of(path: str) -> int:
    return os.path.getsize(path) if path != "-" and os.path.isfile(path) else 0


def format_of(path: str, named: Optional[str]) -> str:
    """`csv` or `jsonl`: as it is named, else by the end of the file's name."""
    return named or ("csv" if path.endswith(".csv") else "jsonl")


# JSON lines


def json_line(row: Row, table: Optional[str]) -> bytes:
    """A row with its id, and its table where it is named."""
    columns = {name: it for name, it in row.items() if name != "id"}
    whole: Row = {"id": row["id"], "row": columns, **({"table": table} if table else {})}
    return json.dumps(whole, separators=(",", ":"), ensure_ascii=False).encode() + b"\n"


def read_json_lines(file: IO[bytes], name: str, table: Optional[str]) -> Iterator[Item]:
    """The rows of JSON lines: `{"row":{..}}` with `id` and `table` if wanted, or the bare columns. Raises Faulty."""
    done = 0
    for n, line in enumerate(file, 1):
        done += len(line)
        if not line.strip():
            continue
        try:
            text = text_of(line)
        except ValueError as error:
            raise Faulty(f"{name}:{n}: {error}") from None
        try:
            found = json.loads(text.removeprefix("\ufeff") if n == 1 else text)
        except (ValueError, RecursionError) as error:
            raise Faulty(f"{name}:{n}: no JSON: {error}") from None
        if not isinstance(found, dict):
            raise Faulty(f"{name}:{n}: a row is an object")
        row = found.get("row")
        if isinstance(row, dict) and set(found) <= {"row", "id", "table"} and isinstance(found.get("table", ""), str):
            yield Item(f"{name}:{n}", table or found.get("table"), found.get("id"), row, done)
        else:
            yield Item(f"{name}:{n}", table, found.get("id"), {it: value for it, value in found.items() if it != "id"}, done)


def whole_lines(path: str) -> Tuple[List[Any], int]:
    """The last whole line of a dump that is to be gone on with, as [its value], or [] where there is none; and how many bytes its whole lines are:
    of the part that the run before has left, else of the file. What stands behind the last newline was written when that broke off. Raises Faulty."""
    part = part_of(path)
    source = part if part is not None and os.path.isfile(part) else path
    if part is None or not os.path.isfile(source):
        return [], 0
    with open(source, "rb") as file:
        size = file.seek(0, os.SEEK_END)
        at, tail = size, b""
        while at > 0 and tail.count(b"\n") < 2:
            at = max(0, at - 65_536)
            file.seek(at)
            tail = file.read(size - at)
    whole = tail.rfind(b"\n") + 1
    return [dumped(it, source) for it in tail[:whole].splitlines()[-1:]], at + whole if whole else 0


def dumped(line: bytes, path: str) -> Any:
    """The value of a line of a dump. Raises Faulty where it is none."""
    try:
        found = json.loads(line)
    except (ValueError, RecursionError):
        found = None
    if not isinstance(found, dict) or not isinstance(found.get("id"), int):
        raise Faulty(f"{path}: its last line is no row of a dump, so it isn't gone on with")
    return found


# CSV


class _Encoded:
    """A file that takes text. It is closed by its owner alone."""

    def __init__(self, file: IO[bytes]) -> None:
        self._file = file

    def write(self, text: str) -> None:
        self._file.write(text.encode())


class CsvWriter:
    """Rows below a line of names, the id first. Flags are written true and false."""

    def __init__(self, file: IO[bytes], table: Table) -> None:
        self._names, text = ["id", *(it.name for it in table.columns)], _Encoded(file)
        self._csv = csv.writer(text, lineterminator="\n")
        self._quoted = csv.writer(text, lineterminator="\n", quoting=csv.QUOTE_ALL)
        self._csv.writerow(self._names)

    def write(self, row: Row) -> None:
        values = [row[it] for it in self._names]
        # (to readers a carriage return ends a line, and the writer quotes it only where its own lines end in one)
        sheet = self._quoted if any(isinstance(it, str) and "\r" in it for it in values) else self._csv
        sheet.writerow([("true" if it else "false") if isinstance(it, bool) else it for it in values])


def read_csv(file: IO[bytes], name: str, table: Table) -> Iterator[Item]:
    """The rows of a CSV file below a line of names, by the types of the table's columns; a column `id` is passed over where
    the table has the others. Raises Faulty."""
    lines = csv.reader(text_lines(file, name), strict=True)
    try:
        names: List[str] = next(lines, [])
        strange = [it for it in names if it != "id" and table.column(it) is None]
        lacking = [it.name for it in table.columns if it.name not in names]
        if strange or lacking:
            wanted = ", ".join(it.name for it in table.columns)
            raise Faulty(f"{name}:1: the first line has the names of the columns, {wanted}; it has {', '.join(names) or 'none'}")
        twice = sorted({it for it in names if names.count(it) > 1})
        if twice:
            raise Faulty(f"{name}:1: {', '.join(twice)} stands twice in the first line")
        takes = [_taking(table, it) for it in names]
        done = 0
        for fields in lines:
            place = f"{name}:{lines.line_num}"
            done += sum(map(len, fields)) + len(fields)
            if len(fields) != len(names):
                if not fields:
                    continue
                raise Faulty(f"{place}: {len(fields)} values, and {len(names)} names in the first line")
            row = _row(place, names, takes, fields)
            yield Item(place, table.name, row.pop("id", None), row, done)
    except csv.Error as error:
        raise Faulty(f"{name}:{lines.line_num}: {error}") from None


def text_lines(file: IO[bytes], name: str) -> Iterator[str]:
    """The lines as CSV has them, which end by a newline, a carriage return, or both. Raises Faulty."""
    count = 0
    for n, data in enumerate(file, 1):
        try:
            text = text_of(data)
        except ValueError as error:
            raise Faulty(f"{name}:{count + 1}: {error}") from None
        for line in io.StringIO(text.removeprefix("\ufeff") if n == 1 else text, newline=""):
            count += 1
            yield line


def _taking(table: Table, name: str) -> Callable[[str], Any]:
    by_type: Dict[str, Callable[[str], Any]] = {"int": _int, "text": str, "flag": _flag}
    return by_type[table.type_of(name)]


def _int(text: str) -> int:
    if not WHOLE.fullmatch(text.strip()):
        raise ValueError("no whole number")
    return int(text)


def _flag(text: str) -> bool:
    try:
        return FLAGS[text.strip().lower()]
    except KeyError:
        raise ValueError("no flag") from None


def _row(place: str, names: Sequence[str], takes: Sequence[Callable[[str], Any]], fields: Sequence[str]) -> Row:
    row: Row = {}
    for name, take, field in zip(names, takes, fields):
        try:
            row[name] = take(field)
        except ValueError:
            wanted = "true or false" if take is _flag else "a whole number"
            raise Faulty(f"{place}: {name} is {field!r}; {wanted} wanted") from None
    return row
