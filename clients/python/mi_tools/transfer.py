"""The tools dump, load, export and import: rows of a server into files and back, page by page. A page that is loaded comes in
whole or not at all, so a load that was stopped can be gone on with."""
from __future__ import annotations

import argparse
import contextlib
import itertools
import sys
from typing import IO, Callable, Iterator, List, Optional, Sequence, TypeVar

from mi_client import Database, Ended, NeedsSchema, Refused, TooManyEqual
from mi_client.request import Bound, Row
from mi_client.schema import Table
from mi_tools import exact
from mi_tools.journal_names import base_path
from mi_tools.loading import Loaded, Reference, References, Stopped, behind_loaded, check_ids, load_rows
from mi_tools.opening import NO_COLUMNS, add_server, add_source, opened, source_words, status_of, why
from mi_tools.progress import Progress
from mi_tools.rowfiles import CsvWriter, Item, format_of, has_rows, json_line, length_of, read_csv, read_json_lines, reading, whole_lines, writing
from mi_tools.whole_files import part_of

T = TypeVar("T")
KEEPS = """A load gives the rows back, and what follows from them. It keeps ids where they are those that the server counts; else it
loads nothing, unless --renumber or --references is given. It can't keep the places of records among equals, nor the orders of
sequenced indexes beside the one that was dumped by --order. --ids keeps all: a dump reads the base of a service's journal, which
mi_service --rebase makes, and a load makes a new journal."""


def rows_in_order(db: Database, table: Optional[str], index: str, lower: Optional[Bound] = None) -> Iterator[Row]:
    """The rows of a table in the order of an index of any kind but hashed. Raises ValueError for those."""
    home = db.schema.table(table) if db.schema else None
    found = home.index(index) if home else None
    if home is None and index != "id":
        home_of(db, table)  # (which says what is missing)
    if home and found is None:
        raise ValueError(f"{home.name} has no index {index}; indexes are {', '.join(it.name for it in home.indexes)}")
    if found and found.kind == "hashed":
        raise ValueError(f"{index} is hashed and has no order; take another index, or `id`")
    if found and found.kind == "sequenced":
        return db.walk_list(index, table=table)
    return db.walk_range(index, ["id"] if index == "id" else None, lower, table=table)


def dumped_tables(db: Database, named: Optional[str]) -> List[Optional[str]]:
    if named:
        return [named]
    if db.schema is None:
        raise NeedsSchema("the tables come from the schema: name it by --schema, or one table by --table")
    return [it.name for it in db.schema.tables]


def dump(db: Database, options: argparse.Namespace, is_gone_on_with: bool = True) -> int:
    """Where it breaks off what came by then stays as the part of a file, if it may be gone on with."""
    last, kept = whole_lines(options.file) if options.resume else ([], 0)
    tables = dumped_tables(db, options.table)
    lower: Optional[Bound] = None
    if last:
        if last[0].get("table") not in tables:
            other = last[0].get("table")
            raise ValueError(f"{options.file}: its last row is of the table {other}, so it isn't a dump of these tables that broke off")
        tables = tables[tables.index(last[0].get("table")):]
        lower = {"gt": [last[0]["id"]]}
    rows = 0
    sources = [(it, rows_in_order(db, it, options.order, None if n else lower)) for n, it in enumerate(tables)]
    total = sum(db.size(it) for it in tables)
    lines = begun((json_line(row, table) for table, source in sources for row in source), options, "jsonl", bool(last))
    with writing(options.file, kept, is_gone_on_with) as file, Progress(total) as progress:
        options.part = part_of(options.file)
        for line in lines:
            file.write(line)
            rows += 1
            progress.step(1)
    return rows


def begun(rows: Iterator[T], options: argparse.Namespace, kind: str, resumed: bool) -> Iterator[T]:
    """The same, the first of which has come: what is refused or breaks off there does so before a file is begun. Raises ValueError where there is
    none and the file has rows, unless that is wanted."""
    first = list(itertools.islice(rows, 1))
    if not first and not resumed and not getattr(options, "force", False) and has_rows(options.file, kind):
        raise ValueError(f"there is no row to write, and {options.file} has some: --force empties it")
    return itertools.chain(first, rows)


def export(db: Database, options: argparse.Namespace) -> int:
    rows = 0
    kind = format_of(options.file, options.format)
    home = home_of(db, options.table) if kind == "csv" else None
    total = db.size(options.table)
    source = begun(rows_in_order(db, options.table, options.order), options, kind, False)
    with writing(options.file) as file, Progress(total) as progress:
        sheet = CsvWriter(file, home) if home else None
        for row in source:
            if sheet:
                sheet.write(row)
            else:
                file.write(json_line(row, None))
            rows += 1
            progress.step(1)
    return rows


def home_of(db: Database, table: Optional[str]) -> Table:
    if db.schema is None:
        raise NeedsSchema(NO_COLUMNS)
    home = db.schema.table(table)
    if home is None:
        raise ValueError(f"there is no table {table}; tables are {', '.join(it.name for it in db.schema.tables)}")
    return home


def load(db: Database, options: argparse.Namespace) -> Loaded:
    columns = getattr(options, "references", ())
    keeps_ids, references = not columns and not getattr(options, "renumber", False), References(columns, db.schema)
    with reading(options.file, again=keeps_ids) as file, Progress(length_of(options.file)) as progress:
        if keeps_ids:
            start = file.tell()
            check_ids(db, items_of(db, file, options), options.resume)
            file.seek(start)
        items = items_of(db, file, options)
        if options.resume:
            items = behind_loaded(db, items, references)
        return load_rows(db, items, options.keep_going, progress.step, references=references, keeps_ids=keeps_ids)


def items_of(db: Database, file: IO[bytes], options: argparse.Namespace) -> Iterator[Item]:
    if format_of(options.file, options.format) == "csv":
        return read_csv(file, options.file, home_of(db, options.table))
    return read_json_lines(file, options.file, options.table)


# The command lines


def writer_options(name: str, about: str) -> argparse.ArgumentParser:
    parser = argparse.ArgumentParser(prog=f"weltiyo {name}", description=about, epilog=KEEPS)
    add_source(parser, ", and empties a file that has rows")
    parser.add_argument("--table", help="this table alone")
    parser.add_argument("--order", metavar="INDEX", default="id", help="the rows in the order of this index (id)")
    parser.add_argument("--hold", action="store_true", help="holds a session meanwhile, so that no other connection changes anything")
    return parser


def reference(text: str) -> Reference:
    """What --references names. Raises ArgumentTypeError."""
    try:
        return Reference.of(text)
    except ValueError:
        raise argparse.ArgumentTypeError(f"{text!r} names no column and table: TABLE.COLUMN=TABLE is wanted, as payment.from=account, where the "
                                         "column from of payment has ids of account") from None


def reader_options(name: str, about: str) -> argparse.ArgumentParser:
    parser = argparse.ArgumentParser(prog=f"weltiyo {name}", description=about, epilog=KEEPS)
    add_server(parser)
    parser.add_argument("--table", help="loads all rows into this table; else into the one that each names, or the first")
    parser.add_argument("--keep-going", action="store_true", help="leaves refused rows out and tells them, in place of stopping")
    parser.add_argument("--renumber", action="store_true", help="loads rows that get other ids than they have in the file")
    parser.add_argument("--references", type=reference, action="append", default=[], metavar="TABLE.COLUMN=TABLE",
                        help="the same, and lets a column that holds ids of a table follow, as payment.from=account; may stand more than once")
    parser.add_argument("--resume", action="store_true", help="goes on behind the rows of the file that the tables have; those left out among them stay out")
    parser.add_argument("--dump", metavar="FILE", dest="then", help="dumps the tables to this file behind it")
    parser.add_argument("--force", action="store_true", help="lets --dump empty a file that has rows, where there is none to write")
    return parser


def ran(name: str, options: argparse.Namespace, work: Callable[[Database, argparse.Namespace], int]) -> int:
    """Does the work of a tool, and answers its status."""
    try:
        with opened(options) as db:
            with db.session() if getattr(options, "hold", False) else contextlib.nullcontext():
                return work(db, options)
    except BrokenPipeError:
        raise  # (nobody reads what is written)
    except (Refused, Ended, OSError, ValueError, TooManyEqual, Stopped) as error:
        print(f"weltiyo {name}: {why(error, options)}{gone_on_with(options)}", file=sys.stderr)
        return status_of(error)
    except KeyboardInterrupt:
        print(f"weltiyo {name}: interrupted{gone_on_with(options) or ('; --resume goes on' if name in ('load', 'import') else '')}", file=sys.stderr)
        return 130


def gone_on_with(options: argparse.Namespace) -> str:
    """What is said of a dump that breaks off behind its first row."""
    part = getattr(options, "part", None)
    return f"; {part} has the rows that came by then, and --resume goes on behind them" if part else ""


def written(db: Database, options: argparse.Namespace) -> int:
    rows = options.write(db, options)
    print(f"{rows} rows written", file=sys.stderr)
    return 0


def read(db: Database, options: argparse.Namespace) -> int:
    done = load(db, options)
    for it in done.refused:
        print(it, file=sys.stderr)
    print(f"{done.rows} rows loaded" + (f", {len(done.refused)} refused" if done.refused else ""), file=sys.stderr)
    if done.other_ids:
        print(f"{done.other_ids} of them have other ids than they had", file=sys.stderr)
    if options.then:
        dump(db, argparse.Namespace(file=options.then, table=None, order="id", resume=False, force=options.force), is_gone_on_with=False)
    return 1 if done.refused else 0


def exactly(name: str, parser: argparse.ArgumentParser, options: argparse.Namespace, work: Callable[[], Sequence[str]]) -> int:
    """Does the work of --ids, which asks no server, tells what it says, and answers its status."""
    given = [it for it in vars(options) if getattr(options, it) != parser.get_default(it)]
    others = sorted({*given} - {"ids", "journal", "schema", "file", "wants_rows"})
    if options.journal is None or others:
        parser.error(f"--ids goes with --journal, --schema and a file, and asks no server{'; without it ' + ', '.join(others) if others else ''}")
    try:
        for it in work():
            print(it, file=sys.stderr)
        return 0
    except BrokenPipeError:
        raise  # (nobody reads what is written)
    except (OSError, ValueError) as error:
        print(f"weltiyo {name}: {error}", file=sys.stderr)
        return status_of(error)


def exact_load(options: argparse.Namespace) -> List[str]:
    rows, passed_over = exact.load(options.file, options.schema, options.journal)
    said = [f"the schema has no index {it}, whose order is left out" for it in passed_over]
    return [*said, f"{rows} rows are in {base_path(options.journal)}; start mi_service with --journal {options.journal}"]


def main_dump(words: Optional[List[str]] = None) -> int:
    parser = writer_options("dump", "Writes the rows of all tables as JSON lines.")
    parser.add_argument("--ids", action="store_true", help="all that the base of --journal has: ids, orders and counters too; asks no server")
    parser.add_argument("--resume", action="store_true",
                        help="goes on behind the last whole line of FILE.part, which a dump that broke off has left, else of the file")
    parser.add_argument("file", nargs="?", default="-", help="- is the standard output (as without)")
    options = source_words(parser, words)
    if options.ids:
        return exactly("dump", parser, options, lambda: [f"{exact.dump(options.journal, options.schema, options.file)} rows written"])
    if options.resume and options.order != "id":
        parser.error("--resume goes on by ids, so it can't go with --order")
    return ran("dump", argparse.Namespace(**vars(options), write=dump), written)


def main_export(words: Optional[List[str]] = None) -> int:
    parser = writer_options("export", "Writes the rows of one table as CSV or JSON lines.")
    parser.add_argument("--format", choices=["csv", "jsonl"], help="where the file's name doesn't end in .csv or .jsonl")
    parser.add_argument("file", nargs="?", default="-", help="- is the standard output (as without)")
    return ran("export", argparse.Namespace(**vars(source_words(parser, words)), write=export), written)


def main_load(words: Optional[List[str]] = None) -> int:
    parser = reader_options("load", "Inserts the rows that dump has written.")
    parser.add_argument("--ids", action="store_true", help="makes a new --journal, with its base, of what dump --ids has written; asks no server")
    parser.add_argument("--journal", metavar="FILE", help="goes with --ids: no file of this name, and none of a journal's, is there yet")
    parser.add_argument("file", nargs="?", default="-", help="- is the standard input (as without)")
    options = parser.parse_args(words)
    if options.ids or options.journal is not None:
        return exactly("load", parser, options, lambda: exact_load(options))
    return ran("load", argparse.Namespace(**vars(options), format="jsonl"), read)


def main_import(words: Optional[List[str]] = None) -> int:
    parser = reader_options("import", "Inserts the rows of a CSV file with a line of names, or of JSON lines.")
    parser.add_argument("--format", choices=["csv", "jsonl"], help="where the file's name doesn't end in .csv or .jsonl")
    parser.add_argument("file", nargs="?", default="-", help="- is the standard input (as without)")
    return ran("import", parser.parse_args(words), read)
