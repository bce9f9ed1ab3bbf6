"""The options by which the tools say which server they ask, and the connection that these mean."""
from __future__ import annotations

import argparse
import contextlib
import os
import shutil
from typing import Callable, List, Optional, Sequence

from mi_client import Database, Ended, Schema
from mi_client.database import AnySchema
from mi_client.listening import Where, path_of
from mi_tools.fitting import misfit
from mi_tools.journal_copies import NoService, is_service, no_service, on_a_copy
from mi_tools.journal_names import base_path, numbers_of, segment_path
from mi_tools.journals import Lines, OtherSchema, check_schema, has_base, replay
from mi_tools.whole_files import part_of

NO_SOURCE = """a server that starts here is empty, so there is nothing to read: name the one that runs by --connect PORT, a service's journal by \
--journal FILE, or a program that has rows of its own by --program FILE"""
SERVICE = "mi_service"
NO_COLUMNS = "the columns come from the schema: name it by --schema, or connect to a service, which tells it"
"""What a tool says that needs columns, where a server tells no schema."""


class NoRows(ValueError):
    """The tables are empty where a tool reads them."""


class NoProgram(OSError):
    """The program that is to be started isn't there."""


def program_of(options: argparse.Namespace) -> str:
    """The server to start, where none is connected to."""
    return options.program or os.environ.get("MI_SERVER") or "mi_server"


def service_beside(program: str, journal: str) -> str:
    """The service to start, where none is named: MI_SERVICE's, else the one beside a server, else the one on the PATH. Raises NoProgram and NoService."""
    named, server = os.environ.get("MI_SERVICE"), shutil.which(program)
    if named and not is_service(named):
        raise no_service(journal, named, "the variable MI_SERVICE")
    beside = os.path.join(os.path.dirname(server), SERVICE) if server else ""
    found = named or shutil.which(beside) or shutil.which(SERVICE)
    if not found:
        raise NoProgram(f"{journal}: it has a base, which {SERVICE} alone reads, and there is none beside {program}: name it by --program FILE or "
                        "the variable MI_SERVICE")
    return found


def seconds(text: str) -> float:
    """A number of seconds. Raises ValueError."""
    found = float(text)
    if not 0 <= found < 1e6:
        raise ValueError("seconds are from 0 to a million")
    return found


def where(text: str) -> Where:
    """A port's number, or the path of a socket. Raises ArgumentTypeError."""
    if path_of(text) is not None:
        return text
    if not text.isdecimal() or not 0 <= int(text) <= 65535:
        raise argparse.ArgumentTypeError(f"{text!r} is no port: a number from 0 to 65535 is wanted, or a path with a / in it")
    return int(text)


def called(at: Where) -> str:
    """How a port or a path is called in a sentence."""
    return path_of(at) or f"port {at}"


def add_server(parser: argparse.ArgumentParser) -> None:
    parser.add_argument("--connect", type=where, metavar="PORT", help="asks the server on this port of 127.0.0.1, or at this path of a Unix socket")
    parser.add_argument("--program", metavar="FILE", help="the server to start, where --connect isn't given: else MI_SERVER's, else mi_server")
    parser.add_argument("--schema", metavar="FILE", help="the schema that this server is started with, or was, with --connect; a service tells its own")
    parser.add_argument("--timeout", type=seconds, default=5.0, metavar="SECONDS", help="how long a reply is waited for; 0 is without an end (%(default)g)")


def add_source(parser: argparse.ArgumentParser, forced: str = "") -> None:
    """The same for a tool that reads. Its words are parsed by `source_words`. `forced` is what --force does besides taking a program without
    rows."""
    add_server(parser)
    parser.add_argument("--journal", metavar="FILE", help="reads a service's journal: the server to start is asked its lines. Of one with a base "
                        "mi_service is started on a copy: --program's, else MI_SERVICE's, else the one beside the server")
    parser.add_argument("--force", action="store_true", help=f"takes a --program without rows{forced}")


def source_words(
    parser: argparse.ArgumentParser, words: Optional[List[str]], has_rows: Callable[[argparse.Namespace], object] = lambda _: False
) -> argparse.Namespace:
    """The options of a tool that reads. Ends with status 2 where they name no rows: a server that starts here has none, unless an option
    that the tool knows by `has_rows` gives it some."""
    options = parser.parse_args(words)
    options.wants_rows = not options.force and options.connect is None and options.journal is None and not has_rows(options)
    if options.connect is not None and options.journal is not None:
        parser.error("--connect and --journal are two sources; one is wanted")
    if options.connect is None and options.journal is None and options.program is None and not has_rows(options):
        parser.error(NO_SOURCE)
    for name, paths in (("journal", files_of(options.journal)), ("schema", [options.schema])):
        if any(is_written(path, getattr(options, it, None)) for it in ("file", "svg") for path in paths):
            parser.error(f"the {name} is read, and isn't the file to write")
    return options


def files_of(journal: Optional[str]) -> List[str]:
    """The files of a journal that are seen; none without one."""
    if journal is None:
        return []
    with contextlib.suppress(OSError):
        return [journal, base_path(journal), *(segment_path(journal, it) for it in numbers_of(journal))]
    return [journal]


def is_written(path: Optional[str], other: Optional[str]) -> bool:
    """Whether a file is written by a tool that writes the other one, as itself or as its part."""
    if path is None or other is None or not os.path.exists(path):
        return False
    return any(os.path.samefile(path, it) for it in (other, part_of(other)) if it is not None and os.path.exists(it))


def connected(options: argparse.Namespace, schema: AnySchema) -> Database:
    """A connection to the server that is named by its port, or by its path. Raises OSError."""
    return Database.connect(options.connect, options.timeout or None, schema)


def why(error: BaseException, options: argparse.Namespace) -> str:
    """What is said of an error; of a server that doesn't answer, why that may be."""
    if isinstance(error, ConnectionRefusedError) and error.strerror:
        return error.strerror  # (without its number)
    if not isinstance(error, TimeoutError) and not isinstance(error.__cause__, TimeoutError):
        return str(error)
    return (f"{called(options.connect)} gave no reply for {options.timeout:g} seconds. It may be busy, all its places may be taken, or it waits for "
            "another client. --timeout SECONDS waits longer")


def status_of(error: BaseException) -> int:
    """The status that a tool ends with behind an error: 2 where its options name what doesn't go together."""
    return 2 if isinstance(error, (NoRows, NoService, OtherSchema)) else 1


def fitting_one(db: Database) -> Database:
    """A connection whose schema, where it has one, is the server's. Raises ValueError."""
    try:
        fault = misfit(db, db.schema) if db.schema else ""
        if fault:
            raise ValueError(fault)
    except BaseException:
        db.close()
        raise
    return db


def learnt(db: Database) -> Database:
    """A connection that knows the schema of its server, where that tells it. Raises Ended."""
    try:
        db.learn_schema()
    except BaseException:
        db.close()
        raise
    return db


def no_program(program: str) -> NoProgram:
    return NoProgram(f"there is no program {program}: name the server by --program FILE or the variable MI_SERVER, "
                     "or one that listens by --connect PORT")


def started(program: str, schema: Optional[str]) -> Database:
    """A server of its own. Raises OSError, and Ended, which says where a schema's file is at fault."""
    try:
        return Database.start(program, schema)
    except FileNotFoundError:
        raise no_program(program) from None
    except Ended as error:
        where = f": {fault_in(schema)}" if schema is not None and "schema: " in str(error) else ""
        raise Ended(f"{error}{where}") from None


def fault_in(schema: str) -> str:
    """What is wrong with a schema's file that a server refuses, behind its name."""
    try:
        Schema.read(schema)
    except OSError as error:
        return f"{schema}: {error.strerror}"
    except ValueError as error:
        return str(error)
    return f"{schema}: weltiyo-lint tells the line"


def check_rows(db: Database, program: str) -> None:
    """Raises NoRows where all tables that are known are empty."""
    tables: Sequence[Optional[str]] = [it.name for it in db.schema.tables] if db.schema else [None]
    if not any(map(db.size, tables)):
        raise NoRows(f"{program} was just started, and its tables are empty: name a server that runs by --connect PORT, a service's journal by "
                     "--journal FILE, or a program that brings rows of its own; --force takes none")


def names_service(options: argparse.Namespace) -> bool:
    """Whether --program names a service. Raises OSError."""
    try:
        return options.program is not None and is_service(options.program)
    except FileNotFoundError:
        raise no_program(options.program) from None


def with_journal(options: argparse.Namespace, journal: str) -> Database:
    """A server that has the tables of a journal: one that is asked its lines, or a service on a copy, where it has a base or the program that is named is
    a service. Raises OSError and Ended; ValueError where the journal isn't one of this schema, or the program can't read it."""
    is_named = names_service(options)
    if is_named or has_base(journal):
        if options.program and not is_named:
            raise no_service(journal, options.program, "--program")
        return on_a_copy(options.program or service_beside(program_of(options), journal), journal, options.schema)
    lines = Lines(journal)
    db = started(program_of(options), options.schema)
    try:
        check_schema(journal, lines.header, db.schema, options.schema)
        replay(db, lines)
    except BaseException:
        db.close()
        raise
    return db


def opened(options: argparse.Namespace, learns: bool = True) -> Database:
    """The connection. Where no schema is named, a server that is connected to is asked for its own, if the tool `learns` it. Raises OSError and
    Ended; ValueError where the schema is none or not the server's, or the journal isn't one of this schema."""
    if options.connect is not None:
        db = connected(options, options.schema)
        return learnt(db) if learns and options.schema is None else fitting_one(db)
    journal = getattr(options, "journal", None)
    db = started(program_of(options), options.schema) if journal is None else with_journal(options, journal)
    try:
        if getattr(options, "wants_rows", False):
            check_rows(db, options.program)
    except BaseException:
        db.close()
        raise
    return db
