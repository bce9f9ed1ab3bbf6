"""A database in this process, by the library of `docs/EMBEDDING.md`: the calls of a connection, with no server, pipe or socket.

    from mi_client import Embedded

    with Embedded.open("shop.toml") as db:
        db.size()

It stays on the thread that opened it, and its tables are gone once its last connection is closed."""
from __future__ import annotations

import collections
import ctypes
import itertools
import os
import secrets
import threading
import warnings
from typing import Any, Callable, Deque, Dict, Iterator, List, Optional, Set, Tuple, Union

from mi_client import calls, embedded_cursors, embedded_values
from mi_client.channel import Channel
from mi_client.database import Database
from mi_client.embedded_cursors import Cursors
from mi_client.embedded_values import ABSENT, Values
from mi_client.errors import Ended
from mi_client.request import LONGEST_LINE, Key, Request, Row
from mi_client.schema import Schema

Path = Union[str, "os.PathLike[str]"]

WORDS = ("ok", "memory", "file", "toml", "shape", "name", "twice", "type", "kind", "key", "limit", "number")
"""Why a schema opens nothing, by the number that the library answers."""

MEMORY = 1

CLOSED = "the connection is closed"

USUAL = 4096
"""The bytes of a reply that are fetched with it."""

LONGEST_SCHEMA = 65_536
"""The bytes that a schema may have; no more than one byte beyond is read of a file."""


def library(path: Optional[Path] = None) -> Any:
    """The library's calls: of this file, else of the one that WELTIYO_LIBRARY names, else of what the system's loader finds.
    Raises OSError where there is none."""
    found = ctypes.CDLL(os.fspath(path or os.environ.get("WELTIYO_LIBRARY") or "libweltiyo.so.0"))
    handle, number, text, size = ctypes.c_void_p, ctypes.c_uint64, ctypes.c_char_p, ctypes.c_size_t
    found.weltiyo_open.argtypes = (text, size, number, ctypes.POINTER(handle))
    found.weltiyo_open.restype = ctypes.c_uint32
    found.weltiyo_ask.argtypes = (handle, number, text, size, handle, size)
    found.weltiyo_ask.restype = size
    found.weltiyo_reply.argtypes = (handle, size, handle, size)
    found.weltiyo_reply.restype = size
    found.weltiyo_release.argtypes = (handle, number)
    found.weltiyo_release.restype = None
    found.weltiyo_close.argtypes = (handle,)
    found.weltiyo_close.restype = None
    found.weltiyo_schema.argtypes = (handle, handle, size)
    found.weltiyo_schema.restype = embedded_values.Told
    embedded_values.prepare(found)
    embedded_cursors.prepare(found)
    return found


class Embedded(Cursors):
    """A connection to a database of this process. Close it, or use it in a `with`: what it holds is then undone. A reply is there
    once the library's call has returned, so `answer_within` does nothing."""

    def __init__(self, lines: _Lines, schema: Optional[Schema]) -> None:
        """Use `open` or `another`."""
        super().__init__(lines, [lines], None, schema)
        self._lines = lines
        self._lock = lines.home  # type: ignore[assignment]
        self._values = Values(schema, lines.number) if schema and lines.number else None

    @classmethod
    def open(cls, schema: Optional[Path] = None, library_file: Optional[Path] = None) -> Embedded:
        """Opens the tables of a schema's file, or the built-in table. Raises OSError where the library isn't there, Ended with the word
        that the program says of such a schema, and MemoryError."""
        text = _text_of(schema)
        engine = _Engine(library(library_file), text)
        return cls(_Lines(engine), Schema.built_in() if schema is None else _schema_in(text))

    @classmethod
    def start(cls, *_: Any, **__: Any) -> Database:
        """There is no server to start. Raises TypeError."""
        raise TypeError("a database in the process is opened by `open`")

    @classmethod
    def connect(cls, *_: Any, **__: Any) -> Database:
        """There is no server to connect to. Raises TypeError."""
        raise TypeError("another connection to a database in the process is made by `another`")

    def another(self) -> Embedded:
        """Another connection to the same database: it is kept out while this one holds sessions. Raises Ended where this one is
        closed."""
        with self._lock:
            if self._closed_for:
                raise Ended(self._closed_for)
            return type(self)(_Lines(self._lines.engine), self.schema)

    def schema_text(self) -> str:
        """The text of the schema: the one that was opened, and of the built-in table one that describes it. Raises Ended where this
        connection is closed."""
        with self._lock:
            if self._closed_for:
                raise Ended(self._closed_for)
            return self._lines.engine.schema_text().decode()

    # Calls with values: each answers what its line does. (Those of `Calls` are made of functions, whose parameters mypy takes for nameless.)

    def get(self, id: int, table: Optional[str] = None) -> Row:  # type: ignore[override]
        found = self._by_values(Values.get, table, id)
        if type(found) is dict:
            return found
        return self._absent(calls.get(id, table)) if found else super().get(id, table)

    def find(self, index: str, key: Key, table: Optional[str] = None) -> Row:  # type: ignore[override]
        values = key
        if type(key) is not list and type(key) is not tuple:
            members = calls.find(index, key, table).members
            values = self._dialect.key(members, members["key"])
        found = self._by_values(Values.find, table, index, values) if isinstance(values, (list, tuple)) else None
        if type(found) is dict:
            return found
        return self._absent(calls.find(index, key, table)) if found else super().find(index, key, table)

    def insert(  # type: ignore[override]
        self, row: Row, table: Optional[str] = None, before: Optional[Tuple[str, int]] = None
    ) -> int:
        id: Optional[int] = self._by_values(Values.insert, table, row) if before is None else None
        return super().insert(row, table, before) if id is None else id

    def modify(  # type: ignore[override]
        self, id: int, set: Optional[Row] = None, add: Optional[Dict[str, int]] = None, rollback: bool = True, table: Optional[str] = None
    ) -> None:
        # (where it isn't put back a refusal changes something, and a line is asked alone)
        if rollback is not True or not self._by_values(Values.modify, table, id, set, add):
            super().modify(id, set, add, rollback, table)

    def _absent(self, request: Request[Row]) -> Row:
        """Raises what the line of this look-up does where there is no such record."""
        self._dialect.line(request)  # (which puts the values of its key in order)
        raise self._dialect.refusal(request.members, {"error": "id", "ok": False})

    def _by_values(self, call: Callable[..., Any], table: Optional[str], *given: Any) -> Any:
        """What a call with values answers, or None where a line is to be asked: nothing has changed then."""
        engine, values = self._lines.engine, self._values
        rows = values.rows(table) if values else None
        if values is None or rows is None or self._ahead or engine.is_busy or not engine.home.thread.is_home:
            return None
        engine.is_busy = True
        try:
            # (where a signal handler has closed the connection by now a line says so; one that does so behind this is settled at the end)
            answer = None if self._closed_for or engine._gone else call(values, engine._calls, engine._handle, rows, *given)
        except BaseException as error:
            self._unbroken.__exit__(type(error), error, error.__traceback__)
            raise
        engine.is_busy = False
        if engine._gone:
            engine.settle()
        return answer

    def pass_turn(self) -> None:
        """Nothing waits for a turn here."""
        with self._lock:
            self._flush()
            with self._unbroken:  # (which says where it is closed)
                pass


class _OfThread(threading.local):
    """What is known of the thread that asks for it: whether it is the one that opened a handle, surely. (A thread that C made may be it all the
    same.)"""

    is_home = False


class _OneThread:
    """In the place of a lock: a handle stays on its thread, so others are turned away."""

    __slots__ = ("_thread", "_number", "thread")

    def __init__(self) -> None:
        self.thread = _OfThread()
        self.thread.is_home = True
        # (not Python's number of it, which another one gets once it has ended; and the system's besides, since threads that C made are one
        # object to Python where they have the same number of it)
        self._thread, self._number = threading.current_thread(), threading.get_native_id()

    def is_here(self) -> bool:
        return threading.current_thread() is self._thread and threading.get_native_id() == self._number

    def __enter__(self) -> None:
        if not self.is_here():
            raise RuntimeError("a database in the process stays on the thread that opened it")

    def __exit__(self, *_: object) -> None:
        pass


class _Engine:
    """A handle, and the connections over it: the last one that goes closes it."""

    def __init__(self, calls: Any, text: bytes) -> None:
        self.home = _OneThread()
        self._calls, self._handle, self._process = calls, ctypes.c_void_p(), os.getpid()
        self._room = ctypes.create_string_buffer(USUAL)
        self._numbers: Iterator[int] = itertools.count(1)
        self._open: Set[int] = set()
        self._gone: List[int] = []
        self.is_busy = False
        status = calls.weltiyo_open(text, len(text), secrets.randbits(64), ctypes.byref(self._handle))
        if status == MEMORY:
            raise MemoryError("the schema's tables")
        if status:
            raise Ended(f"schema: {WORDS[status]}")

    def attach(self) -> int:
        """The number of another connection."""
        number = next(self._numbers)
        self._open.add(number)
        return number

    def ask(self, number: int, line: bytes) -> bytes:
        """The reply to a line, both without their newline. Raises Ended where a signal handler has closed the connection meanwhile."""
        if self._gone:
            self._release(but=number)
            if number in self._gone:
                raise Ended(CLOSED)
        length = self._calls.weltiyo_ask(self._handle, number, line, len(line), self._room, USUAL)
        front = ctypes.string_at(self._room, min(length, USUAL))
        if length <= USUAL:
            return front
        rest = ctypes.create_string_buffer(length - USUAL)
        self._calls.weltiyo_reply(self._handle, USUAL, rest, len(rest))
        return front + rest.raw

    def schema_text(self) -> bytes:
        """The text of the schema."""
        room = ctypes.create_string_buffer(LONGEST_SCHEMA)
        told = self._calls.weltiyo_schema(self._handle, room, len(room))
        return room.raw[:told.number]

    def forget(self, number: int) -> None:
        """A connection is gone, on whatever thread and in the middle of whatever call: it is released ahead of the next one."""
        self._gone.append(number)

    def detach(self, number: int) -> None:
        """A connection goes away: at once, or where a call is under way, behind it."""
        self._gone.append(number)
        self.settle()

    def settle(self) -> None:
        """Releases the connections that are gone, unless something is under way, behind which it is done."""
        while self._gone and not self.is_busy:
            self.is_busy = True
            try:
                self._release()
            finally:
                self.is_busy = False

    def _release(self, but: int = 0) -> None:
        """Passes over the connection that is asked, so that the handle stays. In the child of a fork nothing is done: it is the parent's."""
        for number in [it for it in self._gone if it != but]:
            if self._handle and self._process == os.getpid():
                self._calls.weltiyo_release(self._handle, number)
            self._open.discard(number)
            self._gone.remove(number)
        if not self._open and self._process == os.getpid():
            self._close()

    def _close(self) -> None:
        handle, self._handle = self._handle, ctypes.c_void_p()
        if handle:
            self._calls.weltiyo_close(handle)

    def __del__(self) -> None:
        if not self._handle or self._process != os.getpid():
            return
        if self.home.is_here():
            self._close()
        else:
            what = "a database in the process is never freed: its last reference went on another thread than the one that opened it"
            warnings.warn(what, ResourceWarning, source=self)


class _Lines(Channel):
    """Lines to a handle, each answered at once, in the place of bytes to a server."""

    def __init__(self, engine: _Engine) -> None:
        self.engine, self.home = engine, engine.home
        self.number: Optional[int] = engine.attach()
        self._come: Deque[bytes] = collections.deque()

    @property
    def is_busy(self) -> bool:
        """Whether a call is under way, of this connection or of another one to the same tables."""
        return self.engine.is_busy

    @is_busy.setter
    def is_busy(self, is_busy: bool) -> None:
        self.engine.is_busy = is_busy
        if not is_busy:
            self.engine.settle()

    def queued(self) -> int:
        return 0

    def queue(self, data: bytes) -> None:
        for line in data.split(b"\n")[:-1]:
            reply = self._asked(line)
            if reply is not None:
                self._come.append(reply)

    def exchange(self, line: bytes) -> bytes:
        reply = self._asked(line[:-1])
        assert reply is not None
        return reply

    def write_all(self, data: bytes) -> None:
        self.queue(data)

    def taken(self) -> List[bytes]:
        lines = list(self._come)
        self._come.clear()
        return lines

    def step(self, wait: bool = True) -> None:
        pass

    def _asked(self, line: bytes) -> Optional[bytes]:
        """The reply to a line as the program reads it: without one carriage return at its end, and none to an empty one."""
        if len(line) <= LONGEST_LINE and line.endswith(b"\r"):
            line = line[:-1]
        if not line:
            return None
        number = self.number
        if number is None:
            raise Ended(CLOSED)
        return self.engine.ask(number, line)

    def close(self) -> None:
        number, self.number = self.number, None
        if number is not None:
            self.engine.detach(number)

    def __del__(self) -> None:
        if self.number is not None:
            self.engine.forget(self.number)


def _text_of(schema: Optional[Path]) -> bytes:
    """The text of a schema's file, or none for the built-in table. Raises Ended as the program would where it can't be read."""
    if schema is None:
        return b""
    try:
        with open(schema, "rb") as file:
            # (an empty file is no schema, and no text at all would stand for the built-in one)
            return file.read(LONGEST_SCHEMA + 1) or b"\n"
    except OSError as error:
        raise Ended("schema: file") from error


def _schema_in(text: bytes) -> Optional[Schema]:
    """The tables of a text that the library takes; None where the client can't read it."""
    try:
        return Schema.of_text(text.decode())
    except ValueError as error:
        warnings.warn(f"the library takes this schema, and the client can't read it: {error}", stacklevel=3)
        return None
