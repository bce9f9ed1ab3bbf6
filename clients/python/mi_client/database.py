"""One connection of the table server. It sends a line, waits for its reply, and keeps no other state; threads may share it,
since one asks at a time. Processes may not: after a fork the connection stays with the parent."""
from __future__ import annotations

import contextlib
import os
import subprocess
import threading
import time
import warnings
import weakref
from typing import Any, Iterable, Iterator, List, Optional, Sequence, Type, TypeVar, Union

from mi_client.channel import Channel
from mi_client.dialect import ASKS_SCHEMA, Dialect
from mi_client.errors import Ended
from mi_client.listening import NOBODY, Where, nobody, stream_to
from mi_client.old_forms import Openness
from mi_client.pipeline import WINDOW, LinesAhead, Pipeline
from mi_client.request import Request
from mi_client.schema import Schema
from mi_client.walks import Walks

T = TypeVar("T")
NO_PLACE = b'{"error":"places"'
"""How the reply begins by which a service ends a connection that has no place: it stands beside those that it serves."""
AnySchema = Union[None, str, "os.PathLike[str]", Schema]
"""A schema's file, or a schema that was read."""


class Database(Walks):
    """A connection. Close it, or use it in a `with`: what it holds is then undone by the server."""

    def __init__(
        self,
        channel: Channel,
        closing: Sequence[Any],
        program: Optional[subprocess.Popen[bytes]] = None,
        schema: Optional[Schema] = None,
    ) -> None:
        """Use `connect` or `start`. `closing` are the streams of the connection, the one that is written first."""
        self._channel, self._closing, self._program = channel, list(closing), program
        self._dialect = Dialect(schema)
        self._lock = threading.RLock()
        self._unbroken = _Unbroken(self)
        self._ahead: List[Union[Pipeline, LinesAhead]] = []
        self._blocks: List[object] = []
        self._closed_for = ""
        _opened.add(self)

    @classmethod
    def connect(
        cls, port: Where, timeout: Optional[float] = None, schema: AnySchema = None, wait: float = 0.0, host: str = "127.0.0.1"
    ) -> Database:
        """A connection to a server that listens on this port of 127.0.0.1, or does so within `wait` seconds; else OSError is
        raised. A text with a `/` in it is the path of a Unix socket, which a service listens at by --unix. The server answers once all its
        clients have come. A reply that takes longer than `timeout` seconds ends the connection. With the `schema` that the server was
        started with, refusals say which column is at fault, and keys can be given by columns; `learn_schema` asks a service for it.
        Another `host` has members of a ledger alone: servers listen on 127.0.0.1."""
        read = Schema.of(schema)
        end = time.monotonic() + wait
        while True:
            try:
                stream = stream_to(host, port, timeout)
                break
            except NOBODY:
                if time.monotonic() >= end:
                    raise nobody(host, port) from None
                time.sleep(0.02)
        return cls(Channel.of_socket(stream, timeout), [stream], None, read)

    @classmethod
    def start(cls, program: Union[str, os.PathLike[str]], schema: Union[None, str, os.PathLike[str]] = None) -> Database:
        """A server of its own, asked over its standard input. Its tables are gone when the connection is closed. Raises
        OSError where there is no such program, and Ended with its words where it ends at once, as with a faulty schema."""
        words = [os.fspath(program)] + (["--schema", os.fspath(schema)] if schema is not None else [])
        pipes = {"stdin": subprocess.PIPE, "stdout": subprocess.PIPE, "stderr": subprocess.PIPE}
        # (an interrupt at the terminal is for the client, and not for its server)
        ran = subprocess.Popen(words, bufsize=0, start_new_session=True, **pipes)  # type: ignore[call-overload]
        db = cls(Channel.of_pipes(ran.stdout.fileno(), ran.stdin.fileno()), [ran.stdin, ran.stdout, ran.stderr], ran)
        try:
            db.revision()
            db._dialect.schema = schema_of(schema)
        except BaseException:
            db.close()
            raise
        return db

    @property
    def schema(self) -> Optional[Schema]:
        """The tables, where they are known."""
        return self._dialect.schema

    @property
    def process(self) -> Optional[int]:
        """The number of the server's process, where it is this connection's own."""
        return self._program.pid if self._program else None

    def learn_schema(self) -> Optional[Schema]:
        """Asks the server for its schema, which a service tells, and goes by it from here on. Answers the schema that is known then; None
        where the server tells none that can be read, and none was known before. Raises Ended."""
        return self._dialect.learn(self._exchange(ASKS_SCHEMA))

    def __enter__(self) -> Database:
        return self

    def __exit__(self, *_: object) -> None:
        self.close()

    def answer_within(self, timeout: Optional[float]) -> None:
        """From here on a reply that takes longer than so many seconds ends the connection; None waits."""
        with self._lock:
            self._channel.wait_for(timeout)

    @property
    def is_open(self) -> Openness:
        """Whether commands can be asked: the connection wasn't closed and hasn't broken off, as far as is known."""
        return Openness(not self._closed_for)

    def close(self) -> None:
        """Ends the connection, once no other thread asks on it. The server undoes the sessions that it holds. Closing twice is
        fine."""
        with self._lock:
            self._closed_for = self._closed_for or "the connection is closed"
            for it in self._closing[:2]:
                with contextlib.suppress(OSError):
                    it.close()
            if self._program:
                self._program.wait()
            for it in self._closing:
                it.close()

    # Lines

    def alone(self) -> contextlib.AbstractContextManager[Any]:
        """A block in which no other thread asks on this connection."""
        return self._lock

    def send(self, request: Request[T]) -> T:
        """The answer to a request. Raises Refused and Ended."""
        return self._dialect.read(request, self._exchange(self._dialect.line(request)))

    def _answer_of_block(self, request: Request[T]) -> T:
        return self._dialect.read(request, self._exchange(request.line()))

    def _replies_to(self, lines: List[bytes]) -> List[bytes]:
        with self._lock, self._sending(LinesAhead(self._step, self._flush, WINDOW)) as made:
            return list(made.replies(lines))

    def ask_line(self, line: str) -> str:
        """The reply to one line, both without their newlines. The line has a command: an empty one would have no reply."""
        return self._exchange(self._dialect.made_elsewhere(line)).decode()

    def ask_lines(self, lines: Iterable[Union[str, bytes]], window: int = WINDOW) -> Iterator[str]:
        """The replies to many lines, which are sent ahead: at most `window` of them are awaited at a time. Other threads that
        share the connection wait until all have been answered, or the iterator is closed."""
        with self._lock, self._sending(LinesAhead(self._step, self._flush, window)) as made:
            for reply in made.replies(map(self._dialect.made_elsewhere, lines)):
                yield reply.decode()

    def pass_turn(self) -> None:
        """Sends an empty line, which has no reply. The server reads from its connections by turns and waits for each, so one
        that has nothing to ask lets the others go on by this."""
        with self._lock:
            self._flush()
            with self._unbroken:
                self._channel.write_all(b"\n")

    def pipeline(self, window: int = WINDOW) -> contextlib.AbstractContextManager[Pipeline]:
        """A block of calls that are sent ahead, each of which gives an `Answer`; at most `window` of them are awaited at a
        time. At its end all are answered, and the first refusal that nobody has looked at is raised; where the block raises,
        what was called is sent and answered too, and the exception goes on. Other threads wait until the block has ended."""
        return _Sending(self, Pipeline(self._dialect, self._step, self._flush, window))

    @contextlib.contextmanager
    def _sending(self, made: LinesAhead) -> Iterator[LinesAhead]:
        """A block in which this is among those that send ahead. One of them at a time has lines that aren't answered."""
        self._ahead.append(made)
        try:
            yield made
        except BaseException as error:
            self._settle(made, error)
            raise
        finally:
            self._ahead.remove(made)

    def _settle(self, made: Union[Pipeline, LinesAhead], error: Optional[BaseException]) -> None:
        """At the end of a block all that was sent ahead in it is answered; behind an interruption the connection ends instead."""
        if error is None or (isinstance(error, (Exception, GeneratorExit)) and self.is_open):
            try:
                made.flush()
            except Exception:
                raise  # (what breaks off has ended the connection)
            except BaseException as interruption:
                self._break_off(f"calls sent ahead were interrupted by {type(interruption).__name__}")
                raise
        else:
            self._break_off(f"calls sent ahead were interrupted by {type(error).__name__}")

    def _break_off(self, why: str) -> None:
        """Ends the connection, which says from here on why."""
        self._closed_for = self._closed_for or f"{why}: the connection is closed"
        self.close()

    def _flush(self, but: Any = None) -> None:
        """Waits until all that was sent ahead is answered, but by this one."""
        for it in self._ahead:
            if it is not but:
                it.flush()

    def _exchange(self, line: bytes) -> bytes:
        with self._lock:
            self._flush()
            return self._exchange_alone(line)

    def _exchange_alone(self, line: bytes) -> bytes:
        """Where nothing else is on its way, and no other thread asks."""
        with self._unbroken:
            reply = self._channel.exchange(line)
            if reply.startswith(NO_PLACE):
                raise ConnectionError("all its places are taken: the service ends this connection")
            return reply

    def _step(self, made: Union[Pipeline, LinesAhead], wait: bool) -> None:
        """Writes what is handed and reads, and gives the lines that have come."""
        with self._lock, self._unbroken:
            data = made.handed()
            if wait and data and made.awaited == 1:
                made.come([self._channel.exchange(data)])  # (which costs less, for one line)
            elif made.awaited:
                self._channel.queue(data)
                self._channel.step(wait)
                made.come(self._channel.taken())

    def _why(self, error: Exception) -> str:
        """Ends the connection, and says what a server of its own wrote to standard error."""
        self._closed_for = str(error) or "the connection broke off"
        if self._program and isinstance(error, TimeoutError):
            self._program.kill()  # (one that stands still wouldn't end by itself, and its tables go with the connection)
        elif self._program:
            with contextlib.suppress(OSError):
                self._closing[0].close()
            said = self._closing[2].read().decode(errors="replace").strip()
            self._program.wait()
            self._closed_for = f"the server ended with status {self._program.returncode}{': ' if said else ''}{said}"
        self.close()
        return self._closed_for

    def _leave_to_parent(self) -> None:
        """In a child after a fork: the descriptors are closed here, so that the server sees the end of the parent alone."""
        self._closed_for = "the connection stayed with the process that opened it; open one in each process"
        self._of_parent, self._program, self._ahead, self._blocks = self._program, None, [], []
        self._lock = threading.RLock()  # (another thread of the parent may have held it)
        for it in self._closing:
            it.close()

    def __reduce__(self) -> Any:
        raise TypeError("a connection can't be sent to another process; open one in each")


class _Sending:
    """The block of a pipeline. (A class, since a generator's block would cost a batch of one line as much as its exchange.)"""

    __slots__ = ("_db", "_made")

    def __init__(self, db: Database, made: Pipeline) -> None:
        self._db, self._made = db, made

    def __enter__(self) -> Pipeline:
        self._db._lock.__enter__()
        self._db._ahead.append(self._made)
        return self._made

    def __exit__(self, kind: Optional[Type[BaseException]], error: Optional[BaseException], _: Any) -> None:
        try:
            try:
                self._db._settle(self._made, error)
            finally:
                self._db._ahead.remove(self._made)
            if error is None:
                self._made.end()
        finally:
            self._db._lock.__exit__(None, None, None)


class _Unbroken:
    """A block that exchanges bytes. Where it breaks off the connection is ended, since the reply to what was sent would be taken
    for that of the next. Raises Ended; and RuntimeError where this thread is in such a block of the connection already, as a
    signal handler or a finalizer is that came in between: it would take the other's reply."""

    __slots__ = ("_db", "_channel")

    def __init__(self, db: Database) -> None:
        self._db, self._channel = weakref.proxy(db), db._channel

    def __enter__(self) -> None:
        if self._db._closed_for:
            raise Ended(self._db._closed_for)
        if self._channel.is_busy:
            raise RuntimeError("the connection is in the middle of a call: a signal handler or a finalizer can't make another one there")
        self._channel.is_busy = True

    def __exit__(self, kind: Optional[Type[BaseException]], error: Optional[BaseException], _: Any) -> None:
        self._channel.is_busy = False
        if isinstance(error, (OSError, EOFError)) and not isinstance(error, Ended):
            # (a signal handler may have closed it meanwhile)
            raise Ended(self._db._closed_for or self._db._why(error)) from error
        if error is not None:
            self._db._break_off(f"a call was interrupted by {type(error).__name__}")


def schema_of(path: Union[None, str, os.PathLike[str]]) -> Optional[Schema]:
    """The schema that a server was started with; None where it can't be read twice, as from a pipe."""
    if path is None:
        return Schema.built_in()
    try:
        return Schema.read(path) if os.path.isfile(path) else None
    except (OSError, ValueError) as error:
        warnings.warn(f"the server takes this schema, and the client can't read it: {error}", stacklevel=3)
        return None


_opened: weakref.WeakSet[Database] = weakref.WeakSet()


def _leave_all_to_parent() -> None:
    for it in list(_opened):
        it._leave_to_parent()


os.register_at_fork(after_in_child=_leave_all_to_parent)
