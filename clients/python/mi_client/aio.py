"""The client for asyncio, with the same names: every command is awaited. Tasks may share a connection: each call is sent at
once, and replies come in the order of the lines, so `asyncio.gather` of many calls is sending ahead. A task of its own reads
the replies, so that neither side can stand still for the other."""
from __future__ import annotations

import asyncio
import collections
import contextlib
import contextvars
import os
from typing import Any, AsyncIterator, Callable, Deque, Iterable, List, Optional, Tuple, TypeVar, Union

from mi_client import calls
from mi_client.aio_opening import opened
from mi_client.aio_walks import AwaitedWalks
from mi_client.atomic import Together
from mi_client.calls import Commands
from mi_client.database import AnySchema, schema_of
from mi_client.dialect import ASKS_SCHEMA, Dialect
from mi_client.errors import Ended, Refused
from mi_client.listening import Where, acknowledging
from mi_client.old_forms import Openness
from mi_client.pipeline import WINDOW
from mi_client.places import Places
from mi_client.request import Request
from mi_client.schema import Schema

T = TypeVar("T")

CHUNK = 1 << 18
_within: contextvars.ContextVar[Tuple[object, ...]] = contextvars.ContextVar("within", default=())
"""The blocks of sessions that a task is in, of all connections."""


class AsyncDatabase(AwaitedWalks, Commands):
    """A connection. Close it, or use it in an `async with`: what it holds is then undone by the server."""

    def __init__(
        self,
        reader: asyncio.StreamReader,
        writer: asyncio.StreamWriter,
        process: Optional[asyncio.subprocess.Process] = None,
        schema: Optional[Schema] = None,
        places: Optional[Places] = None,
    ) -> None:
        """Use `connect` or `start`."""
        self._reader, self._writer, self._process = reader, writer, process
        self._dialect = Dialect(schema)
        self._window = places or Places(WINDOW)
        self._awaited: Deque[asyncio.Future[bytes]] = collections.deque()
        self._blocks: List[object] = []  # (of the open sessions, the innermost last)
        self._ended = asyncio.Event()  # (a moment, at which those who wait for a block look again)
        self._closed_for = ""
        self._timeout: Optional[float] = None
        self._clock: Optional[asyncio.Handle] = None
        self._acknowledge = acknowledging(None if process else writer.get_extra_info("socket"))
        self._reading = asyncio.ensure_future(self._read())

    @classmethod
    async def connect(
        cls, port: Where, schema: AnySchema = None, wait: float = 0.0, window: int = WINDOW, timeout: Optional[float] = None, host: str = "127.0.0.1"
    ) -> AsyncDatabase:
        """A connection to a server that listens on this port of 127.0.0.1, or does so within `wait` seconds; else OSError is
        raised. A text with a `/` in it is the path of a Unix socket. At most `window` replies are awaited at a time. A reply that takes
        longer than `timeout` seconds ends the connection. Another `host` has members of a ledger alone."""
        read, places = Schema.of(schema), Places(window)
        made = cls(*await opened(host, port, wait, timeout), None, read, places)
        made.answer_within(timeout)
        return made

    @classmethod
    async def start(
        cls, program: Union[str, os.PathLike[str]], schema: Union[None, str, os.PathLike[str]] = None, window: int = WINDOW
    ) -> AsyncDatabase:
        """A server of its own. Raises OSError where there is no such program, and Ended with its words where it ends at once."""
        places = Places(window)
        words = [os.fspath(program)] + (["--schema", os.fspath(schema)] if schema is not None else [])
        pipe = asyncio.subprocess.PIPE
        process = await asyncio.create_subprocess_exec(*words, stdin=pipe, stdout=pipe, stderr=pipe, start_new_session=True)
        assert process.stdin and process.stdout
        made = cls(process.stdout, process.stdin, process, None, places)
        try:
            await made.revision()
            made._dialect.schema = schema_of(schema)
        except BaseException:
            await made.close()
            raise
        return made

    @property
    def schema(self) -> Optional[Schema]:
        """The tables, where they are known."""
        return self._dialect.schema

    async def learn_schema(self) -> Optional[Schema]:
        """Asks the server for its schema, as `Database.learn_schema` does, and goes by it from here on. Raises Ended."""
        return self._dialect.learn(await self._exchange(ASKS_SCHEMA))

    @property
    def process(self) -> Optional[int]:
        """The number of the server's process, where it is this connection's own."""
        return self._process.pid if self._process else None

    @property
    def is_open(self) -> Openness:
        """Whether commands can be asked: the connection wasn't closed and hasn't broken off, as far as is known."""
        return Openness(not self._closed_for)

    def answer_within(self, timeout: Optional[float]) -> None:
        """From here on a reply that takes longer than so many seconds ends the connection; None waits. Nothing is awaited here."""
        self._timeout = timeout
        self._begin_time()

    async def __aenter__(self) -> AsyncDatabase:
        return self

    async def __aexit__(self, *_: object) -> None:
        await self.close()

    async def close(self) -> None:
        """Ends the connection. The server undoes the sessions that it holds. Closing twice is fine."""
        self._closed_for = self._closed_for or "the connection is closed"
        self._writer.close()
        with contextlib.suppress(OSError):
            await self._writer.wait_closed()
        if self._process:
            await self._process.wait()
        self._reading.cancel()
        with contextlib.suppress(asyncio.CancelledError):
            await self._reading

    # Lines

    async def send(self, request: Request[T]) -> T:
        """The answer to a request. Raises Refused and Ended. A call that is cancelled behind its sending is executed all the
        same, and its reply is dropped."""
        return self._dialect.read(request, await self._exchange(self._dialect.line(request)))

    async def ask_line(self, line: str) -> str:
        """The reply to one line, both without their newlines."""
        return (await self._exchange(self._dialect.made_elsewhere(line))).decode()

    async def ask_lines(self, lines: Iterable[str], window: int = WINDOW) -> AsyncIterator[str]:
        """The replies to many lines, which are sent ahead: at most `window` of them are awaited at a time."""
        sent: Deque[asyncio.Task[str]] = collections.deque()
        try:
            for it in lines:
                sent.append(asyncio.ensure_future(self.ask_line(it)))
                if len(sent) >= window:
                    yield await sent.popleft()
            while sent:
                yield await sent.popleft()
        finally:
            await asyncio.gather(*sent, return_exceptions=True)

    async def pass_turn(self) -> None:
        """Sends an empty line, which has no reply, so that the other connections of the server can go on."""
        if not self._closed_for:
            self._writer.write(b"\n")
            with contextlib.suppress(OSError):  # (the reader says why)
                await self._writer.drain()
                return
            await asyncio.wait([self._reading])
        raise Ended(self._closed_for)

    async def _exchange(self, line: bytes, block: Optional[object] = None) -> bytes:
        """The reply to a line. Where the line begins or ends a `block`, and the wait for its reply is interrupted, nobody knows
        whether the session is open: then the connection ends."""
        while True:
            await self._turn(block)
            async with self._window:
                if self._waits(block):  # (a block has begun while the window was full)
                    continue
                try:
                    return await (await self._written([line]))[0]
                except BaseException:
                    if block is not None:
                        self._break_off("a session was interrupted where it begins or ends")
                    raise

    async def _exchange_of_block(self, lines: List[bytes]) -> List[bytes]:
        """The replies to lines of the block that is open, which are written together as far as the window has room."""
        replies: List[bytes] = []
        while len(replies) < len(lines):
            some = lines[len(replies):][: self._window.most]
            async with contextlib.AsyncExitStack() as places:
                for _ in some:
                    await places.enter_async_context(self._window)
                replies += await asyncio.gather(*await self._written(some))
        return replies

    async def _written(self, lines: List[bytes]) -> List[asyncio.Future[bytes]]:
        """Writes lines together, and answers what their replies will be given to."""
        if self._closed_for:
            raise Ended(self._closed_for)
        loop, is_first = asyncio.get_running_loop(), not self._awaited
        replies: List[asyncio.Future[bytes]] = [loop.create_future() for _ in lines]
        self._awaited.extend(replies)
        if is_first:
            self._begin_time()
        self._writer.write(b"".join(lines))
        with contextlib.suppress(OSError):  # (the reader says why)
            await self._writer.drain()
        return replies

    async def _turn(self, block: Optional[object] = None) -> None:
        """Waits until no block is open but those that this task is in, and this one."""
        while self._waits(block):
            await self._ended.wait()

    def _waits(self, block: Optional[object] = None) -> bool:
        if not self._blocks or self._closed_for:
            return False
        return self._blocks[-1] is not block and self._blocks[-1] not in _within.get()

    def _wake(self) -> None:
        """Lets those who wait for a block look again."""
        self._ended.set()
        self._ended.clear()

    def _break_off(self, why: str) -> None:
        """Ends the connection at once. The server undoes the sessions that it holds, and what waits for replies gets Ended."""
        if not self._closed_for:
            self._closed_for = why
            self._writer.transport.abort()
            self._wake()

    async def _read(self) -> None:
        """Gives the replies to those who wait for them, and Ended to those who get none."""
        try:
            await self._give_replies()
            why = await self._why()
            self._closed_for = self._closed_for or why
        except OSError as error:
            self._break_off(str(error) or "the connection broke off")
        finally:
            self._closed_for = self._closed_for or "the connection is closed"
            for reply in self._awaited:
                if not reply.done():
                    reply.set_exception(Ended(self._closed_for))
            self._awaited.clear()
            self._begin_time()
            self._wake()

    async def _give_replies(self) -> None:
        rest = b""
        while True:
            data = await self._reader.read(CHUNK)
            if not data:
                return
            if self._acknowledge:
                self._acknowledge()
            *lines, rest = (rest + data).split(b"\n")
            for it in lines:
                if not self._awaited:
                    raise ConnectionError("the server sent a line that nothing asked for")
                reply = self._awaited.popleft()
                if not reply.done():
                    reply.set_result(it)
            if lines:
                self._begin_time()

    def _begin_time(self) -> None:
        """The first of the awaited replies has its whole time from here on."""
        if self._clock:
            self._clock.cancel()
            self._clock = None
        if self._timeout is not None and self._awaited:
            loop = asyncio.get_running_loop()

            def over() -> None:
                # (where the loop was kept busy for so long, the reply that has come meanwhile is read ahead of this)
                self._clock = loop.call_soon(self._took_too_long)

            self._clock = loop.call_later(self._timeout, over)

    def _took_too_long(self) -> None:
        if self._process:
            with contextlib.suppress(ProcessLookupError):
                self._process.kill()  # (one that stands still wouldn't end by itself, and its tables go with the connection)
        self._break_off("the server took too long")

    async def _why(self) -> str:
        if not self._process:
            return "the server ended the connection"
        self._writer.close()
        assert self._process.stderr
        said = (await self._process.stderr.read()).decode(errors="replace").strip()
        return f"the server ended with status {await self._process.wait()}{': ' if said else ''}{said}"

    # Blocks

    @contextlib.asynccontextmanager
    async def session(self) -> AsyncIterator[int]:
        """A session for a block, which gets its number: undone where the block raises, else squashed, as far as the connection still holds it, or
        undone where that is refused (as `journal`). The tasks that the block makes ask within it, and open blocks in it one after another; others
        that share the connection wait until it has ended. Where it is cancelled while it begins or ends, or ends before one that began later, as a
        generator's can, the connection ends too, so that the server undoes it."""
        await self._turn()
        mine = object()
        self._blocks.append(mine)
        try:
            number = await self._step(mine, calls.begin())
            _within.set((*_within.get(), mine))
            steps = self._dialect.session_steps
            try:
                yield number
            except BaseException:
                if not self._closed_for:
                    await self._end_session(mine, number, steps, calls.undo)
                raise
            await self._end_session(mine, number, steps, calls.squash)
        finally:
            self._blocks.remove(mine)
            self._wake()
            # (it may end in another context than it began in, as a generator does that was dropped)
            _within.set(tuple(it for it in _within.get() if it is not mine))

    async def atomically(self, changes: Iterable[Request[Any]]) -> List[Any]:
        """Does all of some changes or none, as `Database.atomically` does. Others that share the connection wait meanwhile. Where it is
        cancelled the connection ends, so that the server undoes what isn't squashed."""
        made, mine = Together(self._dialect, changes), object()
        await self._turn()
        self._blocks.append(mine)
        # (behind lines that are on their way the start may stand at the end of a piece)
        steps = made.steps(0 if self._awaited else self._window.most - 1)
        replies: Optional[List[bytes]] = None
        try:
            while True:
                replies = await self._exchange_of_block(steps.send(replies))
        except StopIteration:
            pass
        except BaseException as error:
            self._break_off(str(error) if isinstance(error, Ended) else "changes that are done together were interrupted")
            raise
        finally:
            self._blocks.remove(mine)
            self._wake()
        return made.results()

    async def _end_session(self, block: object, number: int, steps: int, end: Callable[[], Request[int]]) -> None:
        """Ends the session of a block as `Database` does. Where this fails the connection ends."""
        try:
            await self._turn(block)
            if not self._closed_for and self._blocks[-1] is not block:
                raise RuntimeError("the block of a session ends before one that began later: the connection is closed")
            if self._dialect.session_steps == steps:
                await self._step(block, end())
                return
            while (now := await self._step(block, calls.revision())).held > 0 and now.revision >= number:
                await self._step(block, end())
        except BaseException as error:
            is_to_undo = isinstance(error, Refused) and end is calls.squash
            await self._end_session(block, number, steps, calls.undo) if is_to_undo else self._break_off("a session was interrupted where it ends")
            raise

    async def _step(self, block: object, request: Request[T]) -> T:
        """The answer to a request by which a block begins or ends."""
        return self._dialect.read(request, await self._exchange(request.line(), block))
