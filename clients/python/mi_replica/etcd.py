"""Requests to etcd by its JSON gateway (version 3.4: paths below /v3, keys and values in base64), over connections that stay open.
It knows nothing of ledgers. An `Etcd` asks one member at a time and turns to the next where that fails; it never asks twice."""
from __future__ import annotations

import asyncio
import base64
import errno
import json
import os
import re
from typing import Any, AsyncIterator, Dict, List, Optional, Sequence, Tuple

Message = Dict[str, Any]
Streams = Tuple[asyncio.StreamReader, asyncio.StreamWriter]

LARGEST_HEAD = 1 << 16
CONNECT_SECONDS = 1.0
EXHAUSTED = 8
"""The code of an answer for want of room, which may be there later."""
ERRNO = re.compile(r"\[Errno (\d+)\]")
URL = re.compile(r"http://([A-Za-z0-9._-]+|\[[0-9A-Fa-f:.]+\]):([0-9]{1,5})")


class Unreachable(OSError):
    """The member of etcd that was asked gave no answer: what was asked may be done or not."""


class Rejected(Exception):
    """etcd answered that it doesn't do this: its code, and why."""

    def __init__(self, code: int, why: str) -> None:
        super().__init__(why)
        self.code = code


def text64(data: bytes) -> str:
    """Bytes as a key or value of a request."""
    return base64.b64encode(data).decode()


def place(url: str) -> Tuple[str, int]:
    """The host and the port of http://HOST:PORT. Raises ValueError for whatever else: half a URL would be taken for another place, and
    https isn't spoken."""
    found = URL.fullmatch(url)
    if not found or not 0 < int(found[2]) < 1 << 16:
        raise ValueError(f"{url!r} isn't http://HOST:PORT, which is all that is taken (etcd over TLS isn't supported)")
    return found[1].strip("[]"), int(found[2])


def no_answer(error: BaseException, host: str, port: int) -> str:
    """What is said of a member of etcd that gave no answer, by what was raised."""
    where = f"[{host}]:{port}" if ":" in host else f"{host}:{port}"
    if {int(it) for it in ERRNO.findall(str(error))} == {errno.ECONNREFUSED}:  # (of each address that a host's name has)
        return f"etcd: {where} refused the connection: nothing listens there"
    if isinstance(error, asyncio.TimeoutError):
        return f"etcd: {where} gave no answer in time"
    if isinstance(error, (EOFError, StopAsyncIteration)):
        return f"etcd: {where} ended the connection"
    if isinstance(error, OSError) and error.errno is not None:
        return f"etcd: {where}: {os.strerror(error.errno) if error.errno > 0 else error.strerror}"
    return f"etcd: {where}: {error}"


def behind(prefix: bytes) -> bytes:
    """The end of the range of all keys with this prefix."""
    return prefix[:-1] + bytes([prefix[-1] + 1])


class Etcd:
    """One exchange at a time with one of the members at `urls`, which are http://HOST:PORT; else ValueError is raised."""

    def __init__(self, urls: Sequence[str], timeout: float) -> None:
        self._places = [place(it) for it in urls]
        self.timeout, self._at = timeout, 0
        self._streams: Optional[Streams] = None
        self._lock = asyncio.Lock()

    async def post(self, path: str, body: Message) -> Message:
        """The answer. Raises Unreachable and Rejected."""
        async with self._lock:
            member = self._places[self._at]
            try:
                found = await asyncio.wait_for(self._exchange(path, body), self.timeout)
            except (OSError, EOFError, ValueError, asyncio.TimeoutError, asyncio.LimitOverrunError) as error:
                self.turn()
                raise Unreachable(no_answer(error, *member)) from error
            except BaseException:
                self.close()
                raise
        status, message = found
        if status == 200:
            return message
        code, why = int(message.get("code", status)), str(message.get("message", status))
        if status in (503, 504) or code == EXHAUSTED:  # (it has no leader, or no room, or too much to do)
            self.turn()
            raise Unreachable(f"etcd: {why}")
        raise Rejected(code, why)

    def turn(self) -> None:
        """The next request goes to the next member."""
        self.close()
        self._at = (self._at + 1) % len(self._places)

    def close(self) -> None:
        if self._streams:
            self._streams[1].transport.abort()
        self._streams = None

    async def _opened(self) -> Streams:
        host, port = self._places[self._at]
        return await asyncio.wait_for(asyncio.open_connection(host, port, limit=LARGEST_HEAD), CONNECT_SECONDS)

    async def _exchange(self, path: str, body: Message) -> Tuple[int, Message]:
        if self._streams is None:
            self._streams = await self._opened()
        reader = self._streams[0]
        status, members = await asked(self._streams, path, body)
        if members.get("transfer-encoding") == "chunked":
            data = b"".join([it async for it in chunks(reader)])
        else:
            data = await reader.readexactly(int(members.get("content-length", "0")))
        if members.get("connection") == "close":
            self.close()
        return status, json.loads(data)

    async def watch(self, body: Message, silence: float) -> AsyncIterator[Message]:
        """The results of a watch, as they come, until none has come for so many seconds. It has a connection of its own. Raises
        Unreachable."""
        streams: Optional[Streams] = None
        member = self._places[self._at]
        try:
            streams = await self._opened()
            status, _ = await asyncio.wait_for(asked(streams, "/v3/watch", body), self.timeout)
            if status != 200:
                raise ValueError(f"a watch was answered {status}")
            rest, pieces = b"", chunks(streams[0])
            while True:
                try:
                    rest += await asyncio.wait_for(pieces.__anext__(), silence)
                except asyncio.TimeoutError:
                    return
                *whole, rest = rest.split(b"\n")
                for line in whole:
                    yield json.loads(line)["result"]
        except (OSError, EOFError, ValueError, KeyError, StopAsyncIteration, asyncio.TimeoutError, asyncio.LimitOverrunError) as error:
            self.turn()
            raise Unreachable(no_answer(error, *member)) from error
        finally:
            if streams:
                streams[1].transport.abort()


async def asked(streams: Streams, path: str, body: Message) -> Tuple[int, Dict[str, str]]:
    """Sends a request, and reads the head of its answer: the status and its members."""
    reader, writer = streams
    data = json.dumps(body, separators=(",", ":")).encode()
    head = f"POST {path} HTTP/1.1\r\nHost: etcd\r\nContent-Type: application/json\r\nContent-Length: {len(data)}\r\n\r\n"
    writer.write(head.encode() + data)
    first, *rest = (await reader.readuntil(b"\r\n\r\n")).decode("latin-1").split("\r\n")
    members = {name.strip().lower(): it.strip() for name, _, it in (line.partition(":") for line in rest if line)}
    return int(first.split()[1]), members


async def chunks(reader: asyncio.StreamReader) -> AsyncIterator[bytes]:
    """The pieces of a body that is sent in chunks."""
    while True:
        size = int((await reader.readline()).split(b";")[0], 16)
        if not size:
            break
        yield (await reader.readexactly(size + 2))[:-2]
    while (await reader.readline()).strip():
        pass  # (what stands behind the last piece, up to an empty line)


# Parts of a transaction


def is_new(key: bytes) -> Message:
    """Compares: there is no such key."""
    return is_made_at(key, 0)


def is_made_at(key: bytes, revision: int) -> Message:
    """Compares: the key was made by the transaction of this revision, and wasn't deleted since."""
    return {"key": text64(key), "target": "CREATE", "result": "EQUAL", "create_revision": str(revision)}


def is_changed_at(key: bytes, revision: int) -> Message:
    """Compares: the transaction of this revision was the last that put the key."""
    return {"key": text64(key), "target": "MOD", "result": "EQUAL", "mod_revision": str(revision)}


def is_value(key: bytes, value: bytes, result: str = "EQUAL") -> Message:
    """Compares: the key is there and its value is this one, or is LESS than it, byte by byte."""
    return {"key": text64(key), "target": "VALUE", "result": result, "value": text64(value)}


def put(key: bytes, value: bytes, lease: int = 0) -> Message:
    more = {"lease": str(lease)} if lease else {}
    return {"request_put": {"key": text64(key), "value": text64(value), **more}}


def ranged(key: bytes, end: bytes = b"", limit: int = 0) -> Message:
    """The keys from `key` to before `end`, or the key alone."""
    more = {"range_end": text64(end)} if end else {}
    return {"request_range": {"key": text64(key), "limit": str(limit), **more}}


def deleted(key: bytes, end: bytes) -> Message:
    return {"request_delete_range": {"key": text64(key), "range_end": text64(end)}}


class Pair:
    """A key with its value and the revisions at which it was made and put last."""

    def __init__(self, found: Message) -> None:
        self.key = base64.b64decode(found["key"])
        self.value = base64.b64decode(found.get("value", ""))
        self.made, self.changed = int(found.get("create_revision", 0)), int(found.get("mod_revision", 0))


def pairs(answer: Message, which: int) -> List[Pair]:
    """What the range at this place of a transaction found."""
    return [Pair(it) for it in answer["responses"][which].get("response_range", {}).get("kvs", [])]


def revision(answer: Message) -> int:
    return int(answer["header"]["revision"])
