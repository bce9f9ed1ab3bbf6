"""The connections of a member's clients: bytes to lines that wait for their turn, and replies. It knows nothing of logs and servers."""
from __future__ import annotations

import asyncio
import collections
import socket
from typing import Awaitable, Callable, Deque, List, Optional, Set

from mi_replica.lines import Splitter, is_command

LARGEST_READ = 1 << 16
MOST_UNSENT = 1 << 20
"""Of a client that has so many bytes to take no more lines are asked."""


class Client:
    """A connection with the lines of it that wait, each with its newline."""

    def __init__(self, writer: asyncio.StreamWriter) -> None:
        self._writer = writer
        self.waiting: Deque[bytes] = collections.deque()
        self.unsent = 0
        """Bytes of replies that aren't handed to the system's connection yet, since they wait for the log."""
        self.is_ended = False
        """Nothing more comes from it."""
        self.is_over = False
        """Its end was taken note of, so it has no more turns."""
        self.is_queued = False
        self.taken, self.done = asyncio.Event(), asyncio.Event()

    def is_slow(self) -> bool:
        """Whether it leaves too much unread."""
        return self.unsent + self._writer.transport.get_write_buffer_size() > MOST_UNSENT

    def send(self, data: bytes) -> None:
        if not self._writer.transport.is_closing():
            self._writer.write(data)

    def cut(self) -> None:
        """Ends the connection as it is: nothing more is read, asked or answered."""
        self.waiting.clear()
        self.is_ended = self.is_over = True
        self._writer.transport.abort()
        self.taken.set()
        self.done.set()


class Clients:
    """All connections. `next` gives those that have something to ask, by turns, or have ended."""

    def __init__(self) -> None:
        self._all: Set[Client] = set()
        self._ready: Deque[Client] = collections.deque()
        self.woken = asyncio.Event()
        """Is set where a client was put into the row."""
        self.on_checkpoint: Optional[Callable[[asyncio.StreamWriter], Awaitable[None]]] = None
        """What is done for a connection whose first line asks for the checkpoint, which has nothing else then."""

    def next(self) -> List[Client]:
        """The clients in the row, which is empty then: who isn't done is put back."""
        found = list(self._ready)
        self._ready.clear()
        for it in found:
            it.is_queued = False
        return found

    def put(self, client: Client) -> None:
        """Puts a client into the row, where it has lines that wait, or has ended."""
        if not client.is_queued and not client.is_over and (client.waiting or client.is_ended):
            client.is_queued = True
            self._ready.append(client)
        if not client.waiting:
            client.taken.set()

    def wake(self) -> None:
        self.woken.set()

    async def wait(self) -> None:
        """Waits until a client has come into the row."""
        await self.woken.wait()
        self.woken.clear()

    def cut_all(self) -> None:
        for it in list(self._all):
            it.cut()
        self._ready.clear()

    async def serve(self, reader: asyncio.StreamReader, writer: asyncio.StreamWriter) -> None:
        """A connection from its beginning to its end."""
        writer.get_extra_info("socket").setsockopt(socket.IPPROTO_TCP, socket.TCP_NODELAY, 1)
        client = Client(writer)
        self._all.add(client)
        try:
            await self._read(client, reader, writer)
            await client.done.wait()
            if not writer.transport.is_closing():
                await writer.drain()
        except OSError:
            pass
        finally:
            self._all.discard(client)
            writer.close()

    async def _read(self, client: Client, reader: asyncio.StreamReader, writer: asyncio.StreamWriter) -> None:
        """Takes lines as long as those before were taken; at the end of the stream its rest is a line too."""
        splitter, is_first = Splitter(), True
        try:
            while not client.is_ended:
                data = await reader.read(LARGEST_READ)
                if client.is_ended:
                    return
                lines = splitter.feed(data) if data else splitter.end()
                if is_first and lines and self.on_checkpoint and is_command(lines[0], "checkpoint"):
                    await self.on_checkpoint(writer)
                    return client.done.set()
                is_first = is_first and not lines
                self._came(client, lines, not data)
                await client.taken.wait()
                await writer.drain()
        except OSError:
            # (what was read and not asked yet isn't asked; what it holds is undone in its turn)
            client.waiting.clear()
            self._came(client, [], True)

    def _came(self, client: Client, lines: List[bytes], is_end: bool) -> None:
        client.waiting.extend(lines)
        client.is_ended = client.is_ended or is_end
        if lines:
            client.taken.clear()
        self.put(client)
        self.wake()
