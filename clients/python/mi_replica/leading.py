"""What the leader does in one term: it asks its own server the lines of its clients, one batch at a time so that their order is known;
appends those that are a journal's to the log, in this order; and lets a reply out when the log has all lines up to its own. A reply to
a line that isn't in the log is let out while the term surely lasts as well. Where the term ends, Lost is raised and nothing more goes out."""
from __future__ import annotations

import asyncio
import collections
import re
from typing import Callable, Deque, List, NamedTuple, Optional, Tuple

from mi_client.commands import belongs_in_journal
from mi_replica.clients import Client, Clients
from mi_replica.lines import NO_ROOM, REVISION, UNDO, is_of_member, may_start
from mi_replica.etcd import Unreachable
from mi_replica.front import Front
from mi_replica.log import AGAIN_SECONDS, MOST_BYTES, Log, Term
from mi_replica.own import Gone, Own, held
from mi_replica.tasks import first_ended

MOST_ASKED = 2_000
"""Lines that are asked of the own server in one batch."""
MOST_AHEAD = 4 << 20
"""Bytes of lines that are executed and not in the log; while there are more, none is executed."""
SLOW_SECONDS = 0.02
PARTS = 5
"""A term is prolonged so often in the time that it lasts."""
SPECIAL = re.compile(rb'"(?:start|member)"|\\')
"""What lines have that don't go with those of other clients. Others may have it too."""


class Batch(NamedTuple):
    """Lines to ask together. Those of a client that holds sessions, or may begin one, are `alone`; while one holds sessions the lines of
    the others are a `look`. A line that the member answers itself is the one of its batch."""

    parts: List[Tuple[Client, List[bytes]]]
    is_alone: bool = False
    is_look: bool = False
    is_of_member: bool = False


class Reply(NamedTuple):
    """A reply that waits until so many lines are in the log; `data` is None for the end of the client."""

    needs: int
    is_look: bool
    client: Client
    data: Optional[bytes]


class Leading:
    def __init__(self, own: Own, log: Log, clients: Clients, term: Term, front: Front, most_lines: int = 0) -> None:
        """`front` is up to where the log goes, which the own server has executed. At most `most_lines` make an entry, where that isn't 0."""
        self._own, self._log, self._clients, self._term = own, log, clients, term
        self.front, self._most_lines = front, most_lines
        self.holder: Optional[Client] = None
        self._held = 0
        self._executed = self._committed = 0
        self._pending: Deque[bytes] = collections.deque()
        self._pending_bytes = 0
        self._replies: Deque[Reply] = collections.deque()
        self._more, self._room = asyncio.Event(), asyncio.Event()
        self.on_entry: Callable[[Front, bytes], None] = lambda front, lines: None
        self.on_member: Callable[[], bytes] = lambda: b"{}"

    async def run(self) -> None:
        """Until Lost is raised, or Gone."""
        await self._undo(await self._own.held())  # (of a leader that is gone)
        await first_ended([self._execute(), self._append(), self._prolong()])

    # Executing

    async def _execute(self) -> None:
        while True:
            clients = self._clients.next()
            slow = [it for it in clients if it.is_slow()]
            quick = [it for it in clients if not it.is_slow()]
            for batch in Batches(self, quick):
                await self._do(batch)
                await self._wait_for_room()
            for it in slow:
                self._clients.put(it)
            if slow and not quick:
                await asyncio.sleep(SLOW_SECONDS)
            elif not quick:
                await self._clients.wait()

    async def _do(self, batch: Batch) -> None:
        """Asks a batch. Its replies wait behind those before."""
        lines = [it for _, part in batch.parts for it in part]
        replies = await self._ask(batch, lines) if lines else []
        if NO_ROOM in replies:  # (another member may have some)
            raise Gone("the server has no room for its journal")
        at = 0
        for client, part in batch.parts:
            for line in part:
                self._take(client, line, replies[at], batch.is_look)
                at += 1
            if client.is_ended and not client.waiting:
                await self._end(client)
            self._clients.put(client)
        self.release()

    async def _ask(self, batch: Batch, lines: List[bytes]) -> List[bytes]:
        if batch.is_of_member:
            return [self.on_member()]
        if batch.is_look:
            return await self._own.look(lines)
        if not batch.is_alone:
            return await self._own.ask(lines)
        replies = await self._own.ask([*lines, REVISION])
        self._held = held(replies.pop())
        self.holder = batch.parts[0][0] if self._held else None
        return replies

    def _take(self, client: Client, line: bytes, reply: bytes, is_look: bool) -> None:
        """A line that was executed, with its reply."""
        is_mine = not is_look and belongs_in_journal(reply)
        if is_mine:
            self._pending.append(line)
            self._pending_bytes += len(line)
            self._executed += 1
        self._hold(client, reply, not is_mine)

    def _hold(self, client: Client, reply: bytes, is_look: bool) -> None:
        client.unsent += len(reply) + 1
        self._replies.append(Reply(self._executed, is_look, client, reply))

    async def _end(self, client: Client) -> None:
        """A client that is gone: what it holds is undone, and the log has that."""
        client.is_over = True
        if client is self.holder:
            await self._undo(self._held)
            self.holder, self._held = None, 0
        self._replies.append(Reply(self._executed, False, client, None))

    async def _undo(self, count: int) -> None:
        for reply in await self._own.ask([UNDO] * count) if count else []:
            if not belongs_in_journal(reply):
                raise Gone(f"the server answers {reply[:80]!r} to an undo")
            self._pending.append(UNDO)
            self._pending_bytes += len(UNDO)
            self._executed += 1
        self._more.set()

    async def _wait_for_room(self) -> None:
        if self._pending:
            self._more.set()
        while self._pending_bytes > MOST_AHEAD:
            self._room.clear()
            await self._room.wait()

    # Appending

    async def _append(self) -> None:
        while True:
            while not self._pending:
                self._more.clear()
                await self._more.wait()
            lines = self._taken()
            entry = b"".join(lines)
            self.front = await self._log.append(self.front, entry, self._term)
            self._committed += len(lines)
            self.on_entry(self.front, entry)
            self._room.set()
            self.release()

    def _taken(self) -> List[bytes]:
        """The lines of the next entry: all that wait, as far as they go into one."""
        lines: List[bytes] = []
        size, most = 0, self._most_lines or MOST_BYTES
        while self._pending and len(lines) < most and size + len(self._pending[0]) <= MOST_BYTES:
            lines.append(self._pending.popleft())
            size += len(lines[-1])
        self._pending_bytes -= size
        return lines

    # Replying

    def release(self) -> None:
        """Lets out the replies that wait for nothing more, in their order."""
        holds, replies = self._term.holds(), self._replies
        now: Optional[Client] = None
        out: List[bytes] = []
        while replies and replies[0].needs <= self._committed and (holds or not replies[0].is_look):
            _, _, client, data = replies.popleft()
            if client is not now:
                send(now, out)
                now, out = client, []
            if data is None:
                send(now, out)
                out = []
                client.done.set()
            else:
                out.append(data)
        send(now, out)

    async def _prolong(self) -> None:
        """Lets the term go on, and out what has waited for that. Raises Lost."""
        while True:
            try:
                await self._log.prolong(self._term)
            except Unreachable:
                await asyncio.sleep(AGAIN_SECONDS)
                continue
            self.release()
            await asyncio.sleep(self._term.seconds / PARTS)


def send(client: Optional[Client], replies: List[bytes]) -> None:
    if client and replies:
        data = b"\n".join(replies) + b"\n"
        client.unsent -= len(data)
        client.send(data)


class Batches:
    """The batches of some clients, each made when the one before has been done, since that tells who holds sessions."""

    def __init__(self, leading: Leading, clients: List[Client]) -> None:
        self._leading, self._clients = leading, collections.deque(clients)

    def __iter__(self) -> "Batches":
        return self

    def __next__(self) -> Batch:
        if not self._clients:
            raise StopIteration
        client, holder = self._clients[0], self._leading.holder
        if client.waiting and is_of_member(client.waiting[0]):
            self._clients.popleft()
            return Batch([(client, [client.waiting.popleft()])], is_of_member=True)
        if holder:
            self._clients.popleft()
            return Batch([(client, taken(client))], client is holder, client is not holder)
        return self._together()

    def _together(self) -> Batch:
        """The plain lines of as many clients as come before a line that is special, or that line."""
        parts: List[Tuple[Client, List[bytes]]] = []
        count = 0
        while self._clients and count < MOST_ASKED:
            client = self._clients[0]
            if client.waiting and SPECIAL.search(client.waiting[0]):
                if not parts:
                    self._clients.popleft()
                    return special(client)
                break
            self._clients.popleft()
            lines = plain(client, MOST_ASKED - count)
            parts.append((client, lines))
            count += len(lines)
        return Batch(parts)


def taken(client: Client) -> List[bytes]:
    """The next lines of a client, up to one that the member answers itself."""
    lines: List[bytes] = []
    while client.waiting and len(lines) < MOST_ASKED and not is_of_member(client.waiting[0]):
        lines.append(client.waiting.popleft())
    return lines


def plain(client: Client, most: int) -> List[bytes]:
    """The next lines of a client, up to a special one."""
    lines: List[bytes] = []
    while client.waiting and len(lines) < most and not SPECIAL.search(client.waiting[0]):
        lines.append(client.waiting.popleft())
    return lines


def special(client: Client) -> Batch:
    """A line that may begin a session, and what its client asks behind it; or a line that is special for another reason."""
    if may_start(client.waiting[0]):
        return Batch([(client, taken(client))], is_alone=True)
    return Batch([(client, [client.waiting.popleft()])])
