"""What a follower does: it asks its own server the log's entries as they come, and answers its clients' look-ups, which show an older
state by so much as it has not read yet. Whatever changes is refused, with the leader's address."""
from __future__ import annotations

import asyncio
from typing import Any, Callable, Coroutine, Iterator, List, Optional, Tuple, TypeVar

from mi_client.commands import belongs_in_journal
from mi_replica import lines as known
from mi_replica.clients import Client, Clients
from mi_replica.etcd import Unreachable
from mi_replica.front import Entry, Front
from mi_replica.log import AGAIN_SECONDS, MOST_BYTES, Leader, Log, OtherLedger, Snapshot
from mi_replica.own import Own
from mi_replica.tasks import end

SILENCE_SECONDS = 2.0
"""A watch that says nothing for so long is begun anew: its member of etcd may be gone."""
MOST_ASKED = 500
T = TypeVar("T")
SLOW_SECONDS = 0.02


class Diverged(Exception):
    """The own server refused a line of the log, by this reply."""

    def __init__(self, place: str, reply: bytes, line: bytes) -> None:
        super().__init__(f"{place}: {reply[:120]!r} to {line[:120]!r}")
        self.reply = reply


class Behind(Exception):
    """The log's next entry has left it: a checkpoint of another member has to be taken."""

    def __init__(self, first: int) -> None:
        super().__init__(f"the log begins with entry {first}")
        self.first = first


def lines_of(lines: bytes) -> List[bytes]:
    """The lines of an entry, each with its newline."""
    return [it + b"\n" for it in lines.split(b"\n")[:-1]]


async def replay(own: Own, lines: List[bytes], place: str) -> None:
    """Asks lines of a journal. Raises Diverged where one isn't done."""
    for line, reply in zip(lines, await own.ask(lines)):
        if not belongs_in_journal(reply):
            raise Diverged(place, reply, line)


class Following:
    def __init__(self, own: Own, log: Log, clients: Clients, front: Front, had: Front) -> None:
        """`front` is up to where the own server has the log, and `had` up to where an earlier one has had it, which may be farther."""
        self._own, self._log, self._clients, self.front, self._had = own, log, clients, front, had
        self.leader: Optional[Leader] = None
        self._is_done = False
        self.on_entry: Callable[[Front, bytes], None] = lambda front, lines: None
        self.on_member: Callable[[], bytes] = lambda: b"{}"

    async def until_vacant(self) -> None:
        """Follows the log until there is no leader, and answers look-ups meanwhile. Raises Behind, Diverged, Gone and OtherLedger."""
        await self.answering(self._follow())

    async def answering(self, awaited: Coroutine[Any, Any, T]) -> T:
        """What this comes to, while look-ups are answered: etcd may leave it waiting."""
        self._is_done = False
        task, answers = asyncio.ensure_future(awaited), asyncio.ensure_future(self._answer())
        try:
            done, _ = await asyncio.wait([task, answers], return_when=asyncio.FIRST_COMPLETED)
            for it in done:
                it.result()
            # (the lines that are being answered are answered to the end)
            self._is_done = True
            self._clients.wake()
            await answers
            return task.result()
        finally:
            await end([task, answers])

    async def catch_up(self) -> Snapshot:
        """Asks the own server all that the log has. Answers how that stood at the last look."""
        while True:
            try:
                found = await self._log.read(self.front.number)
            except Unreachable:
                await asyncio.sleep(AGAIN_SECONDS)
                continue
            most = max(self.front.number, self._had.number)
            if found.front.number < most:
                raise OtherLedger(f"etcd's log ends before entry {most}, up to which this member has had it: it has lost what was acknowledged")
            if found.first > self.front.number + 1:
                raise Behind(found.first)
            for it in (found.front, self._had):
                self._compare(self.front, it)
            await self._apply(found.entries)
            self.leader = found.leader
            if not found.more:
                return found

    @staticmethod
    def _compare(front: Front, other: Front) -> None:
        """Raises OtherLedger where two fronts of one number aren't the same."""
        if front.number == other.number and front != other:
            raise OtherLedger(f"etcd's log isn't the one that this member has: up to entry {front.number} it has other entries")

    async def _apply(self, entries: List[Entry]) -> None:
        """Asks the own server entries, together where they are short, each of which stands on what this member has."""
        taken: List[Tuple[Front, bytes]] = []
        front, size = self.front, 0
        for it in entries:
            if it.number <= front.number:
                continue
            if it.number != front.number + 1:
                raise Behind(it.number)
            self._compare(front, Front(front.number, it.before))
            front, size = front.with_entry(it.lines), size + len(it.lines)
            self._compare(front, self._had)
            taken.append((front, it.lines))
            if size > MOST_BYTES:
                await self._apply_at_once(taken)
                taken, size = [], 0
        await self._apply_at_once(taken)

    async def _apply_at_once(self, taken: List[Tuple[Front, bytes]]) -> None:
        """Asks entries, each with how far the log goes behind it."""
        lines = [line for _, entry in taken for line in lines_of(entry)]
        if lines:
            await replay(self._own, lines, f"entries {taken[0][0].number} to {taken[-1][0].number}")
        for front, entry in taken:
            self.front = front
            self.on_entry(front, entry)

    # The log

    async def _follow(self) -> None:
        while True:
            found = await self.catch_up()
            if found.leader is None:
                return
            try:
                async for news in self._log.watch(found.revision + 1, SILENCE_SECONDS):
                    await self._apply([it.entry for it in news if it.entry])
                    for it in news:
                        self.leader = self.leader if it.entry else it.leads
                    if self.leader is None:
                        break
            except Unreachable:
                pass  # (all is read again, from another member of etcd)

    # Look-ups

    async def _answer(self) -> None:
        while not self._is_done:
            clients = self._clients.next()
            for it in clients:
                if not it.is_slow():
                    await self._look(it)
                self._clients.put(it)
            if not clients:
                await self._clients.wait()
            elif all(it.is_slow() for it in clients):
                await asyncio.sleep(SLOW_SECONDS)

    async def _look(self, client: Client) -> None:
        """Answers the next lines of a client, of which only look-ups are asked of the server."""
        lines = [client.waiting.popleft() for _ in range(min(MOST_ASKED, len(client.waiting)))]
        told = [self._refusal(it) for it in lines]
        asked = [line for line, refusal in zip(lines, told) if refusal is None]
        replies = iter(await self._own.look(asked) if asked else [])
        self._send(client, told, replies)
        if client.is_ended and not client.waiting:
            client.is_over = True
            client.done.set()

    def _refusal(self, line: bytes) -> Optional[bytes]:
        """What the member says itself to a line; None to a look-up."""
        if known.is_of_member(line):
            return self.on_member()
        name, refusal = known.command(line)
        if name is None:
            return refusal
        return None if name in known.LOOK_UPS else known.not_leader(self.address())

    @staticmethod
    def _send(client: Client, told: List[Optional[bytes]], replies: Iterator[bytes]) -> None:
        if told:
            client.send(b"".join((next(replies) if it is None else it) + b"\n" for it in told))

    def address(self) -> str:
        """Where the leader listens, as far as is known."""
        return str(self.leader.said["address"]) if self.leader else ""
