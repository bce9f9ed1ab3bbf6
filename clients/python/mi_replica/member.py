"""A member of a ledger: it follows the log with a server of its own, leads while it has the lease, and begins anew from the log where its
term has ended. What it is told by others is in `log.py`; what is kept on its disk in `checkpoint.py`."""
from __future__ import annotations

import asyncio
import contextlib
import hashlib
import json
import os
import re
import secrets
import sys
import tempfile
import time
from typing import Any, Dict, List, NamedTuple, Optional, Sequence, Tuple

from mi_replica.based import PIECE, Rebase
from mi_replica.checkpoint import Checkpoint, Damaged, Folder, batches, header
from mi_replica.clients import Clients
from mi_replica.etcd import Rejected, Unreachable
from mi_replica.front import SUM_DIGITS, Front
from mi_replica.following import Behind, Diverged, Following, replay
from mi_replica.leading import Leading
from mi_replica.lines import MEMORY, NO_ROOM, REVISION, said
from mi_replica.log import AGAIN_SECONDS, Lease, Log, Lost, OtherLedger, Term, clock
from mi_replica.own import Gone, Own, own_of
from mi_replica.tasks import end, first_ended

SAY_SECONDS = 1.0
MEMBER_SECONDS = 5
"""So long after a member is gone what it said is gone too."""
FORGET_SECONDS = 5.0
LEAST_COPIES = 2
"""An entry leaves the log where so many members have it in their checkpoints."""
FETCH_SECONDS = 600.0
SILENT_SECONDS = 10.0
"""A member that sends nothing of its checkpoint for so long is given up, and the next one asked."""
PAUSE_SECONDS = 0.5
REST_SECONDS = 30.0
"""So long behind a checkpoint that couldn't be written none is tried."""
END_SECONDS = 5.0
"""So long a member takes at most to give its term back at its end."""


class OtherSchema(Exception):
    """The ledger belongs to another schema."""


class Settings(NamedTuple):
    etcd: Sequence[str]
    name: str
    program: str
    port: int
    schema: Optional[str] = None
    host: str = "127.0.0.1"
    address: str = ""
    """Where others reach this member; also its name among them."""
    folder: Optional[str] = None
    """Where its checkpoints stand. Without one none is written, and the log keeps all entries."""
    lease: int = 3
    margin: float = 0.5
    most_lines: int = 0
    checkpoint: int = 16 << 20
    """Bytes of entries behind which a checkpoint is written."""
    body: str = ""


def schema_hash(path: Optional[str]) -> str:
    """What identifies a schema where the program doesn't tell: its bytes."""
    if path is None:
        return hashlib.sha256(b"").hexdigest()[:16]
    with open(path, "rb") as file:
        return hashlib.sha256(file.read()).hexdigest()[:16]


def schema_of(header: bytes, path: Optional[str]) -> str:
    """What identifies a schema: what a journal's header says, where the program tells that, else the file's bytes."""
    return str(json.loads(header)["schema"]) if header else schema_hash(path)


def note(text: str) -> None:
    print(f"{time.strftime('%H:%M:%S')} {text}", file=sys.stderr, flush=True)


class Member:
    def __init__(self, settings: Settings) -> None:
        self._settings = settings
        self._address = settings.address or f"{settings.host}:{settings.port}"
        self._log = Log(settings.etcd, settings.name)
        self._lease = Lease(settings.etcd, MEMBER_SECONDS)
        self._clients = Clients()
        self._clients.on_checkpoint = self._send_checkpoint
        self._temporary = tempfile.TemporaryDirectory(prefix="mi_replica-")
        self._role, self._leader, self._term = "starting", "", 0
        self._front = self._had = self._log.begin()
        """Up to where its server has the log, and up to where one of its servers has had it: etcd may not have less, or others."""
        self._schema, self._header = "", b""
        self._tail: List[Tuple[int, bytes]] = []
        self._tail_bytes = 0
        self._before: Tuple[Front, List[Tuple[int, bytes]]] = (self._front, [])
        """The same of an earlier server, which had them up to here: etcd may have lost them since."""
        self._checkpoint: Optional[Checkpoint] = None
        """One that it has loaded or written, so one that others may count on."""
        self._writing: Optional["asyncio.Future[None]"] = None
        self._rebase: Optional[Rebase] = None
        self._rests_until = 0.0
        self._damage: Optional[Damaged] = None
        """What a checkpoint of its own turned out to be, while it ran."""

    async def run(self) -> None:
        """Until it is cancelled. Raises OSError where the port is taken, OtherSchema and OtherLedger."""
        server = await asyncio.start_server(self._clients.serve, self._settings.host, self._settings.port)
        try:
            await first_ended([self._lease.keep(), self._say(), self._live()], END_SECONDS)
        finally:
            server.close()
            self._clients.cut_all()
            if self._rebase:
                self._rebase.end()
            await self._lease.leave()
            self._log.close()

    async def _live(self) -> None:
        own = own_of(self._settings.program, self._settings.schema, self._settings.body)
        self._header, self._rebase = await own.header(), own.rebase(note)
        self._schema = schema_of(self._header, self._settings.schema)
        found = await self._log.agree(self._schema)
        if found != self._schema:
            raise OtherSchema(f"{self._settings.name} belongs to the schema {found}, and this one is {self._schema}")
        self._folder = Folder(self._settings.folder or self._temporary.name, self._settings.name, self._log.identity, self._rebase)
        self._had = self._log.begin()
        try:
            while True:
                await self._begin()
        except OtherLedger:
            await self._save()
            raise

    async def _begin(self) -> None:
        """With a fresh server, until that has to begin anew."""
        own = own_of(self._settings.program, self._settings.schema, self._settings.body)
        try:
            await self._once(own)
        except (Lost, Gone, Diverged, Damaged, Rejected, ValueError) as error:
            note(f"begins anew: {type(error).__name__}: {error}")
            await asyncio.sleep(0 if isinstance(error, Lost) else PAUSE_SECONDS)
        except Behind as behind:
            note(f"takes a checkpoint: {behind}")
            await self._fetch(behind.first)
        finally:
            self._role, self._leader = "starting", ""
            self._clients.cut_all()
            await own.close()

    async def _once(self, own: Own) -> None:
        """From a fresh server to the end of a term."""
        self._front = await self._load(own)
        self._had = max(self._had, self._front, key=lambda it: it.number)
        following = Following(own, self._log, self._clients, self._front, self._had)
        following.on_entry, following.on_member = self._took, lambda: self._status(following)
        self._role = "follower"
        while True:
            await following.until_vacant()
            term = await following.answering(self._elected())
            if term:
                break
        self._term = term.number
        note(f"leads in term {term.number}")
        try:
            found = await following.catch_up()
            if not found.leader or found.leader.term != term.number:
                raise Lost("the lease ended before the log was read")
            await self._lead(own, following.front, term)
        finally:
            self._clients.cut_all()
            await self._log.resign(term)

    async def _load(self, own: Own) -> Front:
        """Starts the server with the newest checkpoint's base, asks it the lines of that, and answers up to where they go. A checkpoint that isn't what was
        written, or that the server refuses, is set aside, so that the next server begins with what others have."""
        await self._written()
        newest = self._folder.newest()
        if self._tail and self._front.number > self._before[0].number:
            self._before = (self._front, self._tail)
        self._tail, self._tail_bytes, self._checkpoint, self._damage = [], 0, None, None
        if not newest:
            await own.start()
            await self._learn(own)
            return self._log.begin()
        try:
            await asyncio.get_running_loop().run_in_executor(None, newest.check)
            await own.start(newest.path)
            await self._learn(own)
            for lines in batches(newest.path):
                await replay(own, lines, newest.path)
        except (Damaged, ValueError, Diverged) as error:
            if isinstance(error, Diverged) and error.reply in (MEMORY, NO_ROOM):
                raise
            raise Damaged(f"{error}; the checkpoint is set aside as {self._folder.set_aside(newest)}") from error
        self._checkpoint = newest
        return newest.front

    async def _learn(self, own: Own) -> None:
        """The first line of a journal over its schema, where the program hasn't told it: then the server has no base, and begins with the first revision."""
        if not self._header:
            fresh = json.loads((await own.ask([REVISION]))[0])
            self._header = header(fresh["revision"], self._schema)

    async def _elected(self) -> Optional[Term]:
        """The term, where this member was elected."""
        # (what it says is of this time alone, so that an unanswered election is known again, and an older one isn't)
        me = {"address": self._address, "once": secrets.token_hex(8)}
        while True:
            try:
                return await self._log.elect(me, self._settings.lease, self._settings.margin)
            except Unreachable:
                await asyncio.sleep(AGAIN_SECONDS)

    async def _lead(self, own: Own, front: Front, term: Term) -> None:
        self._role, self._leader = "leader", self._address
        leading = Leading(own, self._log, self._clients, term, front, self._settings.most_lines)
        leading.on_entry, leading.on_member = self._took, self._status
        forgetting = asyncio.ensure_future(self._forget(term))
        try:
            await leading.run()
        finally:
            await end([forgetting])

    # What it tells

    def _status(self, following: Optional[Following] = None) -> bytes:
        if following:
            self._leader = following.address()
        return said({**self._said(), "ok": True})

    def _said(self) -> Dict[str, Any]:
        checkpoint = self._checkpoint.front.number if self._checkpoint else 0
        return {
            "address": self._address, "applied": self._front.number, "checkpoint": checkpoint, "leader": self._leader, "role": self._role,
            "term": self._term,
        }

    async def _say(self) -> None:
        """Tells the others how it stands."""
        before: Tuple[int, Dict[str, Any]] = (0, {})
        while True:
            now = (self._lease.id, self._said())
            if now != before and self._lease.id and self._log.identity:
                try:
                    await self._log.say(self._address, now[1], now[0])
                    before = now
                except (Unreachable, Rejected):
                    pass
            await asyncio.sleep(SAY_SECONDS)

    # Checkpoints

    def _took(self, front: Front, lines: bytes) -> None:
        """An entry that the own server has and the log too. Raises Damaged where the last checkpoint turned out to be that."""
        self._front = front
        self._had = max(self._had, front)
        if self._settings.folder:
            self._tail.append((front.number, lines))
            self._tail_bytes += len(lines)
            if self._damage:  # (behind that: a last checkpoint up to here has this entry too)
                raise self._damage
            if self._tail_bytes >= self._settings.checkpoint and not self._writing and clock() >= self._rests_until:
                self._writing = asyncio.ensure_future(self._write())

    async def _write(self) -> None:
        """Writes a checkpoint of what it has, while it goes on. Where that fails the entries are kept for the next one."""
        front, taken, size = self._front, self._tail, self._tail_bytes
        self._tail, self._tail_bytes = [], 0
        try:
            self._checkpoint = await asyncio.get_running_loop().run_in_executor(None, self._folder.write, front, self._header, taken)
        except (OSError, Damaged) as error:
            if isinstance(error, Damaged):
                self._checkpoint = None  # (others may not count on it any more)
                self._damage = error if await self._is_elsewhere() else None
            self._tail, self._tail_bytes = taken + self._tail, size + self._tail_bytes
            if not self._damage:
                self._rests_until = clock() + REST_SECONDS
                note(f"no checkpoint, and {self._tail_bytes} bytes that wait for one in memory; the next is tried in {REST_SECONDS:.0f} s: {error}")
        finally:
            self._writing = None

    async def _written(self) -> None:
        """Waits for a checkpoint that is being written, of which no base is made any more: nobody is served meanwhile."""
        if self._writing:
            if self._rebase:
                self._rebase.hurry()
            await asyncio.wait([self._writing])

    async def _save(self) -> None:
        """Writes a last checkpoint, of all that one of its servers has had: etcd has lost that, or may have."""
        await self._written()
        front, entries = max((self._front, self._tail), self._before, key=lambda it: it[0].number)
        newest = self._folder.newest()
        if not self._settings.folder or not entries or newest and newest.front.number >= front.number:
            return
        try:
            made = await asyncio.get_running_loop().run_in_executor(None, self._folder.write, front, self._header, entries)
            note(f"what it has had of the log is in {made.path}")
        except (OSError, Damaged) as error:
            note(f"no last checkpoint up to entry {front.number}: {error}")

    async def _is_elsewhere(self) -> bool:
        """Whether there is what it has without its checkpoint and its server: in the log, or in another member's checkpoint."""
        try:
            first, told = (await self._log.read(self._front.number, 1)).first, await self._log.members()
        except (Unreachable, Rejected, OtherLedger):
            return False
        return first == 1 or any(it["checkpoint"] >= first - 1 for name, it in told.items() if name != self._address)

    async def _forget(self, term: Term) -> None:
        """Takes entries out of the log that enough members have in their checkpoints."""
        done = 0
        while True:
            await asyncio.sleep(FORGET_SECONDS)
            try:
                found = [int(it["checkpoint"]) for it in (await self._log.members()).values()]
                if len(found) >= LEAST_COPIES and min(found) > done:
                    await self._log.forget(min(found), term)
                    done = min(found)
                await self._log.compact()
            except (Unreachable, Rejected, Lost) as error:
                note(f"the log stays as it is: {error}")

    async def _send_checkpoint(self, writer: asyncio.StreamWriter) -> None:
        """Sends the checkpoint that it tells of, behind a line that says up to where it has the log, of which ledger, and what it is."""
        it = self._checkpoint
        with contextlib.ExitStack() as opened:
            try:
                file = opened.enter_context(open(it.path, "rb")) if it else None
            except OSError:  # (a newer one has just taken its place)
                file = None
            if not it or not file:
                writer.write(b'{"error":"checkpoint","ok":false}\n')
                return
            members = {"bytes": os.fstat(file.fileno()).st_size, "digest": it.digest, "entry": it.front.number, "sum": it.front.sum}
            writer.write(said({**members, "identity": self._log.identity, "ok": True}) + b"\n")
            while True:
                piece = file.read(PIECE)
                if not piece:
                    break
                writer.write(piece)
                await writer.drain()

    async def _fetch(self, first: int) -> None:
        """Takes a checkpoint of another member that goes up to where the log begins, of the first that gives it."""
        await self._written()  # (which makes the older one that it writes the only one)
        try:
            told = await self._log.members()
        except (Unreachable, Rejected) as error:
            told = {}
            note(f"no checkpoint was taken: {error}")
        others = [it for it in told if told[it]["checkpoint"] >= first - 1 and it != self._address]
        if told and not others:
            note(f"none of the members that are there has a checkpoint up to entry {first - 1}")
        for name in others:
            try:
                await asyncio.wait_for(self._fetch_from(name, first - 1), FETCH_SECONDS)
                return
            except (OSError, EOFError, ValueError, KeyError, TypeError, Rejected, asyncio.TimeoutError) as error:
                note(f"no checkpoint was taken from {name}: {error or 'no answer in time'}")
        await asyncio.sleep(PAUSE_SECONDS)

    async def _fetch_from(self, address: str, least: int) -> None:
        host, _, port = address.rpartition(":")
        reader, writer = await asyncio.wait_for(asyncio.open_connection(host, int(port)), SILENT_SECONDS)
        try:
            writer.write(b'{"cmd":"checkpoint"}\n')
            front, digest, left = offered(await asyncio.wait_for(reader.readline(), SILENT_SECONDS), self._log.identity, least)
            if not await self._log.has(front):
                raise ValueError(f"etcd's log doesn't go on from its checkpoint up to entry {front.number}")
            with self._folder.new_file() as path:
                with open(path, "wb") as target:
                    while left:
                        piece = await asyncio.wait_for(reader.readexactly(min(left, 1 << 16)), SILENT_SECONDS)
                        target.write(piece)
                        left -= len(piece)
                await asyncio.get_running_loop().run_in_executor(None, self._folder.keep, path, front, digest)
            note(f"has the checkpoint of {address} up to entry {front.number}")
        finally:
            writer.transport.abort()


def offered(line: bytes, identity: str, least: int) -> Tuple[Front, str, int]:
    """Up to where a checkpoint has the log, what its bytes come to and how many they are, as a member says before it sends it. Raises
    ValueError where that is of another ledger, or doesn't go as far as this entry."""
    found = json.loads(line)
    if not isinstance(found, dict) or not found.get("ok"):
        raise ValueError(f"it answers {line[:80]!r}")
    if found.get("identity") != identity or int(found["entry"]) < least:
        raise ValueError(f"its checkpoint is of the ledger {found.get('identity')} up to entry {found.get('entry')}")
    sums = [str(found["sum"]), str(found["digest"])]
    if not all(re.fullmatch(rf"[0-9a-f]{{{SUM_DIGITS}}}", it) for it in sums):
        raise ValueError(f"it answers {line[:200]!r}")
    return Front(int(found["entry"]), sums[0]), sums[1], int(found["bytes"])
