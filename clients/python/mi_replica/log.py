"""A ledger's log in etcd: its entries, who may append, and what members say of themselves. An entry is lines of a journal, and the
entries one behind the other are one journal. It knows nothing of servers and clients.

    NAME/log/<20 digits>   an entry, from 1 on: the sum of the log before it in a line of 16 digits, and its lines
    NAME/front             the number of the last entry, and the sum of the log up to it
    NAME/leader            who may append, while its lease lives; the revision at which the key was made is the leader's term
    NAME/first             the first entry that is still there: 20 digits, so that values are in the order of their numbers
    NAME/identity          16 random digits from the ledger's beginning: etcd begun anew has a ledger of this name with others
    NAME/schema            what identifies the schema, so that no member of another one takes part
    NAME.members/ID        what a member says of itself, while its lease lives

etcd may do a request late that was given up for want of an answer: its member stood still, or the network kept it. So each transaction that
changes something compares what it stands on, and one that others have overtaken is refused: an entry is new and the log goes up to the front that it
stands on, the first entry is a later one than it was, the leader's key is as this member has last known it. (What a member says of itself compares
the ledger alone, and is said again whenever it changes.)"""
from __future__ import annotations

import asyncio
import json
import secrets
import time
from typing import Any, AsyncIterator, Dict, List, NamedTuple, Optional, Sequence

from mi_replica.etcd import Etcd, Message, Pair, Rejected, Unreachable, behind, deleted, is_changed_at, is_made_at, is_new, is_value, pairs, put
from mi_replica.etcd import ranged, revision, text64
from mi_replica.front import SUM_DIGITS, Entry, Front

MOST_BYTES = 1_000_000
"""The most bytes of an entry's lines: etcd takes requests of 1,572,864 bytes unless it is told otherwise."""
LEAST_PAGE, MOST_PAGE = 8, 512
PAGE_BYTES = 4 << 20
"""So many entries are read at once, and about so many bytes, as the entries before let expect."""
NOT_FOUND = 5
"""The code of an answer where there is no such lease."""
REQUEST_SECONDS = 2.0
"""A request that has no answer for so long is asked of another member of etcd."""
TERM_PARTS = 3
"""One that prolongs a term or begins it waits for such a part of the term at most, so that it outlasts a member of etcd that stands still."""
AGAIN_SECONDS = 0.1
COMPACTED = 1_000
"""etcd forgets so many revisions at once."""

Said = Dict[str, Any]
"""What a member says of itself."""


class Lost(Exception):
    """This member may append no more: its term has ended."""


class OtherLedger(Exception):
    """The ledger of this name isn't the one that this member has lines of, or has lost some that it has."""


class Leader(NamedTuple):
    term: int
    said: Said


class Term:
    """A time in which one member may append. `holds` says whether it lasts, by this machine's clock and less a margin: etcd ends it no
    earlier than `seconds` behind the beginning of the last request that has prolonged it and was answered.

    That holds however late etcd does requests that weren't answered. A request first gets a lease, which lives for `seconds` from its grant,
    so from behind the beginning of the request; then it puts the leader's key with that lease, comparing that the key was put last by the
    transaction of the revision `changed`. Once one is answered, those that were sent before it compare an older revision and are refused
    for good. Those that are sent behind it have leases that were granted behind its beginning. So the key's lease is always one that was
    granted behind the beginning of the last answered request, and the key is there until that lease ends. How long an answer is waited
    for (TERM_PARTS) has no part in this: it decides how soon another member of etcd is asked, so whether a term outlasts one that stands
    still."""

    def __init__(self, number: int, value: bytes, seconds: int, margin: float) -> None:
        self.number, self.value, self.seconds = number, value, seconds
        self.changed = number
        """The revision of the last transaction known to have put the leader's key; at first the one that made it."""
        self._margin, self._until = margin, 0.0

    def holds(self) -> bool:
        return clock() < self._until

    def prolong(self, began: float) -> None:
        """A request that was sent at this moment has prolonged it."""
        self._until = began + self.seconds - self._margin


class Snapshot(NamedTuple):
    """What stood in etcd at one moment: the entries behind a number (some of them, where `more`), the first that is still there, how far
    all of them go, and who may append."""

    entries: List[Entry]
    more: bool
    first: int
    front: Front
    leader: Optional[Leader]
    revision: int


class News(NamedTuple):
    """What changed: an entry that was appended, or else who leads."""

    entry: Optional[Entry] = None
    leads: Optional[Leader] = None


def clock() -> float:
    """Seconds of this machine, also while it sleeps."""
    return time.clock_gettime(time.CLOCK_BOOTTIME) if hasattr(time, "CLOCK_BOOTTIME") else time.monotonic()


def new_identity() -> str:
    """Of a ledger that begins: random digits."""
    return secrets.token_hex(SUM_DIGITS // 2)


def leader_of(found: Sequence[Pair]) -> Optional[Leader]:
    return Leader(found[0].made, json.loads(found[0].value)) if found else None


class Log:
    def __init__(self, urls: Sequence[str], name: str) -> None:
        self._prefix, self._members = f"{name}/".encode(), f"{name}.members/".encode()
        keys = (b"leader", b"first", b"front", b"schema", b"identity")
        self._leader, self._first, self._front, self._schema, self._identity = (self._prefix + it for it in keys)
        self.name, self.identity = name, ""
        """The identity is that of the ledger that was agreed on. Behind that nothing is read of another, or put into it."""
        self._entries = self._prefix + b"log/"
        self._compacted, self._page = 0, LEAST_PAGE
        # (a connection for each purpose, so that a term isn't kept waiting behind an entry)
        self._appending, self._reading, self._watching, self._electing = (Etcd(urls, REQUEST_SECONDS) for _ in range(4))

    def close(self) -> None:
        for it in (self._appending, self._reading, self._watching, self._electing):
            it.close()

    def _key(self, number: int) -> bytes:
        return self._entries + b"%020d" % number

    def _entry(self, it: Pair) -> Entry:
        return Entry.read(int(it.key[len(self._entries):]), it.value)

    def begin(self) -> Front:
        """The front of the ledger that was agreed on while it had no entries."""
        return Front(0, self.identity)

    def _here(self, asked: Message) -> Message:
        """A transaction that isn't done in another ledger of this name."""
        mine = [is_value(self._identity, self.identity.encode())] if self.identity else []
        return {**asked, "compare": [*asked["compare"], *mine]}

    async def read(self, after: int, limit: int = 0) -> Snapshot:
        """The entries behind this number, as they stand, `limit` of them at most. Raises Unreachable and OtherLedger."""
        limit = limit or self._page
        parts = [ranged(self._key(after + 1), behind(self._entries), limit + 1)]
        parts += map(ranged, (self._leader, self._first, self._identity, self._front))
        answer = await self._reading.post("/v3/kv/txn", {"success": parts})
        if self.identity and [it.value.decode() for it in pairs(answer, 3)] != [self.identity]:
            raise OtherLedger(f"etcd was begun anew: its ledger {self.name} isn't the one any more that this member has been in. Start it again")
        entries, begin, front = [self._entry(it) for it in pairs(answer, 0)], pairs(answer, 2), pairs(answer, 4)
        average = sum(len(it.lines) for it in entries) // max(1, len(entries)) or 1
        self._page = max(LEAST_PAGE, min(MOST_PAGE, PAGE_BYTES // average))
        first, last = int(begin[0].value) if begin else 1, Front.read(front[0].value) if front else self.begin()
        return Snapshot(entries[:limit], len(entries) > limit, first, last, leader_of(pairs(answer, 1)), revision(answer))

    async def has(self, front: Front) -> bool:
        """Whether the log goes on from this front, or ends there. One whose next entry has left is none to go on from."""
        found = await self.read(front.number, 1)
        return found.front == front or [(it.number, it.before) for it in found.entries] == [(front.number + 1, front.sum)]

    async def watch(self, start: int, silence: float) -> AsyncIterator[List[News]]:
        """What changes from this revision on, until nothing has for so many seconds, or the revision is too old for etcd."""
        wanted = {"key": text64(self._prefix), "range_end": text64(behind(self._prefix)), "start_revision": str(start)}
        async for result in self._watching.watch({"create_request": wanted}, silence):
            if result.get("canceled"):
                return
            yield [it for it in map(self._news, result.get("events", [])) if it]

    def _news(self, event: Message) -> Optional[News]:
        it, is_gone = Pair(event["kv"]), event.get("type") == "DELETE"
        if it.key == self._leader:
            return News() if is_gone else News(leads=leader_of([it]))
        if it.key.startswith(self._entries) and not is_gone:
            return News(entry=self._entry(it))
        return None

    # Appending

    async def append(self, front: Front, lines: bytes, term: Term) -> Front:
        """Appends an entry to the log that goes up to this front, asking until etcd has answered: it is committed behind this. Answers how far
        the log goes then. Raises Lost where the term has ended, or the log isn't that one; then the entry may be there or not."""
        key, entry, grown = self._key(front.number + 1), Entry(front.number + 1, front.sum, lines).written(), front.with_entry(lines)
        asked = {
            "compare": [is_new(key), is_made_at(self._leader, term.number), is_value(self._front, front.written())],
            "success": [put(key, entry), put(self._front, grown.written())],
            "failure": [ranged(key), ranged(self._leader)],
        }
        answer = await self._until_answered(self._appending, "/v3/kv/txn", self._here(asked))
        if not answer.get("succeeded"):
            found, leader = pairs(answer, 0), leader_of(pairs(answer, 1))
            # (in this term nobody else appends: an entry of this number is the one that an unanswered request has put there)
            if not (found and leader and leader.term == term.number and found[0].value == entry):
                raise Lost("another member has appended, the lease has ended, or the log is another one")
        return grown

    async def elect(self, said: Said, seconds: int, margin: float) -> Optional[Term]:
        """Asks to be the leader. Answers the term, or None where another one is. Raises Unreachable; asked again, it knows an election
        that was won and not answered by what the member says, which is to be of this election alone."""
        self._electing.timeout = min(REQUEST_SECONDS, seconds / TERM_PARTS)
        value, began = json.dumps(said).encode(), clock()
        won = put(self._leader, value, await self._granted(seconds))
        asked = {"compare": [is_new(self._leader)], "success": [won], "failure": [ranged(self._leader)]}
        answer = await self._put_with_lease(asked)
        if answer.get("succeeded"):
            term = Term(revision(answer), value, seconds, margin)
            term.prolong(began)
            return term
        leader = leader_of(pairs(answer, 0))
        return Term(leader.term, value, seconds, margin) if leader and leader.said == said else None

    async def prolong(self, term: Term) -> None:
        """Lets a term go on. Raises Lost and Unreachable.

        The leader's key gets a new lease, in the place of one that is kept alive: a member of etcd that was its leader and doesn't know yet
        that it isn't would answer that a lease lives, but can't grant one. Where an earlier request wasn't answered and was done after all,
        the key is another than was known: then it is as it was read, and put behind that."""
        began = clock()
        again = put(self._leader, term.value, await self._granted(term.seconds))
        while True:
            known = [is_made_at(self._leader, term.number), is_changed_at(self._leader, term.changed)]
            answer = await self._put_with_lease({"compare": known, "success": [again], "failure": [ranged(self._leader)]})
            if answer.get("succeeded"):
                break
            found = pairs(answer, 0)
            if not found or found[0].made != term.number or found[0].changed == term.changed:
                raise Lost("the lease has ended")
            term.changed = found[0].changed
        term.changed = revision(answer)
        term.prolong(began)

    async def _put_with_lease(self, asked: Message) -> Message:
        try:
            return await self._electing.post("/v3/kv/txn", self._here(asked))
        except Rejected as error:
            if error.code == NOT_FOUND:  # (the new lease has ended already, on a machine that has too much to do)
                raise Unreachable(str(error)) from error
            raise

    async def _granted(self, seconds: int) -> int:
        answer = await self._electing.post("/v3/lease/grant", {"TTL": str(seconds)})
        if int(answer["TTL"]) < seconds:
            raise Rejected(0, f"etcd grants {answer['TTL']} s of {seconds}")
        return int(answer["ID"])

    async def resign(self, term: Term) -> None:
        """Ends a term, where it hasn't ended, so that others needn't wait for that."""
        ended = {"compare": [is_made_at(self._leader, term.number)], "success": [deleted(self._leader, self._leader + b"\0")]}
        try:
            await self._electing.post("/v3/kv/txn", self._here(ended))
        except (Unreachable, Rejected):
            pass

    async def forget(self, number: int, term: Term) -> None:
        """Takes the entries up to this number out of the log. Raises Lost. Where the log begins is never turned back."""
        first = b"%020d" % (number + 1)
        asked = {
            "compare": [is_made_at(self._leader, term.number), is_value(self._first, first, "LESS")],
            "success": [deleted(self._entries, self._key(number + 1)), put(self._first, first)],
            "failure": [ranged(self._leader), ranged(self._first)],
        }
        answer = await self._until_answered(self._reading, "/v3/kv/txn", self._here(asked))
        if answer.get("succeeded"):
            return
        leader, found = leader_of(pairs(answer, 0)), pairs(answer, 1)
        # (they may have left by this request, when it wasn't answered)
        if not (leader and leader.term == term.number and found and found[0].value >= first):
            raise Lost("the lease has ended")

    async def compact(self) -> None:
        """Lets etcd forget what keys were before, which takes room as long as it doesn't, once that is enough to be worth it."""
        now = revision(await self._reading.post("/v3/kv/txn", {"success": [ranged(self._leader)]}))
        if now >= self._compacted + COMPACTED:
            await self._reading.post("/v3/kv/compaction", {"revision": str(now)})
            self._compacted = now

    async def _until_answered(self, etcd: Etcd, path: str, body: Message) -> Message:
        while True:
            try:
                return await etcd.post(path, body)
            except Unreachable:
                await asyncio.sleep(AGAIN_SECONDS)

    # Members

    async def agree(self, schema: str) -> str:
        """What identifies the ledger's schema: this one, where no member came before. The ledger is begun then, with an identity of its own.
        Raises OtherLedger."""
        made = new_identity()
        answer = await self._begun(made, schema, Front(0, made))
        if answer.get("succeeded"):
            self.identity = made
            return schema
        found = pairs(answer, 1)
        if not found or not pairs(answer, 2):
            raise OtherLedger(f"the ledger {self.name} has no identity or no front in etcd: an earlier mi_replica began it. Begin one of another name")
        self.identity = found[0].value.decode()
        return pairs(answer, 0)[0].value.decode()

    async def begin_behind(self, identity: str, schema: str, front: Front) -> None:
        """Begins a ledger of this identity whose log goes on from a front: the entries up to that have left it, and a checkpoint has them. Raises
        OtherLedger where one of this name is there."""
        answer = await self._begun(identity, schema, front)
        # (it may have been begun by this request, when it wasn't answered)
        if not answer.get("succeeded") and [it.value for it in pairs(answer, 1)] != [identity.encode()]:
            raise OtherLedger(f"the ledger {self.name} is there already. Begin one of another name")

    async def _begun(self, identity: str, schema: str, front: Front) -> Message:
        """What etcd answers to a request that begins the ledger, where it has none."""
        begin = {
            self._schema: schema.encode(), self._identity: identity.encode(), self._first: b"%020d" % (front.number + 1), self._front: front.written()
        }
        asked = {
            "compare": [is_new(self._schema)],
            "success": [put(key, value) for key, value in begin.items()],
            "failure": [ranged(self._schema), ranged(self._identity), ranged(self._front)],
        }
        return await self._until_answered(self._reading, "/v3/kv/txn", asked)

    async def say(self, name: str, said: Said, lease: int) -> None:
        told = put(self._members + name.encode(), json.dumps(said).encode(), lease)
        await self._reading.post("/v3/kv/txn", self._here({"compare": [], "success": [told]}))

    async def members(self) -> Dict[str, Said]:
        answer = await self._reading.post("/v3/kv/txn", {"success": [ranged(self._members, behind(self._members))]})
        return {it.key[len(self._members):].decode(): json.loads(it.value) for it in pairs(answer, 0)}


class Lease:
    """A lease for what a member says of itself. `keep` is a task of its own."""

    def __init__(self, urls: Sequence[str], seconds: int) -> None:
        self._etcd, self._seconds, self.id = Etcd(urls, REQUEST_SECONDS), seconds, 0

    async def keep(self) -> None:
        while True:
            try:
                if not await self._is_kept():
                    self.id = int((await self._etcd.post("/v3/lease/grant", {"TTL": str(self._seconds)}))["ID"])
                await asyncio.sleep(self._seconds / 4)
            except (Unreachable, Rejected):
                await asyncio.sleep(AGAIN_SECONDS)

    async def _is_kept(self) -> bool:
        if not self.id:
            return False
        answer = await self._etcd.post("/v3/lease/keepalive", {"ID": str(self.id)})
        return int(answer["result"].get("TTL", 0)) > 0

    async def leave(self) -> None:
        """Ends the lease."""
        try:
            if self.id:
                await self._etcd.post("/v3/lease/revoke", {"ID": str(self.id)})
        except (Unreachable, Rejected):
            pass
        self._etcd.close()
