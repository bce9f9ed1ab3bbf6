"""An etcd of one member in this process, as far as `mi_replica` asks it: keys with their revisions, leases by the clock of `mi_replica.log`, and
transactions. And the way of a log to etcd, this one or another, on which requests are held back and done late."""
from __future__ import annotations

import asyncio
import base64
from typing import Any, AsyncIterator, Awaitable, Callable, Dict, List, NamedTuple, Tuple

from mi_replica import log as logs
from mi_replica.etcd import Etcd, Message, Rejected, Unreachable, behind
from mi_replica.log import NOT_FOUND, Log

Post = Callable[[str, Message], Awaitable[Message]]
WATCH_SECONDS = 0.05


class Key(NamedTuple):
    value: bytes
    lease: int
    made: int
    changed: int


class FakeEtcd:
    def __init__(self) -> None:
        self.revision, self.keys = 1, {}  # type: int, Dict[bytes, Key]
        self.leases: Dict[int, float] = {}

    def serve(self, *etcds: Etcd) -> None:
        """These ask it, in the place of what listens at their URLs."""
        for it in etcds:
            it.post, it.watch = self.post, self.watch  # type: ignore[method-assign]

    async def watch(self, body: Message, silence: float) -> AsyncIterator[Message]:
        """It has no news, so that all is read again soon."""
        await asyncio.sleep(WATCH_SECONDS)
        for it in ():
            yield it

    async def post(self, path: str, body: Message) -> Message:
        await asyncio.sleep(0)
        self._expire()
        if path.startswith("/v3/lease/"):
            return self._leased(path.rpartition("/")[2], body)
        return self.txn(body) if path == "/v3/kv/txn" else {}

    def _expire(self) -> None:
        for it in [it for it, until in self.leases.items() if logs.clock() >= until]:
            self._end(it)

    def _end(self, lease: int) -> None:
        self.leases.pop(lease, None)
        for it in [name for name, key in self.keys.items() if lease and key.lease == lease]:
            del self.keys[it]
            self.revision += 1

    def _leased(self, what: str, body: Message) -> Message:
        id = int(body.get("ID") or 100 + len(self.leases) + self.revision * 1000)
        if what == "revoke":
            self._end(id)
            return {}
        if what == "grant":
            self.leases[id] = logs.clock() + int(body["TTL"])
            return {"ID": str(id), "TTL": body["TTL"]}
        return {"result": {"TTL": "1"} if id in self.leases else {}}

    def txn(self, body: Message) -> Message:
        is_so = all(map(self._is_so, body.get("compare", [])))
        parts = body.get("success" if is_so else "failure", [])
        for it in parts:
            lease = int(it.get("request_put", {}).get("lease", 0))
            if lease and lease not in self.leases:
                raise Rejected(NOT_FOUND, "requested lease not found")
        self.revision += any("request_range" not in it for it in parts)
        done = [self._done(*next(iter(it.items()))) for it in parts]
        return {"succeeded": is_so, "responses": done, "header": {"revision": str(self.revision)}}

    def _is_so(self, it: Message) -> bool:
        key = self.keys.get(base64.b64decode(it["key"]))
        if it["target"] == "VALUE":  # (of a key that isn't there no value is compared)
            wanted = base64.b64decode(it["value"])
            return key is not None and (key.value < wanted if it["result"] == "LESS" else key.value == wanted)
        if it["target"] == "MOD":
            return (key.changed if key else 0) == int(it["mod_revision"])
        return (key.made if key else 0) == int(it["create_revision"])

    def _done(self, what: str, asked: Message) -> Message:
        low = base64.b64decode(asked["key"])
        if what == "request_put":
            made = self.keys[low].made if low in self.keys else self.revision
            self.keys[low] = Key(base64.b64decode(asked["value"]), int(asked.get("lease", 0)), made, self.revision)
            return {}
        high = base64.b64decode(asked["range_end"]) if "range_end" in asked else low + b"\0"
        found = sorted((name for name in self.keys if low <= name < high), reverse="sort_order" in asked)
        if what == "request_delete_range":
            for it in found:
                del self.keys[it]
            return {}
        return {"response_range": {"kvs": [self._shown(it) for it in found[: int(asked.get("limit", 0)) or None]]}}

    def _shown(self, name: bytes) -> Message:
        key, text = self.keys[name], lambda it: base64.b64encode(it).decode()
        return {"key": text(name), "value": text(key.value), "create_revision": str(key.made), "mod_revision": str(key.changed)}

    def wipe(self) -> None:
        """As an etcd whose data was removed."""
        self.__init__()  # type: ignore[misc]

    def put_back(self, name: str, entries: int) -> None:
        """Has the log of a ledger up to this entry alone, as an etcd whose data was put back to what it was."""
        first, *_ = lost = sorted(it for it in self.keys if f"{name}/log/{entries:020}".encode() < it < behind(f"{name}/log/".encode()))
        front = b"%020d %s" % (entries, self.keys[first].value.partition(b"\n")[0])
        for it in lost:
            del self.keys[it]
        self.keys[f"{name}/front".encode()] = self.keys[f"{name}/front".encode()]._replace(value=front)


def etcds(log: Log) -> Tuple[Etcd, ...]:
    """All by which a log asks."""
    return log._appending, log._reading, log._watching, log._electing


class Way:
    """The way of a log to etcd. While `holds` isn't 0 so many transactions are kept, which have no answer, and are done by `late`."""

    def __init__(self, log: Log) -> None:
        self.holds = 0
        self._kept: List[Tuple[Post, str, Message]] = []
        for it in etcds(log):
            it.post = self._through(it.post)  # type: ignore[method-assign]

    def _through(self, post: Post) -> Any:
        async def posted(path: str, body: Message) -> Message:
            if not self.holds or not path.endswith("/txn"):
                return await post(path, body)
            self.holds -= 1
            self._kept.append((post, path, body))
            raise Unreachable("no answer in time")

        return posted

    async def late(self) -> bool:
        """Whether etcd does the transaction that is kept longest, whose answer nobody gets."""
        post, path, body = self._kept.pop(0)
        return bool((await post(path, body)).get("succeeded"))
