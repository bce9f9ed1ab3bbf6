"""What a call can raise. These are plain exceptions that can be pickled, so a worker's refusal gets back from a process pool."""
from __future__ import annotations

import errno
from typing import Any, Dict, Optional, Tuple


class Refused(Exception):
    """The server refused a command. `word` is the reason; where it is `unique`, `id` and `index` say which record stands in
    the way, and of a modify `lost` says whether the modified record was erased; where it is `leader`, `leader` is the address of
    the member that leads, if that is known. `why` is what the client can tell beyond the word, where it knows the schema:
    `balance is a float; int wanted`. Of `atomically`, `change` is the place of the refused change among the changes, from 0."""

    def __init__(self, reply: Dict[str, Any], why: str = "", change: Optional[int] = None) -> None:
        self.reply = reply
        self.word: str = reply["error"]
        self.id: Optional[int] = reply.get("id")
        self.index: Optional[str] = reply.get("index")
        self.lost: Optional[bool] = reply.get("lost")
        self.leader: Optional[str] = reply.get("leader") or None
        self.why = self._who_leads() or why or self._stands_in_the_way()
        self.change = change
        said = f"{self.word}: {self.why}" if self.why else self.word
        super().__init__(said if change is None else f"change {change}: {said}")

    def _who_leads(self) -> str:
        return f"this member follows {self.leader}, which takes changes" if self.leader else ""

    def _stands_in_the_way(self) -> str:
        if self.index is None:
            return ""
        lost = "; the record that was to be modified is erased" if self.lost else ""
        return f"record {self.id} has this key in {self.index}{lost}"

    def __reduce__(self) -> Tuple[Any, ...]:
        return type(self), (self.reply, self.why, self.change)


class Ended(ConnectionError):
    """The connection is at its end: closed by either side, or broken off in the middle of a command. What it held is undone."""

    def __init__(self, why: str = "") -> None:
        super().__init__(why or "the connection is at its end")


def nobody_listens(host: str, port: object) -> ConnectionRefusedError:
    """What is raised where a port has no server."""
    what = f"nothing listens on port {port} of {host}. Start a server there, as mi_service --listen {port}, or name the port of one that runs"
    return ConnectionRefusedError(errno.ECONNREFUSED, what)


def nobody_at(path: str) -> ConnectionRefusedError:
    """What is raised where a path has no server."""
    what = f"nothing listens at {path}. Start a service there, as mi_service --unix {path}, or name the path of one that runs"
    return ConnectionRefusedError(errno.ECONNREFUSED, what)


class TooManyEqual(Exception):
    """A walk over a range can't go on: more records have one key than a page has rows, and the index isn't ranked."""


class NeedsSchema(ValueError):
    """A call that takes its columns from the schema, on a connection that was opened without one."""
