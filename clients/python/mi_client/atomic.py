"""Changes that are done all together or not at all: what is sent for them, and what the replies mean. Nothing here reads or writes."""
from __future__ import annotations

import json
from typing import Any, Dict, Generator, Iterable, List

from mi_client import calls
from mi_client.commands import CHANGES, SESSION_STEPS
from mi_client.dialect import REFUSAL, Dialect
from mi_client.errors import Ended
from mi_client.request import Request

PIECE = 4000
"""Bytes that a server reads of a connection at one go, and answers with no other connection's in between. (It reads 4,096; empty lines that it
hasn't read yet may stand ahead.)"""

Steps = Generator[List[bytes], Any, None]
"""Yields lines that are sent together, and is sent their replies."""


class Together:
    """Some changes, and in the end the replies to them."""

    def __init__(self, dialect: Dialect, changes: Iterable[Request[Any]]) -> None:
        """Makes all lines ahead of the first that is sent. Raises TypeError or ValueError where one is no change, and what `Dialect.line` does."""
        self._dialect, self._changes = dialect, list(changes)
        for it in self._changes:
            if not isinstance(it, Request):
                raise TypeError(f"changes are made by mi_client.calls, as calls.insert(row); {type(it).__name__} is none")
            if it.members["cmd"] in SESSION_STEPS:
                raise ValueError(f"{it.members['cmd']} begins or ends a session, so it can't stand among changes that are done in one")
        self._lines = [dialect.line(it) for it in self._changes]
        self._start = calls.begin()
        self._started: bytes = b""
        self._unsquashed: bytes = b""
        self._replies: List[bytes] = []

    def steps(self, at_once: int = PIECE) -> Steps:
        """Start and changes together, and then what ends the session. Where they are more than a piece, or more changes than can be sent
        `at_once`, the rest follows once the session is open and none was refused: else a start that is refused while others hold sessions
        could have changes behind it that aren't."""
        if not self._changes:
            return
        first = min(self._first_piece(), at_once)
        self._started, *self._replies = yield [self._start.line(), *self._lines[:first]]
        if self._is_refused(self._started):
            self._check_none_done()
            return
        if self._lines[first:] and not any(map(self._is_refused, self._replies)):
            self._replies += yield self._lines[first:]
        if not any(map(self._is_refused, self._replies)):
            ended, = yield [calls.squash().line()]
            if not self._is_refused(ended):
                return
            # (a service whose journal has no room for it takes an undo)
            self._unsquashed = ended
        ended, = yield [calls.undo().line()]
        self._dialect.read(calls.undo(), ended)

    def results(self) -> List[Any]:
        """What each change answers. Raises Refused for the first that was refused."""
        if self._started:
            self._dialect.read(self._start, self._started)
        for n, (change, reply) in enumerate(zip(self._changes, self._replies)):
            if self._is_refused(reply):
                said = _read(reply)
                if "lost" in said:
                    said["lost"] = False  # (it is back)
                raise self._dialect.refusal(change.members, said, n)
        if self._unsquashed:
            self._dialect.read(calls.squash(), self._unsquashed)
        return [self._dialect.read(change, reply) for change, reply in zip(self._changes, self._replies)]

    def _first_piece(self) -> int:
        """How many changes stand in a piece with the start."""
        size = len(self._start.line())
        for n, line in enumerate(self._lines):
            size += len(line)
            if size > PIECE:
                return n
        return len(self._lines)

    def _check_none_done(self) -> None:
        """Behind a start that was refused. Raises Ended where a change was done there all the same, outside of a session."""
        for change, reply in zip(self._changes, self._replies):
            said = _read(reply)
            if change.members["cmd"] in CHANGES and (said["ok"] or said.get("lost")):
                word = _read(self._started)["error"]
                raise Ended(f"the session was refused as {word}, and a change behind it was done outside of one")

    @staticmethod
    def _is_refused(reply: bytes) -> bool:
        return reply.startswith(REFUSAL)


def _read(reply: bytes) -> Dict[str, Any]:
    found: Dict[str, Any] = json.loads(reply)
    return found
