"""A server in the place of a channel's bytes, for tests that count exchanges: it takes what is written at one go, and answers all of it at once."""
import json
from typing import Any, Callable, Dict, List, Optional

import kit  # noqa: F401 (which finds the client)

from mi_client import Database, Schema
from mi_client.channel import Channel

SCHEMA = Schema.built_in()
Answer = Callable[[Dict[str, Any]], Optional[Dict[str, Any]]]


class Wire(Channel):
    """Answers by a stack of sessions, and what `answers` gives for a command in place of that. `writes` has the commands that were written at
    one go, and `waits` counts how often a reply was waited for."""

    def __init__(self, answers: Answer = lambda _: None) -> None:
        self._answers = answers
        self._out = bytearray()
        self._said: List[bytes] = []
        self._come: List[bytes] = []
        self.is_busy = False
        self.depth, self.waits = 0, 0
        self.writes: List[List[str]] = []

    def close(self) -> None:
        """It is closed as a stream is."""

    def queue(self, data: bytes) -> None:
        self._out += data

    def exchange(self, line: bytes) -> bytes:
        self.queue(line)
        self.step()
        return self._come.pop(0)

    def step(self, wait: bool = True) -> None:
        lines = [json.loads(it) for it in self._out.splitlines()]
        self._out.clear()
        if lines:
            self.writes.append([it["cmd"] for it in lines])
        self._said += [self._reply(it) for it in lines]
        if wait:
            self.waits += 1
            self._come, self._said = self._come + self._said, []

    def taken(self) -> List[bytes]:
        come, self._come = self._come, []
        return come

    def _reply(self, asked: Dict[str, Any]) -> bytes:
        self.depth += {"start": 1, "squash": -1, "undo": -1}.get(asked["cmd"], 0)
        said = {"ok": True, "id": 0, "revision": self.depth, "held": self.depth, "depth": self.depth, "size": 0}
        said.update(dict.fromkeys(("erased", "pushed", "committed", "undone"), 0))
        return json.dumps(self._answers(asked) or said).encode()


def opened(answers: Answer = lambda _: None) -> Database:
    """A connection over such a channel."""
    wire = Wire(answers)
    return Database(wire, [wire], None, SCHEMA)
