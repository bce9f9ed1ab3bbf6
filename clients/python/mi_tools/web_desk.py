"""What the window of `weltiyo web` may ask: lines are read, judged by the table of commands, and written anew, so that what was judged is
what is sent. It reads and writes nothing itself, and counts the changes of the sessions that the window has started."""
from __future__ import annotations

import json
from typing import Any, Dict, List, NamedTuple, Sequence

from mi_client.commands import CHANGES, COMMANDS, LOOK_UPS
from mi_client.request import LONGEST_LINE

WRITES = CHANGES | {"start", "squash", "undo"}
"""What `--write` allows beside look-ups. `commit`, `undo_all`, `push` and `reserve` have no button, and stay forbidden."""
MOST_LINES = 2_000
"""The most lines of one request of the page."""

_encode = json.JSONEncoder(separators=(",", ":"), ensure_ascii=False, allow_nan=False).encode


class Forbidden(ValueError):
    """A line that the window doesn't send, and why. Nothing of its request was sent."""


class Line(NamedTuple):
    cmd: str
    text: str


def judged(given: Any, may_write: bool) -> List[Line]:
    """The lines of a request, as they will be sent. Raises Forbidden."""
    if not isinstance(given, list) or not given or len(given) > MOST_LINES or not all(isinstance(it, str) for it in given):
        raise Forbidden(f"a request has 1 to {MOST_LINES} lines")
    return [_judged_line(it, may_write) for it in given]


def _judged_line(text: str, may_write: bool) -> Line:
    try:
        members = json.loads(text)
        cmd = members.get("cmd") if isinstance(members, dict) else None
        written = _encode(members)
        size = len(written.encode())
    except (ValueError, RecursionError):
        raise Forbidden("a line is one command in JSON") from None
    if not isinstance(cmd, str) or cmd not in COMMANDS:
        raise Forbidden("this window knows no such command")
    if cmd not in LOOK_UPS and not may_write:
        raise Forbidden(f"{cmd} changes something, and this window is read-only: start it with --write")
    if cmd not in LOOK_UPS and cmd not in WRITES:
        raise Forbidden(f"{cmd} is asked by no button of this window")
    if size > LONGEST_LINE:
        raise Forbidden(f"a line has at most {LONGEST_LINE} bytes")
    return Line(cmd, written)


class Stack:
    """The sessions that the window has started over its connection and that are open, the oldest first, each with the number of changes
    that were sent and accepted in it. What others have changed there isn't told by the server, and isn't counted."""

    def __init__(self) -> None:
        self._open: List[List[int]] = []

    def note(self, cmd: str, reply: Dict[str, Any]) -> None:
        """Takes a reply to a line into account. A `modify` that lost its record is refused, and has changed something."""
        if cmd in CHANGES:
            done = reply.get("erased", 1) if reply.get("ok") else int(reply.get("lost") is True)
            if self._open:
                self._open[-1][1] += done
        elif not reply.get("ok"):
            return
        elif cmd == "start":
            self._open.append([reply["revision"], 0])
        elif cmd == "undo" and self._open:
            self._open.pop()
        elif cmd == "squash" and self._open:
            number, changes = self._open.pop()
            if self._open and self._open[-1][0] == number - 1:
                self._open[-1][1] += changes

    def clear(self) -> None:
        self._open.clear()

    def told(self) -> Sequence[Sequence[int]]:
        """Pairs of a session's number and its changes."""
        return [list(it) for it in self._open]
