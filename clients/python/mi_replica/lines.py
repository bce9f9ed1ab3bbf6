"""Lines of commands and their replies, as a member has to know them: which lines are look-ups, which may begin a session, and what a member
says itself in the place of its server."""
from __future__ import annotations

import json
import re
from typing import Any, List, Optional, Tuple

from mi_client.commands import COMMANDS, LOOK_UPS as LOOK_UPS

LONGEST_LINE = 65_536
UNDO = b'{"cmd":"undo"}\n'
REVISION = b'{"cmd":"revision"}\n'

JSON = b'{"error":"json","ok":false}'
FORM = b'{"error":"form","ok":false}'
BUSY = b'{"error":"busy","ok":false}'
MEMORY = b'{"error":"memory","ok":false}'
NO_ROOM = b'{"error":"journal","ok":false}'
HELD = re.compile(rb'"held":(\d+)')


def may_start(line: bytes) -> bool:
    """Whether a line may begin a session. (A backslash may write any letter.)"""
    return b'"start"' in line or b"\\" in line


def command(line: bytes) -> Tuple[Optional[str], bytes]:
    """The command that a line names, or None and the refusal of a line that names none. It is stricter than the server in what JSON is."""
    try:
        found = json.loads(line)
    except (ValueError, RecursionError):
        return None, JSON
    name = found.get("cmd") if isinstance(found, dict) else None
    if not isinstance(name, str) or name not in COMMANDS:
        return None, FORM
    return name, b""


def is_of_member(line: bytes) -> bool:
    """Whether a line asks the member how it stands."""
    return b'"member"' in line and is_command(line, "member")


def is_command(line: bytes, name: str) -> bool:
    """Whether a line is this command, without any member."""
    try:
        return bool(json.loads(line) == {"cmd": name})
    except (ValueError, RecursionError):
        return False


def said(members: Any) -> bytes:
    """A reply of the member's own, as replies are written."""
    return json.dumps(members, separators=(",", ":"), sort_keys=True).encode()


def not_leader(address: str) -> bytes:
    """The refusal of a change by a member that follows: who leads, where that is known."""
    return said({"error": "leader", "leader": address, "ok": False})


class Splitter:
    """Cuts bytes into lines. Empty ones, which have no reply, are left out; of one that is too long, enough is kept to be too long."""

    def __init__(self) -> None:
        self._rest = b""

    def feed(self, data: bytes) -> List[bytes]:
        """The lines that have ended, each with its newline."""
        *whole, rest = (self._rest + data).split(b"\n")
        self._rest = rest[: LONGEST_LINE + 1]
        return [it[: LONGEST_LINE + 1] + b"\n" for it in whole if it not in (b"", b"\r")]

    def end(self) -> List[bytes]:
        """What stands behind the last newline is a line too. (Of a line that no newline ended no carriage return is dropped.)"""
        rest, self._rest = self._rest, b""
        return [rest + (b"\r\n" if rest.endswith(b"\r") else b"\n")] if rest else []
