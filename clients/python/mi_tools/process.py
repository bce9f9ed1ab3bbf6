"""What Linux tells of a server's process: memory, bytes, processor time, the room beside its journal; and which process listens on a port or
at a path."""
from __future__ import annotations

import contextlib
import glob
import os
import re
from typing import Dict, NamedTuple, Optional

from mi_client.listening import Where, path_of

LISTENS = "0A"
"""The state of a listening socket in /proc/net/tcp."""
ACCEPTS = 0x10000
"""The flag of one in /proc/net/unix."""


class Usage(NamedTuple):
    """None where the system doesn't tell it, as of another user's process."""

    memory: Optional[int] = None
    """Bytes that are resident."""
    read: Optional[int] = None
    """Bytes that were read in all."""
    written: Optional[int] = None
    seconds: Optional[float] = None
    """Processor time."""


def usage(number: Optional[int]) -> Usage:
    """What the process has used; nothing is known without a number or without /proc."""
    if number is None:
        return Usage()
    status, moved = _members(f"/proc/{number}/status"), _members(f"/proc/{number}/io")
    memory = status.get("VmRSS")
    return Usage(
        int(memory.split()[0]) * 1024 if memory else None,
        int(moved["rchar"]) if "rchar" in moved else None,
        int(moved["wchar"]) if "wchar" in moved else None,
        _seconds(number),
    )


def _members(path: str) -> Dict[str, str]:
    try:
        with open(path, encoding="ascii", errors="replace") as file:
            return {name: it.strip() for name, _, it in (line.partition(":") for line in file)}
    except OSError:
        return {}


def _seconds(number: int) -> Optional[float]:
    try:
        with open(f"/proc/{number}/stat", encoding="ascii", errors="replace") as file:
            fields = file.read().rpartition(")")[2].split()
        return (int(fields[11]) + int(fields[12])) / os.sysconf("SC_CLK_TCK")
    except (OSError, IndexError, ValueError):
        return None


def locked_file(number: Optional[int]) -> Optional[str]:
    """The file that a process holds a lock of, as a service does of its journal: by the name that /proc has for it, whatever moved it
    meanwhile. None where it holds none, or where that can't be seen."""
    for path in glob.glob(f"/proc/{number}/fdinfo/*"):
        if re.search(r"FLOCK\s+ADVISORY\s+WRITE", _members(path).get("lock", "")):
            return path.replace("/fdinfo/", "/fd/")
    return None


def room_beside(path: Optional[str]) -> Optional[int]:
    """How many bytes are free on the disk of a file, for users who aren't root."""
    if path is None:
        return None
    with contextlib.suppress(OSError):
        disk = os.statvfs(path)
        return disk.f_bavail * disk.f_frsize
    return None


def listener(where: Where) -> Optional[int]:
    """The process that listens on this port of 127.0.0.1, or at this path, where it can be seen."""
    at = path_of(where)
    inode = _inode_of(where) if at is None else _inode_at(at)
    wanted = f"socket:[{inode}]"
    for path in glob.glob("/proc/[0-9]*/fd/*") if inode else []:
        try:
            if os.readlink(path) == wanted:
                return int(path.split("/")[2])
        except OSError:
            continue
    return None


def _inode_of(port: object) -> Optional[str]:
    found = None
    with contextlib.suppress(OSError), open("/proc/net/tcp", encoding="ascii") as file:
        for line in list(file)[1:]:
            fields = line.split()
            if fields[3] == LISTENS and int(fields[1].split(":")[1], 16) == port:
                found = fields[9]
    return found


def _inode_at(path: str) -> Optional[str]:
    with contextlib.suppress(OSError), open("/proc/net/unix", encoding="utf-8", errors="surrogateescape") as file:
        for line in list(file)[1:]:
            fields = line.rstrip("\n").split(maxsplit=7)
            if len(fields) == 8 and int(fields[3], 16) & ACCEPTS and os.path.realpath(fields[7]) == os.path.realpath(path):
                return fields[6]
    return None
