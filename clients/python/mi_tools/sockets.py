"""How many bytes the connections of a port have moved. /proc counts those of files and pipes alone, so Linux is asked by `sock_diag`, as `ss -i`
asks it."""
from __future__ import annotations

import glob
import os
import re
import socket
import struct
from typing import Iterator, NamedTuple, Optional, Set, Tuple

UNTOLD = "not told: the system counts no bytes of such connections, or not for this user"
BY_FAMILY, ENDS, FAULT = 20, 3, 2
"""The types of a question and of the messages that end an answer."""
REQUEST_ALL = 0x301
HEADER, ASKED, FOUND, ATTRIBUTE = struct.Struct("=IHHII"), struct.Struct("=BBBxI"), struct.Struct("=4x2s2s36s8s16xI"), struct.Struct("=HH")
TCP_INFO = 2
STATES = sum(1 << it for it in (1, 4, 5, 8, 9, 11))
"""The connections that are open, or open at one side."""
RECEIVED, SENT, ACKNOWLEDGED, OLD, NEW = 128, 200, 120, 136, 216
"""Where the counts stand in a connection's `tcp_info`, and how long that is without a count of what was sent, and with one."""


class Connection(NamedTuple):
    here: int
    """The port of this end."""
    there: int
    cookie: bytes
    """What no other connection has."""
    inode: int
    received: int
    sent: int


class Traffic:
    """What the server at a port has read and written since the first look, over connections of other processes. What one moves between the
    last look and its end isn't seen."""

    def __init__(self, port: int) -> None:
        self._port, self._known = port, {it.cookie: it for it in connections() or ()}
        self._read = self._written = 0

    def moved(self) -> Tuple[Optional[int], Optional[int]]:
        """Bytes read and bytes written; None where the system doesn't tell."""
        found = connections()
        if found is None:
            return None, None
        mine = own_inodes()
        own = {it.here for it in found if it.there == self._port and it.inode in mine}
        for it in found:
            if it.here == self._port and it.there not in own:
                before = self._known.get(it.cookie)
                self._read += it.received - (before.received if before else 0)
                self._written += it.sent - (before.sent if before else 0)
        self._known = {it.cookie: it for it in found}
        return self._read, self._written


def connections() -> Optional[Tuple[Connection, ...]]:
    """All over IPv4; None where the system doesn't tell them."""
    try:
        with socket.socket(socket.AF_NETLINK, socket.SOCK_RAW, 4) as asking:  # (4 is NETLINK_SOCK_DIAG)
            asking.settimeout(5)
            body = ASKED.pack(socket.AF_INET, socket.IPPROTO_TCP, 1 << (TCP_INFO - 1), STATES) + bytes(48)
            asking.send(HEADER.pack(HEADER.size + len(body), BY_FAMILY, REQUEST_ALL, 1, 0) + body)
            return tuple(answers(asking))
    except (AttributeError, OSError, struct.error):
        return None


def answers(asked: socket.socket) -> Iterator[Connection]:
    while True:
        data = asked.recv(1 << 18)
        while data:
            size, kind, *_ = HEADER.unpack_from(data)
            if kind == ENDS:
                return
            if kind == FAULT:
                raise OSError("the question is refused")
            yield from connection(data[HEADER.size:size])
            data = data[(size + 3) & ~3:]


def connection(message: bytes) -> Iterator[Connection]:
    """The connection of a message, where its counts are there."""
    here, there, _, cookie, inode = FOUND.unpack_from(message)
    rest = message[FOUND.size:]
    while len(rest) >= ATTRIBUTE.size:
        size, kind = ATTRIBUTE.unpack_from(rest)
        if size < ATTRIBUTE.size:
            return
        info, rest = rest[ATTRIBUTE.size:size], rest[(size + 3) & ~3:]
        if kind == TCP_INFO and len(info) >= OLD:
            count = struct.Struct("=Q")
            received = count.unpack_from(info, RECEIVED)[0]
            if len(info) >= NEW:
                sent, again = struct.unpack_from("=QQ", info, SENT)
            else:
                sent, again = count.unpack_from(info, ACKNOWLEDGED)[0], 0
            yield Connection(int.from_bytes(here, "big"), int.from_bytes(there, "big"), cookie, inode, received, sent - again)


def own_inodes() -> Set[int]:
    """The sockets of this process."""
    found: Set[int] = set()
    for it in glob.glob("/proc/self/fd/*"):
        try:
            name = re.fullmatch(r"socket:\[(\d+)\]", os.readlink(it))
        except OSError:
            continue
        if name:
            found.add(int(name[1]))
    return found
