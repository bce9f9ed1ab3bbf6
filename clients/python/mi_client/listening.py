"""Where a server listens: on a port of 127.0.0.1, or at the path of a Unix socket, which a service has by --unix."""
from __future__ import annotations

import contextlib
import os
import socket
from typing import Callable, Optional, Union

from mi_client.errors import nobody_at, nobody_listens

Where = Union[int, str, "os.PathLike[str]"]
"""A port, or a path: a text with a `/` in it, or what is made as a path."""
NOBODY = (ConnectionRefusedError, FileNotFoundError)
"""What the system says where nobody listens."""


def path_of(where: Where) -> Optional[str]:
    """The path, where it is one."""
    if isinstance(where, os.PathLike):
        return os.fspath(where)
    return where if isinstance(where, str) and "/" in where else None


def nobody(host: str, where: Where) -> ConnectionRefusedError:
    """What is raised where nobody listens."""
    path = path_of(where)
    return nobody_listens(host, where) if path is None else nobody_at(path)


def stream_to(host: str, where: Where, timeout: Optional[float]) -> socket.socket:
    """A stream to the server that listens there; what is written to it is sent at once. Raises OSError; one of NOBODY where nobody does."""
    path = path_of(where)
    if path is not None:
        return _stream_at(path, timeout)
    stream = socket.create_connection((host, where), timeout=timeout)  # type: ignore[arg-type]
    if joins_itself(stream):
        stream.close()  # (where nobody listens the system may have chosen this very port, and joined the two ends)
        raise nobody_listens(host, where)
    stream.setsockopt(socket.IPPROTO_TCP, socket.TCP_NODELAY, 1)
    return stream


def _stream_at(path: str, timeout: Optional[float]) -> socket.socket:
    stream = socket.socket(socket.AF_UNIX)
    try:
        stream.settimeout(timeout)
        stream.connect(path)
    except OSError as error:
        stream.close()
        if error.errno is None or isinstance(error, NOBODY):
            raise
        raise OSError(error.errno, error.strerror, path) from None
    return stream


def joins_itself(stream: socket.socket) -> bool:
    """Whether a connection's two ends are one. Not of one that has broken off by now, which the first command tells."""
    with contextlib.suppress(OSError):
        return bool(stream.getsockname() == stream.getpeername())
    return False


def acknowledging(stream: Optional[socket.socket]) -> Optional[Callable[[], None]]:
    """What is called behind each read of such a stream. The server's next reply may wait until this side has acknowledged the one before, which
    it does 40 ms later unless it is asked to do so at once; the system forgets that with time. Over a Unix socket and pipes nothing waits."""
    if stream is None or stream.family == socket.AF_UNIX or not hasattr(socket, "TCP_QUICKACK"):
        return None
    asked = stream  # (which is some stream)
    return lambda: asked.setsockopt(socket.IPPROTO_TCP, socket.TCP_QUICKACK, 1)
