"""The two ends of a connection for asyncio."""
from __future__ import annotations

import asyncio
import socket
import time
from typing import Optional, Tuple

from mi_client.errors import nobody_listens
from mi_client.listening import NOBODY, Where, nobody, path_of


async def opened(host: str, where: Where, wait: float, timeout: Optional[float]) -> Tuple[asyncio.StreamReader, asyncio.StreamWriter]:
    """The streams of a connection to a server that listens there, or does so within `wait` seconds. Raises OSError."""
    end = time.monotonic() + wait
    while True:
        try:
            return await asyncio.wait_for(_streams(host, where), timeout)
        except NOBODY:
            if time.monotonic() >= end:
                raise nobody(host, where) from None
            await asyncio.sleep(0.02)
        except asyncio.TimeoutError:  # (which is no OSError ahead of Python 3.11)
            raise TimeoutError("the server took too long") from None


async def _streams(host: str, where: Where) -> Tuple[asyncio.StreamReader, asyncio.StreamWriter]:
    path = path_of(where)
    if path is not None:
        return await asyncio.open_unix_connection(path)
    reader, writer = await asyncio.open_connection(host, where)  # type: ignore[arg-type]
    if writer.get_extra_info("sockname") == writer.get_extra_info("peername"):
        writer.transport.abort()  # (where nobody listens the system may have chosen this very port, and joined the two ends)
        raise nobody_listens(host, where)
    writer.get_extra_info("socket").setsockopt(socket.IPPROTO_TCP, socket.TCP_NODELAY, 1)
    return reader, writer
