"""Bytes to a server and lines from it. It writes only what is taken at once and reads meanwhile, so it can't stand still with a
server that waits for its replies to be read. It knows nothing of commands."""
from __future__ import annotations

import collections
import functools
import os
import select
import socket
import time
from typing import Callable, Deque, List, Optional, Tuple

from mi_client.listening import acknowledging

LARGEST_READ = 1 << 16
IN = select.POLLIN | select.POLLHUP | select.POLLERR | select.POLLNVAL


class Channel:
    """The two ends. Whoever opened them closes them."""

    def __init__(self, reading: int, writing: int, write: Callable[[bytes], int], timeout: Optional[float] = None) -> None:
        """Use `of_pipes` or `of_socket`. `write` takes some bytes at once, or raises BlockingIOError."""
        self._reading, self._writing, self._taken_at_once = reading, writing, write
        self.wait_for(timeout)
        self._in, self._both = select.poll(), select.poll()
        self._in.register(reading, IN)
        self._both.register(reading, IN)
        self._both.register(writing, IN | select.POLLOUT if writing == reading else select.POLLOUT)
        self._out = bytearray()
        # (one buffer for all reads: a new one of this size for each would cost more than a short exchange itself)
        self._buffer = memoryview(bytearray(LARGEST_READ))
        self._rest: List[bytes] = []
        self._lines: Deque[bytes] = collections.deque()
        self._broken: Optional[OSError] = None
        self.is_busy = False  # (whether bytes are exchanged, and not yet all of them: for its owner, who sets it)
        self._acknowledge: Optional[Callable[[], None]] = None

    @classmethod
    def of_pipes(cls, reading: int, writing: int, timeout: Optional[float] = None) -> Channel:
        """Over the descriptors of two pipes. A reply that takes longer than `timeout` seconds raises TimeoutError."""
        os.set_blocking(writing, False)
        return cls(reading, writing, functools.partial(os.write, writing), timeout)

    @classmethod
    def of_socket(cls, stream: socket.socket, timeout: Optional[float] = None) -> Channel:
        stream.setblocking(True)
        made = cls(stream.fileno(), stream.fileno(), lambda data: stream.send(data, socket.MSG_DONTWAIT), timeout)
        made._acknowledge = acknowledging(stream)
        return made

    def wait_for(self, timeout: Optional[float]) -> None:
        """A reply that is waited for longer than so many seconds, however it trickles in, raises TimeoutError."""
        self._timeout = self._left = None if timeout is None else max(0.001, timeout)

    def queued(self) -> int:
        """How many bytes are still to be written."""
        return len(self._out)

    def queue(self, data: bytes) -> None:
        """Takes bytes to be written by the next steps."""
        self._out += data

    def exchange(self, line: bytes) -> bytes:
        """Writes a line and answers the one that comes back, where nothing else is on its way. Raises OSError, and EOFError
        where the other side has ended."""
        self._out += line
        self._write()
        while not self._lines:
            self.step()
        return self._lines.popleft()

    def write_all(self, data: bytes) -> None:
        """Writes bytes that have no reply, for which the time is that of a reply."""
        self._out += data
        self._write()
        while self._out:
            self.step()
        self._left = self._timeout
        if self._broken:
            raise self._broken

    def taken(self) -> List[bytes]:
        """The whole lines that have come, without their newlines."""
        lines = list(self._lines)
        self._lines.clear()
        return lines

    def step(self, wait: bool = True) -> None:
        """Writes what can be written of what is queued and reads what is there; with `wait`, waits until either can be done.
        Raises EOFError where the other side has ended and every line of it was read, and TimeoutError."""
        if self._out:
            self._write()
        if wait and not self._out and self._timeout is None:
            self._read()  # (which waits)
            return
        poller = self._both if self._out else self._in
        for it, events in self._waited(poller) if wait else poller.poll(0):
            if it == self._reading and events & IN:
                self._read()

    def _waited(self, poller: select.poll) -> List[Tuple[int, int]]:
        """What can be read or written, for which no longer is waited than is left for the reply."""
        if self._left is None:
            return poller.poll()
        began = time.monotonic()
        ready = poller.poll(1000 * self._left) if self._left > 0 else []
        self._left -= time.monotonic() - began
        if not ready:
            raise TimeoutError("the server took too long")
        return ready

    def _write(self) -> None:
        """A failed write is raised once all that the other side wrote before has been read."""
        try:
            if self._out and not self._broken:
                del self._out[: self._taken_at_once(self._out)]
        except BlockingIOError:
            pass
        except OSError as error:
            self._broken = error
            self._out.clear()

    def _read(self) -> None:
        data = bytes(self._buffer[: os.readv(self._reading, [self._buffer])])
        if not data:
            raise self._broken or EOFError("the server ended the connection")
        if self._acknowledge:
            self._acknowledge()
        if not self._rest and data.find(b"\n") == len(data) - 1:
            self._left = self._timeout
            self._lines.append(data[:-1])
            return
        head, newline, tail = data.partition(b"\n")
        self._rest.append(head)
        if newline:
            self._left = self._timeout
            self._lines.append(b"".join(self._rest))
            *whole, rest = tail.split(b"\n")
            self._lines.extend(whole)
            self._rest = [rest] if rest else []
