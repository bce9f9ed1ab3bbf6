"""A server process that listens on a free port of 127.0.0.1, for programs and tests that want several connections. It is
ended with the process that started it, however that one ends."""
from __future__ import annotations

import contextlib
import os
import re
import select
import socket
import subprocess
import time
import weakref
from typing import Any, List, Optional, Union

from mi_client.database import Database, schema_of
from mi_client.errors import Ended
from mi_client.old_forms import clients_first

GUARD = ["sh", "-c", 'read -r _; kill "$1" 2> /dev/null', "sh"]
"""Ends a process once the pipe that it reads has nobody who could write into it."""

LISTENS = re.compile(rb"listening 127\.0\.0\.1:(\d+)\n")
"""What a service says once it accepts connections."""

AnyPath = Union[None, str, "os.PathLike[str]"]


class Server:
    """A server, `mi_server`, for so many clients: it answers once all of them have come, and ends when all have gone. Or a service,
    `mi_service`, whose clients come and go, and which may keep a journal. Either ends when this object or this process is gone,
    or at the end of a `with` block."""

    @clients_first
    def __init__(
        self,
        program: AnyPath = None,
        schema: AnyPath = None,
        clients: int = 1,
        wait: float = 10.0,
        *,
        service: AnyPath = None,
        journal: AnyPath = None,
        sync: Optional[str] = None,
    ) -> None:
        """Either `program` or `service` is given, and names it. `schema` is a file. `journal` is the file that a service keeps its
        lines in and replays at its start, and `sync` is `always`, `turn` or `never`: when the file is made to stay.

        `connect` waits for the listener for at most `wait` seconds; of a service it is waited for here, its replay too, and
        TimeoutError is raised where that takes longer, Ended where it ends. Raises OSError where there is no such program."""
        if (program is None) == (service is None):
            raise ValueError("either a program or a service is started")
        if service is None and (journal is not None or sync is not None):
            raise ValueError("a journal is kept by a service")
        self.port: int = _free_port() if service is None else 0
        words = _option("--listen", str(self.port)) + (_option("--clients", str(clients)) if service is None else [])
        words += _option("--schema", schema) + _option("--journal", journal) + _option("--sync", sync)
        words.insert(0, os.fspath(service or program or ""))
        says = subprocess.PIPE if service is not None else None
        # (Python ignores SIGXFSZ, and so does a service then: where its journal may grow no further it says so, in place of being killed)
        restores = service is None
        self.process = subprocess.Popen(words, stdin=subprocess.DEVNULL, stdout=says, stderr=subprocess.PIPE, restore_signals=restores)
        quiet = {"stdout": subprocess.DEVNULL, "stderr": subprocess.DEVNULL}
        guard = subprocess.Popen([*GUARD, str(self.process.pid)], stdin=subprocess.PIPE, start_new_session=True, **quiet)  # type: ignore[call-overload]
        self._guard = guard
        self._end = weakref.finalize(self, _end, self.process, guard)
        _started.add(self)
        self._schema, self._wait, self._ends_itself = schema_of(schema), wait, service is None
        if service is not None:
            try:
                self.port = self._listening(time.monotonic() + wait)
            except BaseException:
                self._end()
                raise

    def _listening(self, end: float) -> int:
        """The port that a service says that it listens on."""
        assert self.process.stdout
        heard, said, poller = b"", self.process.stdout.fileno(), select.poll()
        poller.register(said, select.POLLIN)
        while True:
            if not poller.poll(max(0.0, 1000 * (end - time.monotonic()))):
                raise TimeoutError("the service doesn't listen yet")
            more = os.read(said, 4096)
            heard += more
            found = LISTENS.search(heard)
            if found:
                return int(found[1])
            if not more:
                self.process.wait()
                raise self._ended_early()

    def _ended_early(self) -> Ended:
        assert self.process.stderr
        said = self.process.stderr.read().decode(errors="replace").strip()
        return Ended(f"the server ended with status {self.process.returncode}{': ' if said else ''}{said}")

    def connect(self, timeout: Optional[float] = None) -> Database:
        """The next connection. It waits until the server listens, and raises `Ended` where the server ended first."""
        end = time.monotonic() + self._wait
        while True:
            try:
                return Database.connect(self.port, timeout, self._schema)
            except ConnectionRefusedError:
                if self.process.poll() is not None:
                    raise self._ended_early() from None
                if time.monotonic() > end:
                    raise
                time.sleep(0.02)

    def ended(self, timeout: float = 10.0) -> int:
        """Waits until the server has ended, and answers its status."""
        return self.process.wait(timeout)

    def close(self) -> None:
        """Ends the server. `mi_server` gets a second to end by itself; a service is told to end, and what it has answered is in its
        journal. What connections hold is undone, of a service at its next start. Twice is fine."""
        if not self._ends_itself and self._end.alive:
            self.process.terminate()
        with contextlib.suppress(subprocess.TimeoutExpired):
            self.process.wait(1)
        self._end()

    def __enter__(self) -> Server:
        return self

    def __exit__(self, *_: Any) -> None:
        self.close()


def _end(process: subprocess.Popen[bytes], guard: subprocess.Popen[bytes]) -> None:
    guard.kill()
    guard.wait()
    if process.poll() is None:
        process.kill()
        process.wait()
    for it in (process.stdout, process.stderr, guard.stdin):
        if it:
            it.close()


def _free_port() -> int:
    with socket.socket() as it:
        it.bind(("127.0.0.1", 0))
        found: int = it.getsockname()[1]
        return found


def _option(name: str, value: AnyPath) -> List[str]:
    return [] if value is None else [name, os.fspath(value)]


_started: weakref.WeakSet[Server] = weakref.WeakSet()


def _leave_all_to_parent() -> None:
    """In a child after a fork: what the child does at its end isn't for the servers of its parent."""
    for it in list(_started):
        it._end.detach()
        if it._guard.stdin:
            it._guard.stdin.close()


os.register_at_fork(after_in_child=_leave_all_to_parent)
