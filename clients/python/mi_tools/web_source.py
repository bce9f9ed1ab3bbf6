"""The one connection of `weltiyo web` to the table server, which all its pages share: one request at a time, each sent as a pipeline. It
comes back where the server does, and keeps samples of the last ten minutes."""
from __future__ import annotations

import collections
import json
import statistics
import threading
import time
from typing import Any, Callable, Deque, Dict, List, NamedTuple, Optional, Sequence, Tuple

from mi_client import Database, Ended, Schema
from mi_client.commands import LOOK_UPS
from mi_client.listening import Where
from mi_client.service_lines import STATUS_LINE
from mi_tools import fitting, process
from mi_tools.web_desk import Line, Stack

EVERY = 2.0
"""Seconds between two samples."""
KEPT = 300
"""How many of them are kept: ten minutes."""
PAUSE = 0.001
"""Seconds between two empty lines, by which a server that reads by turns goes on to its other connections."""
STATUS_MEMBERS = ("connections", "journal_bytes", "lines", "memory")
"""Members of a service's status that are shown, where its reply has them as numbers."""
BY_TURNS = "mi_server"
"""The program whose connections wait for each other."""


class Gone(ConnectionError):
    """The server isn't there, and why; it is looked for again at the next request."""


class Unwanted(Exception):
    """Whoever asked is gone before the server was asked."""


class Told(NamedTuple):
    epoch: int
    """Which connection answered: 1 for the first, one more whenever the server came back."""
    seconds: float
    replies: List[str]
    changes: Sequence[Sequence[int]]


class Source:
    def __init__(self, connect: Callable[[], Database], schema: Optional[Schema], port: Optional[Where], returns: bool) -> None:
        """`connect` gives a connection; it is asked again where one has ended, if the server `returns`. Where no schema is given the server is
        asked for it once; one that tells none has the built-in one."""
        self.schema, self.port, self.returns = schema or Schema.built_in(), port, returns
        self._learns = schema is None
        self._connect = connect
        self._lock = threading.Lock()
        self._db: Optional[Database] = None
        self._process: Optional[int] = None
        self._by_turns = False
        self._stack = Stack()
        self._is_closed = False
        self.epoch = 0
        self.has_status = False
        self._lines = 0
        self._waits: List[float] = []
        self._last_asked = 0.0
        self.samples: Deque[Dict[str, Any]] = collections.deque(maxlen=KEPT)

    def start(self) -> None:
        """Connects, and begins to look. Raises OSError, Ended, and ValueError where the schema isn't the server's."""
        with self._lock:
            self._come()
        for work in (self._sample_on, self._pass_turns):
            threading.Thread(target=work, daemon=True).start()

    def close(self) -> None:
        """Ends the connection, unless a request has waited for its reply for a second: it ends with the process then."""
        self._is_closed = True
        if self._lock.acquire(timeout=1.0):
            if self._db:
                self._db.close()
            self._lock.release()

    # Asking

    def ask(self, lines: Sequence[Line], is_wanted: Callable[[], bool] = lambda: True) -> Told:
        """The replies to these lines, which are sent together. Raises Gone, and Unwanted."""
        with self._lock:
            if not is_wanted():
                raise Unwanted()
            db = self._connected()
            began = time.perf_counter()
            try:
                replies = list(db.ask_lines(it.text for it in lines))
            except (Ended, OSError) as error:
                raise self._went(error) from error
            took = time.perf_counter() - began
            self._last_asked = time.monotonic()
            self._lines += len(lines)
            self._waits.append(took)
            for it, reply in zip(lines, replies):
                if it.cmd not in LOOK_UPS:
                    self._stack.note(it.cmd, json.loads(reply))
            return Told(self.epoch, took, replies, self._stack.told())

    def _connected(self) -> Database:
        if self._db is None and self.returns and not self._is_closed:
            try:
                self._come()
            except (Ended, OSError, ValueError) as error:
                raise Gone(str(error)) from error
        if self._db is None:
            raise Gone("the server has ended")
        return self._db

    def _come(self) -> None:
        db = self._connect()
        try:
            if self._learns:
                self.schema, self._learns = db.learn_schema() or self.schema, False
            fault = fitting.misfit(db, self.schema)
            if fault:
                raise ValueError(fault)
            self.has_status = bool(json.loads(db.ask_line(STATUS_LINE)).get("ok"))
        except BaseException:
            db.close()
            raise
        db.answer_within(None)  # (it has answered: from here on the page says that a reply is awaited)
        self._db, self.epoch = db, self.epoch + 1
        self._process = db.process or (process.listener(self.port) if self.port else None)
        # (where it can't be seen which program listens, an empty line now and then does no harm)
        self._by_turns = db.process is None and name_of(self._process) in (BY_TURNS, None)

    def _went(self, error: Exception) -> Gone:
        """Lets go of a connection that has ended: what it held is undone by the server."""
        if self._db:
            self._db.close()
        self._db = None
        self._stack.clear()
        return Gone(str(error) or "the connection broke off")

    # Looking on

    def _pass_turns(self) -> None:
        while not self._is_closed:
            time.sleep(PAUSE if self._by_turns else EVERY)
            if not self._by_turns or time.monotonic() - self._last_asked < PAUSE:
                continue
            with self._lock:
                if self._db:
                    try:
                        self._db.pass_turn()
                    except (Ended, OSError) as error:
                        self._went(error)

    def _sample_on(self) -> None:
        asked = [line_of("size", table=it.name) for it in self.schema.tables] + [line_of("revision")]
        before, when = process.Usage(), time.monotonic()
        while not self._is_closed:
            time.sleep(EVERY)
            lines, waits = self._taken()
            now = time.monotonic()
            it: Dict[str, Any] = {"at": time.time(), "lines": lines / (now - when)}
            if waits:
                it.update(wait=statistics.median(waits) * 1000, longest=max(waits) * 1000)
            try:
                told = self.ask(asked)
                it.update(self._seen(told), epoch=told.epoch)
                usage = process.usage(self._process)
                it.update(memory=usage.memory, processor=_rate(usage.seconds, before.seconds, now - when))
                before = usage
            except Gone as error:
                it["gone"] = str(error)
            when = now
            self.samples.append(it)

    def _taken(self) -> Tuple[int, List[float]]:
        """The lines and waits since the last sample, but for those of the sample itself."""
        with self._lock:
            lines, waits = max(0, self._lines - len(self.schema.tables) - 1), self._waits
            self._lines, self._waits = 0, []
        return lines, waits

    def _seen(self, told: Told) -> Dict[str, Any]:
        *sizes, revision = [json.loads(it) for it in told.replies]
        found: Dict[str, Any] = {"rows": {table.name: it.get("size") for table, it in zip(self.schema.tables, sizes)}}
        found.update({name: revision.get(name) for name in ("revision", "depth", "held")})
        if self.has_status:
            found["status"] = self._status()
        return found

    def _status(self) -> Dict[str, float]:
        """The numbers of a service's status; those that its reply lacks are left out."""
        with self._lock:
            try:
                reply = json.loads(self._connected().ask_line(STATUS_LINE))
            except (Ended, OSError) as error:
                raise self._went(error) from error
        within = {**reply, "connections": len(reply["connections"])} if isinstance(reply.get("connections"), list) else reply
        return {it: within[it] for it in STATUS_MEMBERS if isinstance(within.get(it), (int, float))}


def _rate(now: Optional[float], before: Optional[float], seconds: float) -> Optional[float]:
    return None if now is None or before is None or seconds <= 0 else max(0.0, (now - before) / seconds)


def name_of(number: Optional[int]) -> Optional[str]:
    """The name of a process's program, where it can be seen."""
    try:
        with open(f"/proc/{number}/comm", encoding="utf-8", errors="replace") as file:
            return file.read().strip()
    except OSError:
        return None


def line_of(cmd: str, **members: Any) -> Line:
    return Line(cmd, fitting.line_of(cmd, **members))
