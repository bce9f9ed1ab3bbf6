"""Lines sent ahead of their replies. The replies come in the order of the lines; a window bounds how many are awaited, and
every wait both writes and reads, so neither side can stand still for the other, however long lines and replies are."""
from __future__ import annotations

import collections
from typing import Any, Callable, Deque, Dict, Generic, Iterable, Iterator, List, Optional, Tuple, TypeVar

from mi_client.calls import Commands
from mi_client.dialect import REFUSAL, Dialect
from mi_client.errors import Refused
from mi_client.request import Request

T = TypeVar("T")

WINDOW = 1024
"""How many replies are awaited at most, where the caller doesn't say."""

LARGEST_BATCH = 1 << 15
"""The bytes that are written at once; a pipe takes twice as many."""


Step = Callable[[Any, bool], None]
"""Writes what is `handed` and reads, waiting for either where it is told to and a reply is awaited; what has `come` is given. All this is
one call of the connection, so a signal handler or a finalizer that comes in between can't make another one there."""


Alone = Callable[[Any], None]
"""Waits until everything else that was sent ahead on the connection is answered."""


class LinesAhead:
    """Lines that are sent ahead, for `Database.ask_lines`."""

    def __init__(self, step: Step, alone: Alone, window: int) -> None:
        if window < 1:
            raise ValueError("a window has room for one line at least")
        self._step, self._alone, self._window = step, alone, window
        self.awaited = 0
        self._batch: List[bytes] = []
        self._come: Deque[bytes] = collections.deque()

    def flush(self) -> None:
        """Waits until every line that was sent has been answered."""
        self._advance(0)

    def replies(self, lines: Iterable[bytes]) -> Iterator[bytes]:
        """The replies to these lines, in order. Where it's closed early, or the lines raise, what was sent is still to be answered:
        see `flush`."""
        batch: List[bytes] = []
        size = 0
        for line in lines:
            batch.append(line)
            size += len(line)
            if self.awaited + len(batch) < self._window and size < LARGEST_BATCH:
                continue
            self._send(batch)
            batch, size = [], 0
            yield from self._given()
            if self.awaited >= self._window:
                self._advance(self._window // 2)
                yield from self._given()
        self._send(batch)
        while self.awaited or self._come:
            yield from self._given()
            self._advance(max(0, self.awaited - 1))

    def _send(self, batch: List[bytes]) -> None:
        self._alone(self)
        self._batch = batch
        self._step(self, False)

    def _given(self) -> Iterator[bytes]:
        while self._come:
            yield self._come.popleft()

    def _advance(self, left: int) -> None:
        while self.awaited + len(self._batch) > left:
            self._step(self, True)

    def handed(self) -> bytes:
        """What is to be written next, and is awaited then."""
        batch, self._batch = self._batch, []
        self.awaited += len(batch)
        return b"".join(batch)

    def come(self, replies: List[bytes]) -> None:
        self.awaited -= len(replies)
        self._come.extend(replies)


class Answer(Generic[T]):
    """The answer to a line that was sent ahead."""

    __slots__ = ("_pipeline", "_request", "_reply")

    def __init__(self, pipeline: Pipeline, request: Request[T]) -> None:
        self._pipeline, self._request = pipeline, request
        self._reply: Optional[bytes] = None

    def is_there(self) -> bool:
        """Whether the reply has come; it comes at the latest at the end of the pipeline's block."""
        return self._reply is not None

    def result(self) -> T:
        """What the call answers, which is waited for. Raises Refused, and Ended where the connection broke off before."""
        if self._reply is None:
            self._pipeline.wait_for(self)
        self._pipeline.looked_at(self)
        assert self._reply is not None
        return self._pipeline.dialect.read(self._request, self._reply)


class Pipeline(Commands):
    """The calls of a connection, each of which answers at once with an `Answer`. At the end of the block all have been
    answered, and the first refusal that nobody has looked at is raised. For one thread: others that share the connection wait
    until the block has ended."""

    def __init__(self, dialect: Dialect, step: Step, alone: Alone, window: int = WINDOW) -> None:
        if window < 1:
            raise ValueError("a window has room for one line at least")
        self.dialect = dialect
        self._step, self._alone, self._window = step, alone, window
        self._is_over = False
        self._batch: List[Tuple[bytes, Answer[Any]]] = []
        self._bytes = 0
        self._awaited: Deque[Answer[Any]] = collections.deque()
        self._unseen: Dict[Answer[Any], None] = {}

    def send(self, request: Request[T]) -> Answer[T]:
        """Sends a request ahead. Waits only where the window is full. Raises ValueError where the block has ended."""
        if self._is_over:
            raise ValueError("the block of this pipeline has ended")
        line = self.dialect.line(request)
        self._alone(self)
        answer = Answer(self, request)
        self._batch.append((line, answer))
        self._bytes += len(line)
        if len(self._awaited) + len(self._batch) >= self._window:
            # (half of the window at a time, so that a wait is worth it)
            self._advance(self._window // 2)
        elif self._bytes >= LARGEST_BATCH:
            self._step(self, False)
        return answer

    def flush(self) -> None:
        """Waits until every line has been answered."""
        self._advance(0)

    def refused(self) -> List[Refused]:
        """The refusals that nobody has looked at yet, in their order, of what has been answered; they are looked at then."""
        found = []
        for it in list(self._unseen):
            try:
                it.result()
            except Refused as refusal:
                found.append(refusal)
        return found

    def wait_for(self, answer: Answer[Any]) -> None:
        """Waits for one answer, and so for all before it."""
        while not answer.is_there():
            self._step(self, True)

    def looked_at(self, answer: Answer[Any]) -> None:
        """Its refusal isn't raised at the end of the block any more."""
        self._unseen.pop(answer, None)

    def end(self) -> None:
        """Nothing more is sent. Raises the first refusal that nobody has looked at."""
        self._is_over = True
        for it in self._unseen:
            it.result()

    def _advance(self, left: int) -> None:
        while len(self._awaited) + len(self._batch) > left:
            self._step(self, True)

    @property
    def awaited(self) -> int:
        return len(self._awaited)

    def handed(self) -> bytes:
        """What is to be written next, and is awaited then."""
        batch, self._batch, self._bytes = self._batch, [], 0
        self._awaited.extend([answer for _, answer in batch])
        return b"".join([line for line, _ in batch])

    def come(self, replies: List[bytes]) -> None:
        for reply in replies:
            answer = self._awaited.popleft()
            answer._reply = reply
            if reply.startswith(REFUSAL):
                self._unseen[answer] = None
