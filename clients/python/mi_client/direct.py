"""Each command as a call that waits for its reply, and blocks of sessions. How a request is sent, `Database` says."""
from __future__ import annotations

import contextlib
from typing import Any, Callable, Iterable, Iterator, List, Optional, TypeVar

from mi_client import calls
from mi_client.atomic import Together
from mi_client.calls import Commands
from mi_client.dialect import Dialect
from mi_client.errors import Ended, Refused
from mi_client.old_forms import Openness
from mi_client.request import Request

T = TypeVar("T")


class Calls(Commands):
    """The commands, each of which waits for its reply, and blocks of sessions."""

    _dialect: Dialect
    _blocks: List[object]
    """Of the open sessions, the innermost last."""

    def _break_off(self, why: str) -> None:
        """Ends the connection, which says from here on why."""
        raise NotImplementedError

    def send(self, request: Request[T]) -> T:
        """The answer to a request. Raises Refused and Ended."""
        raise NotImplementedError

    def _answer_of_block(self, request: Request[T]) -> T:
        """The answer to a request by which a block begins or ends, which isn't counted among the lines that do so."""
        raise NotImplementedError

    def _replies_to(self, lines: List[bytes]) -> List[bytes]:
        """The replies to lines that are sent together."""
        raise NotImplementedError

    def alone(self) -> contextlib.AbstractContextManager[Any]:
        """A block in which no other thread asks on this connection."""
        raise NotImplementedError

    @property
    def is_open(self) -> Openness:
        """Whether commands can be asked."""
        raise NotImplementedError

    @contextlib.contextmanager
    def session(self) -> Iterator[int]:
        """A session for a block, which gets its number. Where the block raises, all of it is undone, and the exception goes
        on; else it is squashed, with the sessions that the block left open above it, or undone where that is refused (as `journal`). What the
        block itself committed or pushed stays as it is. Other threads that share the connection wait until the block has ended, so that what they do is never
        undone with it. Where the block is interrupted while it begins or ends, or ends before one that began later, as a generator's
        can, the connection ends, so that the server undoes what it holds: what came later would be undone with it."""
        mine, is_settled = object(), False
        with self.alone():
            try:
                try:
                    number = self._answer_of_block(calls.begin())
                except (Refused, Ended, RuntimeError):
                    is_settled = True
                    raise
                self._blocks.append(mine)
                steps = self._dialect.session_steps
                try:
                    yield number
                except BaseException:
                    if self.is_open:
                        self._end_session(mine, number, steps, calls.undo)
                    is_settled = True
                    raise
                try:
                    self._end_session(mine, number, steps, calls.squash)
                except Refused:
                    self._end_session(mine, number, steps, calls.undo)
                    is_settled = True
                    raise
                is_settled = True
            finally:
                if not is_settled:
                    self._break_off("a session was interrupted where it begins or ends")
                if mine in self._blocks:
                    self._blocks.remove(mine)

    def _end_session(self, block: object, number: int, steps: int, end: Callable[[], Request[int]]) -> None:
        """Ends the session of this number. Where the block itself may have begun or ended some, it is those from this one on, as far as the
        connection holds them: what was committed or pushed in the block isn't its own any more."""
        if self.is_open and self._blocks[-1] is not block:
            raise RuntimeError("the block of a session ends before one that began later: the connection is closed")
        if self._dialect.session_steps == steps:
            self._answer_of_block(end())
            return
        now = self._answer_of_block(calls.revision())
        while now.held > 0 and now.revision >= number:
            self._answer_of_block(end())
            now = self._answer_of_block(calls.revision())

    def atomically(self, changes: Iterable[Request[Any]]) -> List[Any]:
        """Does all of some changes or none, as `[calls.modify(0, add={"balance": -5}), calls.erase(1)]` of `mi_client.calls`, and answers what
        each would; look-ups may stand among them. Where one is refused all are undone, and its refusal is raised: `change` is its place, or
        None where what ends the session is refused.

        They are sent ahead in a session of their own, so all of them cost two waits. Where that is interrupted the connection ends, and the
        server undoes what isn't squashed. It ends too, with Ended, in the rare case that the session is refused and a change isn't."""
        made, mine = Together(self._dialect, changes), object()
        steps, broken_by = made.steps(), "changes that are done together were interrupted"
        replies: Optional[List[bytes]] = None
        with self.alone():
            self._blocks.append(mine)
            try:
                with contextlib.suppress(StopIteration):
                    while True:
                        replies = self._replies_to(steps.send(replies))
                broken_by = ""
            except (Ended, RuntimeError) as error:
                broken_by = "" if replies is None else str(error)  # (in the middle of another call nothing is sent)
                raise
            finally:
                if broken_by:
                    self._break_off(broken_by)
                self._blocks.remove(mine)
        return made.results()
