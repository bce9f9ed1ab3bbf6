"""How many calls of a connection wait for their replies at once, for asyncio."""
import asyncio
import collections
from typing import Any, Deque


class Places:
    """At most so many at once, in the order in which they come. (A semaphore of Python 3.9 loses a place where the one that waits
    for it is cancelled just as it gets it.) Raises ValueError where that is none."""

    def __init__(self, places: int) -> None:
        if places < 1:
            raise ValueError("a window has room for one line at least")
        self.most = self._places = places
        self._waiting: Deque[asyncio.Future[None]] = collections.deque()

    async def __aenter__(self) -> None:
        if self._places > 0:
            self._places -= 1
            return
        mine: asyncio.Future[None] = asyncio.get_running_loop().create_future()
        self._waiting.append(mine)
        try:
            await mine
        except BaseException:
            if mine.done() and not mine.cancelled():
                self._leave()
            raise

    async def __aexit__(self, *_: Any) -> None:
        self._leave()

    def _leave(self) -> None:
        """The place goes to the first that still waits."""
        while self._waiting:
            it = self._waiting.popleft()
            if not it.done():
                it.set_result(None)
                return
        self._places += 1
