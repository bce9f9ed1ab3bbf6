"""Walks over pages, windows by place, counts between keys, and the equals of a key for asyncio: the plans of `plans.py`, carried out by
awaiting."""
from __future__ import annotations

import asyncio
from typing import Any, AsyncIterator, List, Optional, Sequence, TypeVar

from mi_client import plans
from mi_client.errors import Refused
from mi_client.plans import Batch, Plan, Window
from mi_client.request import MOST_ROWS, Bound, Key, Request, Row
from mi_client.schema import Schema

T = TypeVar("T")
R = TypeVar("R")


class AwaitedWalks:
    @property
    def schema(self) -> Optional[Schema]:
        """The tables, where they are known."""
        raise NotImplementedError

    async def send(self, request: Request[T]) -> T:
        """The answer to a request. Raises Refused and Ended."""
        raise NotImplementedError

    def walk_range(
        self,
        index: str,
        columns: Optional[Sequence[str]] = None,
        lower: Optional[Bound] = None,
        upper: Optional[Bound] = None,
        reverse: bool = False,
        page: int = MOST_ROWS,
        table: Optional[str] = None,
    ) -> AsyncIterator[Row]:
        """The rows of a range, one page after another, as `Database.walk_range` has them."""
        return self._rows(plans.walk_range(self.schema, index, columns, lower, upper, reverse, page, table))

    def walk_list(self, index: str, page: int = MOST_ROWS, table: Optional[str] = None) -> AsyncIterator[Row]:
        """The rows of a sequenced index, one page after another."""
        return self._rows(plans.walk_list(index, page, table))

    def equal(self, index: str, key: Key, table: Optional[str] = None, page: int = MOST_ROWS) -> AsyncIterator[Row]:
        """Every record with a key, as `Database.equal` has them."""
        return self._rows(plans.equal(self.schema, index, key, table, page))

    async def window(self, index: str, place: int, n: int, table: Optional[str] = None) -> Window:
        """The rows of a ranked index at the places from `place` on, at most n."""
        return await self._answer(plans.window(index, place, n, table))

    async def around(self, id: int, n: int, index: Optional[str] = None, table: Optional[str] = None) -> Window:
        """A record, n rows before it and n behind it in a ranked index."""
        return await self._answer(plans.around(self.schema, id, n, index, table))

    async def count_range(self, index: str, from_key: Key, to_key: Key, table: Optional[str] = None) -> int:
        """How many records of a ranked index have a key between two, both included, in the order of the index."""
        return await self._answer(plans.count_range(self.schema, index, from_key, to_key, table))

    async def _asked(self, batch: Batch) -> List[asyncio.Task[Any]]:
        """The answers to requests that are sent together."""
        answers = [asyncio.ensure_future(self.send(it)) for it in batch.requests]
        for it in await asyncio.gather(*answers, return_exceptions=True):
            if isinstance(it, BaseException) and not isinstance(it, Refused):
                raise it
        return answers

    async def _rows(self, plan: Plan[R]) -> AsyncIterator[Row]:
        answers: Optional[List[asyncio.Task[Any]]] = None
        while True:
            try:
                step = plan.send(answers)
            except StopIteration:
                return
            answers = None
            if isinstance(step, Batch):
                answers = await self._asked(step)
            else:
                yield step

    async def _answer(self, plan: Plan[R]) -> R:
        answers: Optional[List[asyncio.Task[Any]]] = None
        while True:
            try:
                step = plan.send(answers)
            except StopIteration as end:
                found: R = end.value
                return found
            assert isinstance(step, Batch)
            answers = await self._asked(step)
